//! Req 07 from both sides of each edge, and the decided reading of it (R6).

use crate::readings::holds;

const SET_UP: &str = "setup 0 4 5000 1000 500 500 => A\n";

fn holds_on_a_post(story: &str) {
    holds(&format!("{SET_UP}{story}"));
}

#[test]
fn answers_are_words_and_the_rest_stays() {
    holds_on_a_post(
        "batch - 0 => A
         batch - 1 => A 3735928559
         batch 00040009 1 => A 0
         batch 00040009 2 => A 0 3735928559
         batch 0004000900050009 2 => A 0 65537
         batch 000489c035010000040009 3 => A 1024 0 3735928559
         batch 000483c035020205000481c035010e 2 => A 67589 65541
         batch 05040009040400090504000a 2 => R23 3735928559 3735928559
         batch 0504000904040009 2 => A 0 65538",
    );
}

/// "judged in this order, and nothing changes".
#[test]
fn a_refused_batch_changes_nothing() {
    let (most, more) = ("00040009".repeat(1024), "00040009".repeat(1025));
    let untouched = " 3735928559".repeat(1025);
    holds_on_a_post(&format!(
        "batch 05040009 0 => R24
         tick 4 0 => A0
         batch 0504000906 1 => R23 3735928559
         batch 05040009060 1 => ?
         tick 4 0 => A0
         batch 050400090620 1 => R23 3735928559
         batch 050400090620 0 => R23
         tick 4 0 => A0
         batch {more} 1025 => R22{untouched}
         batch {most}00 0 => R22
         batch {most} 1023 => R24{}
         tick 4 0 => A0
         batch {most} 1024 => A{}
         batch 05040009 1 => A 0
         tick 4 4 => R2",
        " 3735928559".repeat(1023),
        " 0".repeat(1024),
    ));
}

/// R6: "Malformed and cut share one number".
#[test]
fn malformed_and_cut() {
    for bytes in ["00", "0004", "000400", "0020", "800004", "000400", "00040a09", "0004000a"] {
        holds_on_a_post(&format!("batch {bytes} 1 => R23 3735928559"));
    }
}

#[test]
fn a_batch_goes_on_behind_a_refused_record() {
    holds_on_a_post(
        "batch 64040009630400096404000965050009c801040009 5 => A 0 65538 0 65537 0
         record 0 => K ch=4 volt=5000 chg=1000 dis=500 w=500 sensor=0 iface=0 last=200 open=0 since=- first=- spms=- sdpc=- sstop=- n=3 tally=0,0,0,0,0,0,0,0,0,0,0,0 latest=-",
    );
}
