//! Req 05 from both sides of each edge, and the decided reading of it (R5).

use crate::desk::{self, Desk};
use crate::fields::{bytes, hex};
use crate::log;
use crate::readings::holds;
use crate::script::{script, Extras};

const POST: &str = "0,4,5000,1000,500,500";

#[test]
fn the_example() {
    holds(
        "replay ac02020009ac02030009 0,2,5000,2000,500,500 => 1 0 A0|2 - R1|END
         replay ac02020009ac02030009 - => 1 - R1|2 - R1|END
         replay - 0,2,5000,2000,500,500 => END
         replay - - => END",
    );
}

/// R5: "The dash stands for refusal 1 only".
#[test]
fn each_refusal() {
    for (record, said) in [
        ("05050009", "- R1"),
        ("04040009", "0 R2"),
        ("05040009", "0 A0"),
        ("050487c03100", "0 R3"),
        ("05040a00", "0 R3"),
        ("050481c03500", "0 R4"),
        ("050481c035020000", "0 R15"),
        ("050481c035010e", "0 R5 0"),
        ("050481c035010d", "0 A0"),
        ("050483c035020205", "0 R5 8"),
        ("050481c03108a00f83ff41000264", "0 R5 48"),
        ("05040c088215040000000000", "0 R6"),
        ("05040c088215000000000000", "0 A0"),
    ] {
        holds(&format!("replay 05040009{record} {POST} => 1 0 A0|2 {said}|END"));
    }
}

#[test]
fn findings_in_decimal() {
    holds(&format!(
        "replay 000489c0350100 {POST} => 1 0 A1024|END
         replay 000487c0350700000000000048 {POST} => 1 0 A12|END
         replay 000483c0350202010004000900048fc0350100 {POST} => 1 0 A0|2 0 A0|3 0 R3|END
         replay 000483c03502020185040400097f040009 {POST} => 1 0 A0|2 0 A1|3 0 R2|END"
    ));
}

#[test]
fn counts_of_more_than_one_digit() {
    for count in [9, 10, 99, 100, 1000] {
        let lines: Vec<String> = (1..=count).map(|n| format!("{n} 0 A0|")).collect();
        holds(&format!("replay {} {POST} => {}END", "00040009".repeat(count), lines.concat()));
    }
}

/// R5: "Records before a malformed one get their lines"; behind it nothing is read.
#[test]
fn endings() {
    for (tail, ending) in [
        ("00", "CUT@8"),
        ("000481c03501", "CUT@8"),
        ("8000", "BAD R16@8"),
        ("0020", "BAD R17@8"),
        ("00008020", "BAD R18@8"),
        ("00008180808004", "BAD R19@8"),
        ("0000000a", "BAD R20@8"),
        ("00000109", "BAD R21@8"),
        ("0020000900040009", "BAD R17@8"),
    ] {
        let alone = ending.replace("@8", "@0");
        holds(&format!(
            "replay 0004000900050009{tail} {POST} => 1 0 A0|2 - R1|{ending}
             replay {tail} {POST} => {alone}"
        ));
    }
}

#[test]
fn a_refused_set_up_ends_it_before_the_first_line() {
    for (set_up, number) in [
        ("16,5,5000,1000,500,500", 9),
        ("4294967295,32,0,0,0,0", 9),
        ("15,32,5000,1000,500,500", 10),
        ("15,4,5000,1000,500,500", 11),
        ("15,4,0,1000,500,500", 11),
        ("15,5,0,1000,500,500", 12),
        ("15,5,5000,1000,500,99", 12),
        ("15,5,5000,1000,500,500,2", 12),
        ("0,4,5000,1000,500,500,2", 12),
    ] {
        for log in ["-", "00040009", "0020", "00"] {
            holds(&format!(
                "replay {log} {POST};{set_up} => SETUP R{number}
                 replay {log} {POST};{set_up};16,5,1,1,1,1;6,6,5000,1000,500,500 => SETUP R{number}"
            ));
        }
    }
    holds(&format!("replay 00040009 {POST};15,31,65535,32767,32767,60000,1 => 1 0 A0|END"));
}

/// 01: "Setting up a post again, on its own channel or a free one, frees its old channel".
#[test]
fn a_post_set_up_again() {
    let log = "0004000900050009";
    holds(&format!(
        "replay {log} {POST};{POST} => 1 0 A0|2 - R1|END
         replay {log} {POST};0,5,5000,1000,500,500 => 1 - R1|2 0 A0|END
         replay {log} {POST};0,5,5000,1000,500,500;1,4,5000,1000,500,500 => 1 1 A0|2 0 A0|END
         replay {log} {POST};1,4,5000,1000,500,500;0,5,5000,1000,500,500 => SETUP R11"
    ));
}

/// Req 03: raw 0 at 0 V, in a session under power transfer.
#[test]
fn sensors() {
    let log = "000483c035020201000487c0350700000000000008000481c031080000000041000100";
    for (sensor, found) in [("", 0), (",0", 0), (",1", 256)] {
        holds(&format!("replay {log} {POST}{sensor} => 1 0 A0|2 0 A16|3 0 A{found}|END"));
    }
}

#[test]
fn a_table_of_its_own() {
    holds(&format!(
        "setup 0 4 5000 1000 500 500 => A
         tick 4 100 => A0
         replay 00040009 - => 1 - R1|END
         replay 00040009 1,4,5000,1000,500,500 => 1 1 A0|END
         replay c8010400096404000900050009 {POST} => 1 0 A0|2 0 R2|3 - R1|END
         record 1 => R14
         tick 4 99 => R2
         tick 4 100 => A0
         tick 5 100 => R1
         record 0 => K ch=4 volt=5000 chg=1000 dis=500 w=500 sensor=0 iface=0 last=100 open=0 since=- first=- spms=- sdpc=- sstop=- n=2 tally=0,0,0,0,0,0,0,0,0,0,0,0 latest=-"
    ));
}

#[test]
fn lines_that_are_no_replay() {
    for words in [
        "",
        " -",
        " - -",
        "0 -",
        "0A -",
        "00040009",
        "- ",
        "- - -",
        "- ;",
        "-- -",
        "- 0",
        "- 0,4,5000,1000,500",
        "- 0,4,5000,1000,500,500,0,0,0",
        "- 0,4,5000,1000,500,500;",
        "- ;0,4,5000,1000,500,500",
        "- -;0,4,5000,1000,500,500",
        "- 0,4,5000,1000,500,500;-",
        "- 0,4,5000,1000,500,500,",
        "- 0,,5000,1000,500,500",
        "- 00,4,5000,1000,500,500",
        "- -1,4,5000,1000,500,500",
        "- 4294967296,4,5000,1000,500,500",
        "- 16,4,5000,1000,500,500;x",
        "- 0 4 5000 1000 500 500",
        "- setup,0,4,5000,1000,500,500",
    ] {
        holds(&format!("replay {words} => ?"));
    }
    holds("replay => ?\nreplays - - => ?\nreplay 00 - - => ?");
}

/// The replays of generated scripts, their logs and set-ups as fields.
fn replays() -> Vec<[String; 2]> {
    let lines = (1..4).flat_map(|seed| script(seed, 4000, Extras::default()));
    let replay = |line: Vec<u8>| match String::from_utf8(line).ok()?.split(' ').collect::<Vec<&str>>()[..] {
        ["replay", log, set_ups] if bytes(log.as_bytes()).is_some() => Some([log.to_string(), set_ups.to_string()]),
        _ => None,
    };
    lines.filter_map(replay).collect()
}

fn answer(desk: &mut Desk, step: &str) -> String {
    desk::answer(desk, step.as_bytes())
}

/// 02: "Its lines must be those of the records fed singly", here as steps of the desk.
#[test]
fn records_fed_singly() {
    let mut compared = 0;
    for [log, set_ups] in replays() {
        let whole = answer(&mut Desk::new(), &format!("replay {log} {set_ups}"));
        if whole == "?" || whole.starts_with("SETUP") {
            continue;
        }
        let mut desk = Desk::new();
        let named: Vec<&str> = set_ups.split(';').filter(|each| *each != "-").collect();
        for each in &named {
            assert_eq!(answer(&mut desk, &format!("setup {}", each.replace(',', " "))), "A");
        }
        let told = answer(&mut desk, &format!("logr {log}"));
        let (records, ending) = match told.rsplit_once(" BAD ") {
            Some((records, ending)) => (records, format!("BAD {ending}")),
            None => told.rsplit_once(' ').map(|(records, ending)| (records, ending.to_string())).unwrap(),
        };
        let mut lines: Vec<String> = Vec::new();
        for (record, count) in records.split(' ').skip(2).zip(1..) {
            lines.push(fed_singly(&mut desk, &named, record, count));
        }
        lines.push(ending);
        assert_eq!(whole, lines.join("|"), "{log} {set_ups}");
        compared += 1;
    }
    assert!(compared > 200, "{compared}");
}

/// `record` as `logr` tells it; the post is the latest of those set up on its channel.
fn fed_singly(desk: &mut Desk, set_ups: &[&str], record: &str, count: usize) -> String {
    let parts: Vec<&str> = record.split(',').collect();
    let word = if parts[0] == "t" { "tick" } else { "frame" };
    let step = [&[word, parts[2], parts[1]], &parts[3..]].concat().join(" ");
    let said = answer(desk, &step).replace(':', " ");
    let on = |each: &&&str| each.split(',').nth(1) == Some(parts[2]);
    let post = set_ups.iter().rfind(on).and_then(|each| each.split(',').next()).unwrap_or("-");
    format!("{count} {} {said}", if said == "R1" { "-" } else { post })
}

#[test]
fn a_log_cut_after_every_byte() {
    let whole = |[log, set_ups]: &[String; 2]| answer(&mut Desk::new(), &format!("replay {log} {set_ups}"));
    let long = |night: &[String; 2]| night[0].len() > 300 && whole(night).ends_with("|END");
    let night = replays().into_iter().find(long).expect("a whole night of some length");
    let (all, bytes) = (whole(&night), bytes(night[0].as_bytes()).expect("the bytes of a log"));
    for cut in 0..bytes.len() {
        let short = whole(&[hex(&bytes[..cut]), night[1].clone()]);
        let (lines, ending) = short.rsplit_once('|').unwrap_or(("", &short));
        let before = log::read(&bytes[..cut]);
        assert!(all.starts_with(lines), "{cut}");
        assert_eq!(lines.split_terminator('|').count(), before.records.len(), "{cut}");
        assert_eq!(ending, if before.at == cut { "END".to_string() } else { format!("CUT@{}", before.at) }, "{cut}");
    }
}
