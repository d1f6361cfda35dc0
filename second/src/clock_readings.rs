//! Req 09 from both sides of each edge, and the decided reading of it (R7).

use crate::desk::{self, Desk};
use crate::readings::holds;

const SET_UP: &str = "setup 0 4 5000 1000 500 500 => A\n";

fn holds_on_a_post(story: &str) {
    holds(&format!("{SET_UP}{story}"));
}

/// A record with no session and these parts.
fn record(last: &str, n: u32, tally: &str, latest: &str) -> String {
    format!(
        "K ch=4 volt=5000 chg=1000 dis=500 w=500 sensor=0 iface=0 last={last} open=0 since=- first=- spms=- sdpc=- sstop=- n={n} \
         tally={tally} latest={latest}"
    )
}

const NONE: &str = "0,0,0,0,0,0,0,0,0,0,0,0";

/// "E14 holds; after 4,294,967,290 a time of 5 is accepted, 11 ms later".
#[test]
fn a_time_of_5_after_4294967290() {
    holds_on_a_post("tick 4 100 => A0\ntick 4 99 => R2\ntick 4 100 => A0");
    let kept = record("5", 2, NONE, "6s:0,0,0,0@4294967290+11");
    holds_on_a_post(&format!(
        "frame 4 4294967290 6 s 0000000000000000 => A0
         tick 4 5 => A0
         record 0 => {kept}
         tick 4 4294967295 => R2
         tick 4 4 => R2
         tick 4 5 => A0"
    ));
}

/// R7: "A wrapped difference of exactly 2^31 is earlier".
#[test]
fn half_the_range_is_earlier() {
    for first in [0_u32, 1, 5, 1 << 31, u32::MAX - 5, u32::MAX] {
        let by = |later: u32| first.wrapping_add(later);
        let (half, most) = (by(1 << 31), by((1 << 31) - 1));
        let (more, before) = (by((1 << 31) + 1), by(u32::MAX));
        holds_on_a_post(&format!(
            "tick 4 {first} => A0
             tick 4 {half} => R2
             tick 4 {more} => R2
             tick 4 {before} => R2
             tick 4 {first} => A0
             tick 4 {most} => A0
             tick 4 {half} => A0"
        ));
    }
}

/// W2: a second set-up empties the history, the clock included.
#[test]
fn the_first_may_have_any_time() {
    for first in ["0", "2147483647", "2147483648", "4294967295"] {
        holds_on_a_post(&format!(
            "tick 4 {first} => A0
             setup 0 4 5000 1000 500 500 => A
             tick 4 2147483648 => A0
             setup 0 4 5000 1000 500 500 => A
             tick 4 {first} => A0"
        ));
    }
}

/// Refused ones move no clock, across the round neither.
#[test]
fn a_refused_one_turns_nothing() {
    holds_on_a_post(
        "tick 4 4294967290 => A0
         frame 4 5 63003 x - => R3
         frame 4 5 6b000 x ff => R5:0
         tick 4 4294967291 => A0",
    );
}

/// "F1 and F2 read unrolled times".
#[test]
fn silences_across_the_round() {
    holds_on_a_post(
        "frame 4 4294967000 6b001 x 0201 => A0
         frame 4 4294967100 63000 x 0000000041000164 => A0
         frame 4 4294967200 6b000 x 01 => A0
         tick 4 104 => A0
         tick 4 105 => A2
         tick 4 304 => A2
         tick 4 305 => A3
         frame 4 305 63000 x 0000000041000164 => A3
         frame 4 306 6b000 x 01 => A2
         tick 4 506 => A0
         tick 4 805 => A2
         tick 4 806 => A3",
    );
    // The opening counts as well, and lies before the round.
    holds_on_a_post("frame 4 4294967295 6b001 x 0201 => A0\ntick 4 499 => A0\ntick 4 500 => A1");
}

/// A silence of more than a round is still one: "never come round".
#[test]
fn a_silence_of_weeks() {
    holds_on_a_post(
        "frame 4 5 6b001 x 0201 => A0
         frame 4 5 6b000 x 01 => A0
         tick 4 2147483652 => A3
         tick 4 4294967299 => ?
         tick 4 3 => A3
         tick 4 5 => A3
         tick 4 6 => A3",
    );
}

/// "ages beside them", of the opening, of each latest message and of the session's parts.
#[test]
fn every_kept_time_has_its_age() {
    holds_on_a_post(
        "frame 4 4294967200 6b001 x 0201 => A0
         frame 4 4294967290 63000 x a00f83ff41000164 => A0
         frame 4 5 6b003 x 00000000000001 => A0
         frame 4 15 6b000 x 01 => A0
         record 0 => K ch=4 volt=5000 chg=1000 dis=500 w=500 sensor=0 iface=0 last=15 open=1 since=4294967200+111 first=2,1 \
         spms=63000x:4000,-125,25,-40,1,200@4294967290+21 sdpc=6b003x:0,0,0,1,0,0,0,0@5+10 sstop=- n=4 tally=0,0,0,0,0,0,0,0,0,0,0,0 \
         latest=63000x:4000,-125,25,-40,1,200@4294967290+21;6b000x:1@15+0;6b001x:2,1@4294967200+111;\
         6b003x:0,0,0,1,0,0,0,0@5+10",
    );
}

/// "an age stops growing at 4,294,967,295".
#[test]
fn an_age_at_its_largest() {
    let kept = |last: &str, n, age: &str| record(last, n, NONE, &format!("6s:0,0,0,0@7+{age}"));
    let stories = [
        ("4294967301", "4294967294", "5"),
        ("4294967302", "4294967295", "6"),
        ("4294967303", "4294967295", "7"),
        ("6442450948", "4294967295", "2147483652"),
    ];
    for (unrolled, age, shown) in stories {
        assert_eq!(unrolled.parse::<u64>().unwrap() % (1 << 32), shown.parse().unwrap());
        let kept = kept(shown, 4, age);
        holds_on_a_post(&format!(
            "frame 4 7 6 s 0000000000000000 => A0
             tick 4 2147483654 => A0
             tick 4 5 => A0
             tick 4 {shown} => A0
             record 0 => {kept}"
        ));
    }
}

/// A post that is ticked every hour for a hundred days: two rounds and some, and no refusal.
#[test]
fn a_hundred_days_of_hours() {
    let hour = 3_600_000_u64;
    let mut desk = Desk::new();
    let mut said = |step: String| desk::answer(&mut desk, step.as_bytes());
    assert_eq!(said("setup 0 4 5000 1000 500 500".to_string()), "A");
    let (mut rounds, mut before) = (0, 0);
    for hours in 0..=24 * 100 {
        let now = 1_000_000 + hours * hour;
        let time = |later: u64| ((now + later) % (1 << 32)) as u32;
        rounds += u32::from(time(0) < before);
        before = time(0);
        // A controller that speaks once an hour is late by then, and in step again after it.
        let late = if hours == 0 { "A0" } else { "A2" };
        assert_eq!(said(format!("tick 4 {}", time(0))), late, "hour {hours}");
        assert_eq!(said(format!("frame 4 {} 6b000 x 01", time(0))), late, "hour {hours}");
        assert_eq!(said(format!("frame 4 {} 6b001 x 0201", time(100))), "A0", "hour {hours}");
        assert_eq!(said(format!("tick 4 {}", time(200))), "A0", "hour {hours}");
        assert_eq!(said(format!("tick 4 {}", time(600))), "A2", "hour {hours}");
        assert_eq!(said(format!("frame 4 {} 6b004 x 00", time(601))), "A3", "hour {hours}");
    }
    assert_eq!(rounds, 2);
    let days = 24 * 100 + 1;
    let tally = format!("{days},{},0,0,0,0,0,0,0,0,0,0", 2 * days + 2 * (days - 1));
    let last = (1_000_000 + 24 * 100 * hour + 601) % (1 << 32);
    let status = (last - 601, 601);
    let latest = format!("6b000x:1@{}+{};6b001x:2,1@{}+501;6b004x:0@{last}+0", status.0, status.1, last - 501);
    assert_eq!(said("record 0".to_string()), record(&last.to_string(), 6 * days as u32, &tally, &latest));
}

/// Findings and ages depend on the differences alone: the same story from any first time.
#[test]
fn only_the_differences_count() {
    let story = |first: u32| {
        let mut desk = Desk::new();
        let mut answers = Vec::new();
        let at = |later: u32| first.wrapping_add(later);
        for step in [
            "setup 0 4 5000 1000 500 500".to_string(),
            format!("frame 4 {} 6b001 x 0201", at(0)),
            format!("frame 4 {} 6b000 x 01", at(10)),
            format!("tick 4 {}", at(210)),
            format!("tick 4 {}", at(211)),
            format!("tick 4 {}", at(210)),
            format!("frame 4 {} 63000 x a00f83ff41000164", at(500)),
            format!("tick 4 {}", at(1001)),
            "record 0".to_string(),
        ] {
            answers.push(desk::answer(&mut desk, step.as_bytes()));
        }
        let record = answers.pop().unwrap();
        let ages: Vec<String> = record
            .split([' ', ';', '='])
            .filter_map(|part| part.split_once('+'))
            .map(|(_, age)| age.to_string())
            .collect();
        (answers, ages)
    };
    let (answers, ages) = story(0);
    assert_eq!(answers, ["A", "A0", "A0", "A0", "A2", "R2", "A2", "A3"]);
    assert_eq!(ages, ["1001", "501", "501", "991", "1001"]);
    for first in [1, 4_294_967_295, 4_294_967_290, 4_294_967_000, 4_294_966_295, 1 << 31, (1 << 31) - 1] {
        assert_eq!(story(first), (answers.clone(), ages.clone()), "from {first}");
    }
}
