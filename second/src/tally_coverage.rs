//! What a step shows of the counts (Req 08).
//!
//! A post's count at its largest, and with it refusal 25, is beyond every script, as is the refused count's end: 4,294,967,295
//! frames or ticks would have to come first. `tally_readings.rs` has both at a smaller largest count.

use std::collections::BTreeSet;

use crate::posts::{Request, Table};
use crate::rules::RULES;
use crate::safety_coverage::those;
use crate::tallies::LARGEST;

/// What goes before `refused`, or does not, and must not raise it.
const BEHIND: [&str; 17] = [
    "R1",
    "R2",
    "R3",
    "R4",
    "R5",
    "R6",
    "R15",
    "R29",
    "a refused set-up",
    "a set-up",
    "a refused release",
    "a release",
    "a refused look-up",
    "a refused batch",
    "a refused record of a batch",
    "a refused record of a replay",
    "a refused reading",
];

const RECORDS: [&str; 5] = [
    "n=0",
    "two findings of one event",
    "a refused frame or tick before it",
    "an event before a second set-up",
    "an event before a release",
];

const FINDINGS: std::ops::RangeInclusive<usize> = 1..=RULES.len();

pub fn wanted() -> impl Iterator<Item = String> {
    let records = RECORDS.into_iter().map(|shown| format!("record with {shown}"));
    let tallies = FINDINGS.map(|number| format!("record with F{number}"));
    let refused = ["refused N 0".to_string(), "refused ?".to_string()];
    records.chain(tallies).chain(refused).chain(BEHIND.into_iter().map(|shown| format!("refused behind {shown}")))
}

/// What no run reaches.
pub fn beyond() -> String {
    format!("R25 and the ends of the counts only behind {LARGEST} frames or ticks")
}

/// What came since the refused count was last asked for.
#[derive(Default)]
pub struct Since(BTreeSet<String>);

impl Since {
    /// `table` is as it was before the step.
    pub fn shown(&mut self, table: &Table, step: &[u8], answer: &[u8]) -> Vec<String> {
        let fields: Vec<&[u8]> = step.split(|&byte| byte == b' ').collect();
        let Ok(answer) = std::str::from_utf8(answer) else {
            return Vec::new();
        };
        match (&fields[..], answer) {
            ([b"refused", ..], "?") => vec!["refused ?".to_string()],
            ([b"refused"], _) => {
                let behind = std::mem::take(&mut self.0).into_iter().map(|shown| format!("refused behind {shown}"));
                behind.chain(those(&[(answer == "N 0", "refused N 0")])).collect()
            }
            ([b"record", post], _) if answer.starts_with('K') => by_record(table, post, answer),
            ([word, ..], _) => {
                self.0.extend(behind(word, answer));
                Vec::new()
            }
            _ => Vec::new(),
        }
    }
}

fn behind(word: &[u8], answer: &str) -> Vec<String> {
    let refused = answer.starts_with('R');
    match word {
        b"frame" | b"tick" if refused => vec![answer.split(':').next().unwrap_or(answer).to_string()],
        b"setup" => those(&[(refused, "a refused set-up"), (answer == "A", "a set-up")]),
        b"release" => those(&[(refused, "a refused release"), (answer == "A", "a release")]),
        b"record" => those(&[(refused, "a refused look-up")]),
        b"read" => those(&[(refused, "a refused reading")]),
        b"batch" => {
            let told = |word: &str| word.parse().is_ok_and(|word: u32| (65_536..131_072).contains(&word));
            let record = answer.starts_with('A') && answer.split(' ').any(told);
            those(&[(refused, "a refused batch"), (record, "a refused record of a batch")])
        }
        b"replay" => those(&[(answer.split('|').any(is_refused_line), "a refused record of a replay")]),
        _ => Vec::new(),
    }
}

/// `COUNT POST R..`: an ending has its byte, and `SETUP R..` no count.
fn is_refused_line(line: &str) -> bool {
    let mut fields = line.split(' ');
    let count = fields.next().is_some_and(|count| count.parse::<u64>().is_ok());
    count && fields.nth(1).is_some_and(|answer| answer.starts_with('R'))
}

fn by_record(table: &Table, post: &[u8], answer: &str) -> Vec<String> {
    let part = |name: &str| answer.split(' ').find_map(|part| part.strip_prefix(name)).unwrap_or_default();
    let place = std::str::from_utf8(post).ok().and_then(|post| post.parse().ok()).unwrap_or(usize::MAX);
    let tallies: Vec<u32> = part("tally=").split(',').filter_map(|tally| tally.parse().ok()).collect();
    let [refused, second, released] = before(&table.requests, place);
    let mut shown = those(&[
        (part("n=") == "0", "record with n=0"),
        (tallies.iter().sum::<u32>() > part("n=").parse().unwrap_or(0), "record with two findings of one event"),
        (refused, "record with a refused frame or tick before it"),
        (second, "record with an event before a second set-up"),
        (released, "record with an event before a release"),
    ]);
    let found = FINDINGS.zip(tallies).filter(|(_, tally)| *tally > 0);
    shown.extend(found.map(|(number, _)| format!("record with F{number}")));
    shown
}

/// Whether a frame or tick of the post was refused since its set-up; whether one was accepted before a second set-up, with no
/// release in between; and before a release.
fn before(requests: &[Request], place: usize) -> [bool; 3] {
    let (mut refused, mut accepted, mut second, mut released) = (false, false, false, false);
    for request in requests {
        match *request {
            Request::Arrival { place: Some(own), outcome, .. } if own == place => {
                refused |= outcome.is_err();
                accepted |= outcome.is_ok();
            }
            Request::SetUp { post, outcome: Ok(()) } if post as usize == place => {
                second |= accepted;
                (refused, accepted) = (false, false);
            }
            Request::Release { post, outcome: Ok(()) } if post as usize == place => {
                released |= accepted || second;
                (refused, accepted, second) = (false, false, false);
            }
            _ => {}
        }
    }
    [refused, second, released]
}

#[cfg(test)]
mod tests {
    use super::*;
    use crate::desk::{self, Desk};

    /// What the last step of a story shows, behind a set-up; neither `record` nor `refused` changes the table.
    fn shows(story: &str) -> Vec<String> {
        let (mut desk, mut since, mut shown) = (Desk::new(), Since::default(), Vec::new());
        for step in ["setup 0 4 5000 1000 500 500", "refused"].into_iter().chain(story.lines()) {
            let answer = desk::answer(&mut desk, step.as_bytes());
            shown = since.shown(&desk.table, step.as_bytes(), answer.as_bytes());
        }
        shown
    }

    #[test]
    fn each_is_shown_by_a_story_of_its_own() {
        let mut met = BTreeSet::new();
        for (story, wanted) in [
            ("refused", &["refused N 0"][..]),
            ("tick 5 0\nrefused", &["refused behind R1"]),
            ("tick 4 1\ntick 4 0\nrefused", &["refused behind R2"]),
            ("frame 4 0 0 x -\nrefused", &["refused behind R3"]),
            ("frame 4 0 6b000 x -\nrefused", &["refused behind R4"]),
            ("frame 4 0 6b000 x ff\nrefused", &["refused behind R5"]),
            ("frame 4 0 6 s 8215000000000001\nrefused", &["refused behind R6"]),
            ("frame 4 0 6b000 x 0000\nrefused", &["refused behind R15"]),
            ("frame 4 0 68009 x 00\nrefused", &["refused behind R29"]),
            ("setup 1 4 1 1 1 100\nrefused", &["refused behind a refused set-up", "refused N 0"]),
            ("setup 0 4 1 1 1 100\nrefused", &["refused behind a set-up", "refused N 0"]),
            ("release 1\nrefused", &["refused behind a refused release", "refused N 0"]),
            ("release 0\nrefused", &["refused behind a release", "refused N 0"]),
            ("record 1\nrefused", &["refused behind a refused look-up", "refused N 0"]),
            ("read 0 x -\nrefused", &["refused behind a refused reading", "refused N 0"]),
            ("batch 00040009 0\nrefused", &["refused behind a refused batch", "refused N 0"]),
            ("batch 00050009 1\nrefused", &["refused behind a refused record of a batch"]),
            ("batch 00040009 1\nrefused", &["refused N 0"]),
            ("replay 00050009 -\nrefused", &["refused behind a refused record of a replay", "refused N 0"]),
            ("replay 00 -\nreplay - 16,0,1,1,0,100\nrefused", &["refused N 0"]),
            ("refused 0", &["refused ?"]),
            ("tick 5 0\nrefused\nrefused", &[]),
            ("record 0", &["record with n=0"]),
            ("tick 4 0\nrecord 0", &[]),
            ("tick 4 1\ntick 4 0\nrecord 0", &["record with a refused frame or tick before it"]),
            (
                "tick 4 0\nsetup 0 4 5000 1000 500 500\nrecord 0",
                &["record with n=0", "record with an event before a second set-up"],
            ),
            (
                "tick 4 0\nrelease 0\nsetup 0 4 5000 1000 500 500\nrecord 0",
                &["record with n=0", "record with an event before a release"],
            ),
            ("frame 4 0 6b004 x 00\nrecord 0", &["record with F11"]),
            (
                "frame 4 0 6b003 x a00f0000000048\nrecord 0",
                &["record with two findings of one event", "record with F3", "record with F4"],
            ),
        ] {
            assert_eq!(shows(story), wanted, "{story}");
            met.extend(wanted.iter().map(|shown| shown.to_string()));
        }
        let of_a_finding = |shown: &String| shown.starts_with("record with F");
        assert_eq!(super::wanted().filter(|shown| !met.contains(shown) && !of_a_finding(shown)).count(), 0);
    }
}
