//! What a step shows of the replay (Req 05).

use crate::fields::bytes;
use crate::log::{self, Ending};
use crate::posts::{in_range, Table};
use crate::replay::SetUp;
use crate::replay_setups;
use crate::rules::{Limits, MEASURING};
use crate::safety_coverage::those;

const ENDINGS: [&str; 12] = [
    "END",
    "CUT",
    "BAD R16",
    "BAD R17",
    "BAD R18",
    "BAD R19",
    "BAD R20",
    "BAD R21",
    "SETUP R9",
    "SETUP R10",
    "SETUP R11",
    "SETUP R12",
];

const OTHERS: [&str; 14] = [
    "of an empty log",
    "without a set-up",
    "of two posts",
    "of a post set up again",
    "of an unknown sensor",
    "with ten lines",
    "with a dash for R1",
    "with R2",
    "with R5 and its start",
    "with a finding",
    "with lines before CUT",
    "with lines before BAD",
    "with SETUP before BAD",
    "?",
];

pub fn wanted() -> impl Iterator<Item = String> {
    ENDINGS.into_iter().chain(OTHERS).map(|shown| format!("replay {shown}"))
}

pub fn shown(step: &[u8], answer: &[u8]) -> Vec<String> {
    let fields: Vec<&[u8]> = step.split(|&byte| byte == b' ').collect();
    let ([b"replay", log, set_ups], Ok(answer)) = (&fields[..], std::str::from_utf8(answer)) else {
        return Vec::new();
    };
    let Some(set_ups) = replay_setups::field(set_ups).filter(|_| answer != "?") else {
        return those(&[(answer == "?", "replay ?")]);
    };
    let (lines, ending) = answer.rsplit_once('|').unwrap_or(("", answer));
    let lines: Vec<&str> = lines.split('|').filter(|line| !line.is_empty()).collect();
    let mut shown = vec![format!("replay {}", ending.split('@').next().unwrap_or_default())];
    shown.extend(by_lines(&lines, ending));
    shown.extend(by_set_ups(&set_ups, ending));
    shown.extend(those(&[
        (*log == b"-" && ending == "END", "replay of an empty log"),
        (ending.starts_with("SETUP") && malformed(log), "replay with SETUP before BAD"),
    ]));
    shown
}

fn malformed(log: &[u8]) -> bool {
    bytes(log).is_some_and(|bytes| matches!(log::read(&bytes).ending, Ending::Bad(_)))
}

fn by_lines(lines: &[&str], ending: &str) -> Vec<String> {
    let words: Vec<Vec<&str>> = lines.iter().map(|line| line.split(' ').collect()).collect();
    let any = |wanted: fn(&[&str]) -> bool| words.iter().any(|line| wanted(line));
    let mut posts: Vec<&str> = words.iter().map(|line| line[1]).filter(|post| *post != "-").collect();
    posts.sort_unstable();
    posts.dedup();
    those(&[
        (posts.len() > 1, "replay of two posts"),
        (lines.len() > 9, "replay with ten lines"),
        (any(|line| line[1..] == ["-", "R1"]), "replay with a dash for R1"),
        (any(|line| line[2..] == ["R2"]), "replay with R2"),
        (any(|line| matches!(line[2..], ["R5", _])), "replay with R5 and its start"),
        (any(|line| line[2].starts_with('A') && line[2] != "A0"), "replay with a finding"),
        (ending.starts_with("CUT") && !lines.is_empty(), "replay with lines before CUT"),
        (ending.starts_with("BAD") && !lines.is_empty(), "replay with lines before BAD"),
    ])
}

fn by_set_ups(set_ups: &[SetUp], ending: &str) -> Vec<String> {
    let mut table = Table::new();
    let refused = set_ups.iter().find(|&&(post, channel, limits)| table.set_up(post, channel, limits).is_err());
    let unknown = |limits: Limits| in_range(None, Limits { sensor: MEASURING, ..limits }).is_some();
    let again = (1..set_ups.len()).any(|place| set_ups[..place].iter().any(|(post, ..)| *post == set_ups[place].0));
    those(&[
        (set_ups.is_empty(), "replay without a set-up"),
        (again && refused.is_none(), "replay of a post set up again"),
        (ending == "SETUP R12" && refused.is_some_and(|(.., limits)| unknown(*limits)), "replay of an unknown sensor"),
    ])
}

#[cfg(test)]
mod tests {
    use super::*;
    use crate::desk::{self, Desk};

    fn shows(step: &str) -> Vec<String> {
        let answer = desk::answer(&mut Desk::new(), step.as_bytes());
        shown(step.as_bytes(), answer.as_bytes())
    }

    #[test]
    fn each_is_shown_by_a_step_of_its_own() {
        let (zero, one) = ("0,4,5000,1000,500,500", "1,5,5000,1000,500,500");
        for (step, wanted) in [
            (format!("replay - {zero}"), &["END", "of an empty log"][..]),
            ("replay - -".to_string(), &["END", "without a set-up", "of an empty log"]),
            (format!("replay 00040009 {zero}"), &["END"]),
            (format!("replay 0004000900050009 {zero};{one}"), &["END", "of two posts"]),
            (format!("replay 00040009 {zero};{zero}"), &["END", "of a post set up again"]),
            (format!("replay {} {zero}", "00040009".repeat(10)), &["END", "with ten lines"]),
            (format!("replay 00050009 {zero}"), &["END", "with a dash for R1"]),
            (format!("replay 0104000900040009 {zero}"), &["END", "with R2"]),
            (format!("replay 000481c035010e {zero}"), &["END", "with R5 and its start"]),
            (format!("replay 000489c0350100 {zero}"), &["END", "with a finding"]),
            (format!("replay 00 {zero}"), &["CUT"]),
            (format!("replay 0004000900 {zero}"), &["CUT", "with lines before CUT"]),
            (format!("replay 0020 {zero}"), &["BAD R17"]),
            (format!("replay 000400090020 {zero}"), &["BAD R17", "with lines before BAD"]),
            (format!("replay 0020 {zero};16,5,5000,1000,500,500"), &["SETUP R9", "with SETUP before BAD"]),
            (format!("replay - {zero};1,4,5000,1000,500,500"), &["SETUP R11"]),
            (format!("replay - {zero},2"), &["SETUP R12", "of an unknown sensor"]),
            ("replay - 0,4,0,1000,500,500,2".to_string(), &["SETUP R12"]),
            (format!("replay - {zero};"), &["?"]),
            ("logr -".to_string(), &[]),
        ] {
            let wanted: Vec<String> = wanted.iter().map(|shown| format!("replay {shown}")).collect();
            assert_eq!(shows(&step), wanted, "{step}");
        }
    }
}
