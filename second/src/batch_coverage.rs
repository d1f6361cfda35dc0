//! What a step shows of the batch (Req 07).

use crate::batch::MOST_BYTES;
use crate::desk::UNTOUCHED;
use crate::fields::bytes;
use crate::log::{self, Ending};
use crate::safety_coverage::those;

const WANTED: [&str; 16] = [
    "A",
    "R22",
    "R23",
    "R24",
    "of an empty slice",
    "of 4096 bytes",
    "of a cut record",
    "of a malformed record",
    "with R22 before R23",
    "with R23 before R24",
    "with places behind the records",
    "with as many places as records",
    "with a finding",
    "with a refusal",
    "with R5 and its start",
    "?",
];

pub fn wanted() -> impl Iterator<Item = String> {
    WANTED.into_iter().map(|shown| format!("batch {shown}"))
}

pub fn shown(step: &[u8], answer: &[u8]) -> Vec<String> {
    let fields: Vec<&[u8]> = step.split(|&byte| byte == b' ').collect();
    let ([b"batch", records, _], Ok(answer)) = (&fields[..], std::str::from_utf8(answer)) else {
        return Vec::new();
    };
    let Some(bytes) = bytes(records).filter(|_| answer != "?") else {
        return those(&[(answer == "?", "batch ?")]);
    };
    let (outcome, words) = answer.split_once(' ').unwrap_or((answer, ""));
    let words: Vec<u32> = words.split(' ').filter_map(|word| word.parse().ok()).collect();
    let mut shown = vec![format!("batch {outcome}")];
    shown.extend(if outcome == "A" { accepted(&bytes, &words) } else { refused(&bytes, &words, outcome) });
    shown
}

fn accepted(bytes: &[u8], words: &[u32]) -> Vec<String> {
    let told: Vec<u32> = words.iter().copied().filter(|word| *word != UNTOUCHED).collect();
    let any = |wanted: fn(u32) -> bool| told.iter().any(|word| wanted(*word));
    those(&[
        (bytes.is_empty(), "batch of an empty slice"),
        (bytes.len() == MOST_BYTES, "batch of 4096 bytes"),
        (!told.is_empty() && told.len() < words.len(), "batch with places behind the records"),
        (!told.is_empty() && told.len() == words.len(), "batch with as many places as records"),
        (any(|word| (1..65_536).contains(&word)), "batch with a finding"),
        (any(|word| word >= 65_536), "batch with a refusal"),
        (any(|word| word > 65_536 && word % 256 == 5 && word >= 65_536 + 256), "batch with R5 and its start"),
    ])
}

fn refused(bytes: &[u8], words: &[u32], outcome: &str) -> Vec<String> {
    let log = log::read(bytes);
    let ends = log.ending == Ending::End;
    those(&[
        (outcome == "R23" && log.ending == Ending::Cut, "batch of a cut record"),
        (outcome == "R23" && matches!(log.ending, Ending::Bad(_)), "batch of a malformed record"),
        (outcome == "R22" && !ends, "batch with R22 before R23"),
        (outcome == "R23" && words.len() < log.records.len(), "batch with R23 before R24"),
    ])
}

#[cfg(test)]
mod tests {
    use super::*;
    use crate::desk::{self, Desk};

    fn shows(step: &str) -> Vec<String> {
        let mut desk = Desk::new();
        desk::answer(&mut desk, b"setup 0 4 5000 1000 500 500");
        let answer = desk::answer(&mut desk, step.as_bytes());
        shown(step.as_bytes(), answer.as_bytes())
    }

    #[test]
    fn each_is_shown_by_a_step_of_its_own() {
        let tick = "00040009";
        for (step, wanted) in [
            ("batch - 0".to_string(), &["A", "of an empty slice"][..]),
            (format!("batch {tick} 1"), &["A", "with as many places as records"]),
            (format!("batch {tick} 2"), &["A", "with places behind the records"]),
            (format!("batch {tick} 0"), &["R24"]),
            (format!("batch {tick}00 1"), &["R23", "of a cut record"]),
            (format!("batch {tick}0020 1"), &["R23", "of a malformed record"]),
            (format!("batch {tick}00 0"), &["R23", "of a cut record", "with R23 before R24"]),
            (format!("batch {} 1024", tick.repeat(1024)), &["A", "of 4096 bytes", "with as many places as records"]),
            (format!("batch {} 1025", tick.repeat(1025)), &["R22"]),
            (format!("batch {}00 1025", tick.repeat(1024)), &["R22", "with R22 before R23"]),
            ("batch 000489c0350100 1".to_string(), &["A", "with as many places as records", "with a finding"]),
            ("batch 00050009 1".to_string(), &["A", "with as many places as records", "with a refusal"]),
            (
                "batch 000483c035020205 1".to_string(),
                &["A", "with as many places as records", "with a refusal", "with R5 and its start"],
            ),
            ("batch 0 1".to_string(), &["?"]),
            ("logr -".to_string(), &[]),
        ] {
            let wanted: Vec<String> = wanted.iter().map(|shown| format!("batch {shown}")).collect();
            assert_eq!(shows(&step), wanted, "{step}");
        }
    }
}
