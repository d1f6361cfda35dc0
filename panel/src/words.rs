//! Findings and refusals in words: the desk's own, of `explain`.

use std::sync::LazyLock;

static FINDINGS: LazyLock<Vec<&str>> =
    LazyLock::new(|| sentences(include_str!("../../crates/desk_words/src/findings.rt")));
static REFUSALS: LazyLock<Vec<&str>> =
    LazyLock::new(|| sentences(include_str!("../../crates/desk_words/src/refused.rt")));

/// The words of the one list in the source, a constant array: each stands in a line of its own.
fn sentences(source: &'static str) -> Vec<&'static str> {
    source.lines().filter_map(|line| line.trim_start().strip_prefix("b\"")?.strip_suffix("\",")).collect()
}

/// Of finding `number`, from 1 on.
pub fn finding(number: usize) -> &'static str {
    FINDINGS.get(number.wrapping_sub(1)).copied().unwrap_or("a finding without words")
}

pub fn refusal(number: u32) -> &'static str {
    REFUSALS.get((number as usize).wrapping_sub(1)).copied().unwrap_or("a refusal without words")
}

#[cfg(test)]
mod tests {
    use super::*;
    use crate::library;

    #[test]
    fn every_number_has_its_words() {
        assert_eq!(FINDINGS.len(), library::FINDINGS);
        assert_eq!(finding(1), "power modules silent for longer than W in this session");
        assert_eq!(finding(11), "session finished with none open");
        assert_eq!(finding(12), "insulation test, precharge or power transfer after an Emergency_Stop in this session");
        assert_eq!(refusal(1), "channel above 31, or held by no post");
        assert_eq!(refusal(17), "a channel above 31 in a log record");
        assert!(REFUSALS.len() >= 28 && REFUSALS.iter().all(|words| !words.contains(['\\', '"'])));
    }
}
