//! What a run of scripts reached: steps by their word, answers by their kind.

use std::collections::{BTreeMap, BTreeSet};
use std::fmt;

use crate::batch_coverage;
use crate::clock_coverage;
use crate::index_coverage;
use crate::older_coverage;
use crate::posts::Table;
use crate::recordings_coverage;
use crate::replay_coverage;
use crate::rest_coverage;
use crate::rules::RULES;
use crate::safety_coverage;
use crate::sensor_coverage;
use crate::stop_coverage;
use crate::tally_coverage::{self, Since};

const WORDS: [&[u8]; 21] = [
    b"setup", b"release", b"frame", b"tick", b"record", b"refused", b"index", b"read", b"change", b"write", b"read1",
    b"change1", b"write1", b"explain", b"logr", b"logw", b"replay", b"batch", b"compare", b"probe", b"duty",
];

const REFUSALS: std::ops::RangeInclusive<u32> = 1..=15;

/// Each of these gives refusal 5 by a way of its own.
const LABELLED: [&str; 5] = ["frame", "read", "change", "read1", "change1"];
const STARTS: usize = 3;

/// The writer and the reader give some of the same refusals, so what each comes to is counted apart.
const LOGS: [&str; 14] = [
    "logr END", "logr CUT", "logr R16", "logr R17", "logr R18", "logr R19", "logr R20", "logr R21", "logw A",
    "logw R8", "logw R17", "logw R18", "logw R19", "logw R20",
];

#[derive(Default)]
pub struct Coverage {
    steps: BTreeMap<&'static str, u64>,
    refusals: BTreeMap<u32, u64>,
    /// The start bits that refusal 5 carried, by the step's word.
    starts: BTreeMap<&'static str, BTreeSet<u32>>,
    logs: BTreeMap<String, u64>,
    sensors: BTreeMap<&'static str, u64>,
    safety: BTreeMap<String, u64>,
    older: BTreeMap<String, u64>,
    counts: BTreeMap<String, u64>,
    since: Since,
    indexes: BTreeMap<String, u64>,
    since_index: index_coverage::Since,
    stops: BTreeMap<String, u64>,
    rest: BTreeMap<String, u64>,
    replays: BTreeMap<String, u64>,
    batches: BTreeMap<String, u64>,
    clocks: BTreeMap<String, u64>,
    recordings: BTreeMap<String, u64>,
    findings: [u64; RULES.len()],
    clean: u64,
    accepted: u64,
    no_step: u64,
    no_message: u64,
}

impl Coverage {
    /// A script begins, on a table of its own.
    pub fn begin(&mut self) {
        self.since = Since::default();
        self.since_index = index_coverage::Since::default();
    }

    /// `table` is as it was before the step.
    pub fn count(&mut self, table: &Table, step: &[u8], answer: &[u8]) {
        let ended = |rest: &[u8]| rest.first().is_none_or(|byte| *byte == b' ');
        let word = WORDS.iter().find(|word| step.strip_prefix(**word).is_some_and(ended));
        let word = word.map_or("(other)", |word| std::str::from_utf8(word).expect("an ASCII word"));
        *self.steps.entry(word).or_default() += 1;
        if let Some(shown) = sensor_coverage::shown(table, step, answer) {
            *self.sensors.entry(shown).or_default() += 1;
        }
        for shown in safety_coverage::shown(step, answer) {
            *self.safety.entry(shown).or_default() += 1;
        }
        for shown in older_coverage::shown(table, step, answer) {
            *self.older.entry(shown).or_default() += 1;
        }
        for shown in self.since.shown(table, step, answer) {
            *self.counts.entry(shown).or_default() += 1;
        }
        for shown in self.since_index.shown(table, step, answer) {
            *self.indexes.entry(shown).or_default() += 1;
        }
        for shown in stop_coverage::shown(table, step, answer) {
            *self.stops.entry(shown).or_default() += 1;
        }
        for shown in rest_coverage::shown(table, step, answer) {
            *self.rest.entry(shown).or_default() += 1;
        }
        for shown in replay_coverage::shown(step, answer) {
            *self.replays.entry(shown).or_default() += 1;
        }
        for shown in batch_coverage::shown(step, answer) {
            *self.batches.entry(shown).or_default() += 1;
        }
        for shown in clock_coverage::shown(table, step, answer) {
            *self.clocks.entry(shown).or_default() += 1;
        }
        for shown in recordings_coverage::shown(step, answer) {
            *self.recordings.entry(shown).or_default() += 1;
        }
        match answer.split_first() {
            Some((b'?', _)) => self.no_step += 1,
            Some((b'X', _)) => self.no_message += 1,
            _ if matches!(word, "logr" | "logw") => *self.logs.entry(log_outcome(word, answer)).or_default() += 1,
            Some((b'R', rest)) => self.count_refusal(word, rest),
            Some((b'A', rest)) if matches!(word, "frame" | "tick") => self.count_findings(leading_number(rest)),
            _ => self.accepted += 1,
        }
    }

    fn count_refusal(&mut self, word: &'static str, refusal: &[u8]) {
        *self.refusals.entry(leading_number(refusal)).or_default() += 1;
        if let Some(start) = refusal.strip_prefix(b"5:") {
            self.starts.entry(word).or_default().insert(leading_number(start));
        }
    }

    fn count_findings(&mut self, number: u32) {
        self.clean += u64::from(number == 0);
        for (place, count) in self.findings.iter_mut().enumerate() {
            *count += u64::from(number >> place & 1);
        }
    }

    /// What a run has to reach and did not.
    pub fn missing(&self) -> Vec<String> {
        let refusals = REFUSALS.filter(|number| !self.refusals.contains_key(number));
        let findings = (1..).zip(self.findings).filter(|(_, count)| *count == 0);
        let mut missing: Vec<String> = refusals.map(|number| format!("R{number}")).collect();
        missing.extend(findings.map(|(number, _)| format!("F{number}")));
        missing
            .extend(LABELLED.iter().filter(|word| !self.starts.contains_key(*word)).map(|word| format!("{word} R5")));
        let starts: BTreeSet<&u32> = self.starts.values().flatten().collect();
        missing.extend((starts.len() < STARTS).then(|| format!("R5 with {STARTS} starts")));
        missing.extend(
            LOGS.iter().filter(|outcome| !self.logs.contains_key(**outcome)).map(|outcome| outcome.to_string()),
        );
        let sensors = sensor_coverage::WANTED.iter().filter(|shown| !self.sensors.contains_key(*shown));
        missing.extend(sensors.map(|shown| shown.to_string()));
        missing.extend(safety_coverage::wanted().into_iter().filter(|shown| !self.safety.contains_key(shown)));
        missing.extend(older_coverage::wanted().filter(|shown| !self.older.contains_key(shown)));
        missing.extend(tally_coverage::wanted().filter(|shown| !self.counts.contains_key(shown)));
        missing.extend(index_coverage::wanted().filter(|shown| !self.indexes.contains_key(shown)));
        missing.extend(stop_coverage::wanted().filter(|shown| !self.stops.contains_key(shown)));
        missing.extend(rest_coverage::wanted().filter(|shown| !self.rest.contains_key(shown)));
        missing.extend(replay_coverage::wanted().filter(|shown| !self.replays.contains_key(shown)));
        missing.extend(batch_coverage::wanted().filter(|shown| !self.batches.contains_key(shown)));
        missing.extend(clock_coverage::wanted().filter(|shown| !self.clocks.contains_key(shown)));
        missing.extend(recordings_coverage::wanted().filter(|shown| !self.recordings.contains_key(shown)));
        missing.extend((self.no_step == 0).then(|| "?".to_string()));
        missing.extend((self.no_message == 0).then(|| "X".to_string()));
        missing
    }
}

impl fmt::Display for Coverage {
    fn fmt(&self, out: &mut fmt::Formatter) -> fmt::Result {
        write!(out, "steps:   ")?;
        for (word, count) in &self.steps {
            write!(out, " {word} {count}")?;
        }
        write!(out, "\nrefused: ")?;
        for (number, count) in &self.refusals {
            write!(out, " R{number} {count}")?;
        }
        write!(out, "\nno label:")?;
        for (word, starts) in &self.starts {
            write!(out, " {word} at {starts:?}")?;
        }
        write!(out, "\nfound:    none {}", self.clean)?;
        for (number, count) in (1..).zip(self.findings) {
            write!(out, " F{number} {count}")?;
        }
        write!(out, "\nlogs:    ")?;
        for (outcome, count) in &self.logs {
            write!(out, " {outcome} {count}")?;
        }
        write!(out, "\nsensors: ")?;
        for (shown, count) in &self.sensors {
            write!(out, " {shown} {count},")?;
        }
        write!(out, "\nsafety:  ")?;
        for shown in safety_coverage::wanted() {
            write!(out, " {shown} {},", self.safety.get(&shown).unwrap_or(&0))?;
        }
        write!(out, "\nolder:   ")?;
        for shown in older_coverage::wanted() {
            write!(out, " {shown} {},", self.older.get(&shown).unwrap_or(&0))?;
        }
        write!(out, "\ncounts:  ")?;
        for shown in tally_coverage::wanted() {
            write!(out, " {shown} {},", self.counts.get(&shown).unwrap_or(&0))?;
        }
        write!(out, " {}", tally_coverage::beyond())?;
        write!(out, "\nindexes: ")?;
        for shown in index_coverage::wanted() {
            write!(out, " {shown} {},", self.indexes.get(&shown).unwrap_or(&0))?;
        }
        write!(out, "\nstops:   ")?;
        for shown in stop_coverage::wanted() {
            write!(out, " {shown} {},", self.stops.get(&shown).unwrap_or(&0))?;
        }
        write!(out, "\nrest:    ")?;
        for shown in rest_coverage::wanted() {
            write!(out, " {shown} {},", self.rest.get(&shown).unwrap_or(&0))?;
        }
        write!(out, "\nreplays: ")?;
        for shown in replay_coverage::wanted() {
            write!(out, " {} {},", shown.trim_start_matches("replay "), self.replays.get(&shown).unwrap_or(&0))?;
        }
        write!(out, "\nbatches: ")?;
        for shown in batch_coverage::wanted() {
            write!(out, " {} {},", shown.trim_start_matches("batch "), self.batches.get(&shown).unwrap_or(&0))?;
        }
        write!(out, "\nclocks:  ")?;
        for shown in clock_coverage::wanted() {
            write!(out, " {shown} {},", self.clocks.get(&shown).unwrap_or(&0))?;
        }
        write!(out, "\ncompared:")?;
        for shown in recordings_coverage::wanted() {
            write!(out, " {} {},", shown.trim_start_matches("compare "), self.recordings.get(&shown).unwrap_or(&0))?;
        }
        write!(out, "\nother:    accepted {} ? {} X {}", self.accepted, self.no_step, self.no_message)
    }
}

/// The kind of ending of a log that was read, or the first field of what writing a record came to.
fn log_outcome(word: &str, answer: &[u8]) -> String {
    let mut fields = answer.split(|&byte| byte == b' ');
    let field = if word == "logr" { fields.next_back() } else { fields.next() };
    let kind = field.and_then(|field| field.split(|&byte| byte == b'@').next()).unwrap_or_default();
    format!("{word} {}", String::from_utf8_lossy(kind))
}

fn leading_number(text: &[u8]) -> u32 {
    let digits = text.iter().take_while(|byte| byte.is_ascii_digit());
    digits.fold(0, |number: u32, digit| number.saturating_mul(10).saturating_add(u32::from(digit - b'0')))
}

#[cfg(test)]
mod tests {
    use super::*;

    #[test]
    fn refusal_5_is_wanted_of_each_word_and_with_three_starts() {
        let (mut coverage, table) = (Coverage::default(), Table::new());
        let misses = |coverage: &Coverage, what: &str| coverage.missing().iter().any(|missing| missing == what);
        coverage.count(&table, b"frame 4 0 6b000 x 0e", b"R5:0");
        coverage.count(&table, b"read 6b001 x 0205", b"R5:8");
        assert!(!misses(&coverage, "frame R5") && !misses(&coverage, "read R5") && misses(&coverage, "change R5"));
        coverage.count(&table, b"change 6b001 x 0201 8 5", b"R5:8 0201");
        assert!(!misses(&coverage, "change R5") && misses(&coverage, "R5 with 3 starts"));
        coverage.count(&table, b"change 63000 x a00f83ff41000164 48 2", b"R5:48 a00f83ff41000164");
        assert!(!misses(&coverage, "R5 with 3 starts"));
    }
}
