//! The maker's pages: the messages' names, their signals, units and labels, in the documents' own words.
//!
//! tests/pages has a line for each signal of documents 000, 004 and 001, in the order of the raw numbers; the header says which
//! identifier each kind has.

use std::sync::LazyLock;

use crate::library::{self, KINDS, SIGNALS};

const DOCUMENTS: [(bool, &str); 3] = [
    (false, include_str!("../../tests/pages/000.txt")),
    (false, include_str!("../../tests/pages/004.txt")),
    (true, include_str!("../../tests/pages/001.txt")),
];
const HEADER: &str = include_str!("../../include/rokemaipu.h");

/// A number that is a probe's own word, beside its degrees: no label.
const NOT_USED: &str = "TempSensorNotUsed";

#[derive(Debug, PartialEq, Eq)]
pub struct Signal {
    pub name: &'static str,
    pub factor: &'static str,
    pub offset: i64,
    pub unit: &'static str,
    pub labels: Vec<(i64, &'static str)>,
    pub is_probe: bool,
}

#[derive(Debug, PartialEq, Eq)]
pub struct Message {
    pub name: &'static str,
    pub id: u32,
    /// Of document 001, whose pages the older controllers have.
    pub older: bool,
    pub signals: Vec<Signal>,
}

impl Message {
    /// Standard identifiers are 11 bits; the documents have no extended one below.
    pub fn is_extended(&self) -> bool {
        self.id > 0x7ff
    }

    /// The raw number of each signal of a frame that a post keeps.
    pub fn raws(&self, payload: &[u8]) -> Option<[i64; SIGNALS]> {
        library::read(self.older, self.id, self.is_extended(), payload).ok().map(|(_, raws)| raws)
    }

    pub fn place(&self, signal: &str) -> Option<usize> {
        self.signals.iter().position(|each| each.name == signal)
    }
}

impl Signal {
    pub fn label(&self, raw: i64) -> Option<&'static str> {
        self.labels.iter().find(|(number, _)| *number == raw).map(|(_, name)| *name)
    }

    /// A raw number as the page means it: a label's name, or the number with its unit.
    pub fn words(&self, raw: i64) -> String {
        if let Some(name) = self.label(raw) {
            return name.to_string();
        }
        if self.is_probe {
            let degrees = i16::try_from(raw).ok().and_then(library::probe);
            return degrees.map_or("not used".to_string(), |degrees| format!("{degrees:.1} °C"));
        }
        let number = match self.factor {
            "0.1" => tenths(raw),
            "2" => (2 * raw + self.offset).to_string(),
            _ => (raw + self.offset).to_string(),
        };
        if self.unit.is_empty() {
            return number;
        }
        format!("{number} {}", self.unit)
    }
}

/// Whole tenths with their point.
pub fn tenths(raw: i64) -> String {
    format!("{}{}.{}", if raw < 0 { "-" } else { "" }, raw.abs() / 10, raw.abs() % 10)
}

fn unit(word: &'static str) -> &'static str {
    match word {
        "Volts" => "V",
        "Amps" => "A",
        "kOhms" => "kOhm",
        "-" => "",
        other => other,
    }
}

/// `MESSAGE IDENTIFIER BYTES SIGNAL START WIDTH TYPE SCALE OFFSET LABELS UNIT`
fn signal(fields: &[&'static str]) -> Option<Signal> {
    let [_, _, _, name, _, _, _, factor, offset, labels, word] = *fields else {
        return None;
    };
    let pairs =
        if labels == "-" { vec![] } else { labels.split(';').filter_map(|pair| pair.rsplit_once('=')).collect() };
    Some(Signal {
        name,
        factor,
        offset: offset.parse().ok()?,
        unit: unit(word),
        is_probe: pairs.iter().any(|(name, _)| *name == NOT_USED),
        labels: pairs
            .into_iter()
            .filter(|(name, _)| *name != NOT_USED)
            .filter_map(|(name, number)| Some((number.parse().ok()?, name)))
            .collect(),
    })
}

fn messages() -> Vec<Message> {
    let mut found: Vec<Message> = Vec::new();
    for (older, text) in DOCUMENTS {
        for line in text.lines() {
            let fields: Vec<&str> = line.split(' ').collect();
            let (Some(signal), Some(id)) = (signal(&fields), fields.get(1).and_then(|word| hexadecimal(word))) else {
                continue;
            };
            if found.last().is_none_or(|last| last.id != id) {
                found.push(Message { name: fields[0], id, older, signals: Vec::new() });
            }
            if let Some(last) = found.last_mut() {
                last.signals.push(signal);
            }
        }
    }
    found
}

fn hexadecimal(word: &str) -> Option<u32> {
    u32::from_str_radix(word.strip_prefix("0x")?, 16).ok()
}

/// `ROKEMAIPU_NAME = KIND, /* 0x63000 */` or `/* standard 6 */`: a kind and its identifier.
fn kind(line: &str) -> Option<(usize, u32)> {
    let (name, rest) = line.trim_start().strip_prefix("ROKEMAIPU_")?.split_once(" = ")?;
    let (number, comment) = rest.split_once("/*")?;
    let comment = comment.strip_suffix("*/")?.trim();
    let id = match comment.strip_prefix("standard ") {
        Some(word) => word.parse().ok()?,
        None => hexadecimal(comment)?,
    };
    let number = number.trim().trim_end_matches(',').parse().ok()?;
    (!name.is_empty()).then_some((number, id))
}

static MESSAGES: LazyLock<Vec<Message>> = LazyLock::new(|| {
    let mut all = messages();
    let mut kinds: Vec<(usize, u32)> = HEADER.lines().filter_map(kind).collect();
    kinds.sort();
    let place = |id: u32, all: &[Message]| all.iter().position(|message| message.id == id);
    kinds.into_iter().filter_map(|(_, id)| place(id, &all).map(|at| all.swap_remove(at))).collect()
});

/// The message of a kind.
pub fn message(kind: u32) -> Option<&'static Message> {
    MESSAGES.get(kind as usize)
}

/// The kinds that the library's posts can keep.
pub fn kinds() -> impl Iterator<Item = (u32, &'static Message)> {
    MESSAGES.iter().enumerate().take(KINDS).map(|(kind, message)| (kind as u32, message))
}

/// The kind of a message of document 000 or 004, or of 001, by its name.
pub fn named(older: bool, name: &str) -> Option<u32> {
    MESSAGES.iter().position(|each| each.older == older && each.name == name).map(|kind| kind as u32)
}

#[cfg(test)]
mod tests {
    use super::*;

    /// A payload of zeros, but the first label's number in each signal that has labels.
    fn sample(message: &Message, size: usize) -> Vec<u8> {
        let mut payload = vec![0; size];
        if message.name == "Emergency_Stop" {
            payload[0] = 1;
        }
        payload
    }

    #[test]
    fn each_kind_is_the_librarys() {
        assert!(MESSAGES.len() >= KINDS);
        for (kind, message) in MESSAGES.iter().enumerate() {
            let read = (1..=8).find_map(|size| {
                library::read(message.older, message.id, message.is_extended(), &sample(message, size)).ok()
            });
            assert_eq!(read.map(|(kind, _)| kind), Some(kind as u32), "{}", message.name);
        }
    }

    #[test]
    fn words() {
        let status = message(named(false, "Power_Modules_Status").unwrap()).unwrap();
        let raws = status.raws(&[0xa0, 0x0f, 0x83, 0xff, 0x41, 0x00, 0x01, 0x64]).unwrap();
        let said: Vec<String> = status.signals.iter().zip(raws).map(|(signal, raw)| signal.words(raw)).collect();
        assert_eq!(said, ["400.0 V", "-12.5 A", "25 °C", "-40 °C", "Allowed", "200 kOhm"]);
        let probes = message(named(false, "PT1000State").unwrap()).unwrap();
        assert_eq!(probes.signals[0].words(8191), "not used");
        assert_eq!(probes.signals[0].words(-1), "-0.1 °C");
        let state = message(named(false, "ChargeState1").unwrap()).unwrap();
        assert_eq!(state.signals[state.place("CS_CurrentPpState").unwrap()].words(4), "63/70A");
    }
}
