//! A log that was read, as one line.

use crate::fields::{form, hex};
use crate::log::{Ending, Log};
use crate::posts::Arrival;

pub fn line(log: &Log) -> String {
    let mut parts = vec![format!("L {}", log.records.len())];
    parts.extend(log.records.iter().map(record));
    parts.push(ending(log.ending, log.at as u64));
    parts.join(" ")
}

/// `END`, `CUT@BYTE` or `BAD R<n>@BYTE`.
pub fn ending(ending: Ending, at: u64) -> String {
    match ending {
        Ending::End => "END".to_string(),
        Ending::Cut => format!("CUT@{at}"),
        Ending::Bad(refusal) => format!("BAD {refusal}@{at}"),
    }
}

fn record(Arrival { channel, time, frame }: &Arrival) -> String {
    match frame {
        None => format!("t,{time},{channel}"),
        Some(frame) => {
            format!("f,{time},{channel},{:x},{},{}", frame.id, form(frame.extended), hex(frame.bytes))
        }
    }
}
