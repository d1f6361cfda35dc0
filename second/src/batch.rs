//! Req 07's batch: log records taken in one call, with a lent slice for their answers.

use crate::codec::Refusal;
use crate::log::{self, Ending, Log};
use crate::posts::Table;

/// 02: "up to 4,096 bytes of log records".
pub const MOST_BYTES: usize = 4096;

pub const TOO_LARGE: Refusal = Refusal::Number(22);
pub const NO_RECORD: Refusal = Refusal::Number(23);
pub const FEW_PLACES: Refusal = Refusal::Number(24);

/// What a refused answer's word is beyond.
const REFUSED: u32 = 65_536;

pub type Batcher = fn(&mut Table, &[u8], &mut [u32]) -> Result<usize, Refusal>;

/// 02: "The table and answers equal feeding each record in order"; "Answers beyond the records stay as they were".
pub fn batch(table: &mut Table, bytes: &[u8], answers: &mut [u32]) -> Result<usize, Refusal> {
    let log = judged(bytes, answers.len())?;
    fed(table, &log, answers, word);
    Ok(log.records.len())
}

/// 02: "A slice above 4,096 bytes, a malformed or cut record, and an answers slice shorter than the records each refuse
/// the whole batch with a number of their own, judged in this order".
pub fn judged(bytes: &[u8], places: usize) -> Result<Log<'_>, Refusal> {
    let log = log::read(bytes);
    let faults = [
        (bytes.len() > MOST_BYTES, TOO_LARGE),
        (log.ending != Ending::End, NO_RECORD),
        (places < log.records.len(), FEW_PLACES),
    ];
    match faults.into_iter().find(|(fault, _)| *fault) {
        Some((_, refusal)) => Err(refusal),
        None => Ok(log),
    }
}

/// The records one by one, each answer to its place as long as there is one.
pub fn fed(table: &mut Table, log: &Log, answers: &mut [u32], word: fn(Result<u32, Refusal>) -> u32) {
    let mut places = answers.iter_mut();
    for record in &log.records {
        let answer = word(table.feed(record));
        if let Some(place) = places.next() {
            *place = answer;
        }
    }
}

/// 02: "the finding number, or 65,536 plus the refusal plus 256 times 5's start bit".
pub fn word(answer: Result<u32, Refusal>) -> u32 {
    match answer {
        Ok(findings) => findings,
        Err(Refusal::Number(number)) => REFUSED + u32::from(number),
        Err(Refusal::NoLabel { start }) => REFUSED + 5 + 256 * start,
    }
}
