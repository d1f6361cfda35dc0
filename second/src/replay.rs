//! Req 05's replay: a table set up from a short list of posts, a log's records fed to it, and a line for each.

use crate::codec::Refusal;
use crate::log::{self, Ending, Log};
use crate::posts::{Arrival, Table};
use crate::rules::Limits;

/// Post, channel and limits.
pub type SetUp = (u32, u32, Limits);

/// The lines without their line feeds, and why there are no more.
pub struct Replay {
    pub lines: Vec<String>,
    pub closing: Closing,
}

#[derive(Clone, Copy, Debug, PartialEq, Eq)]
pub enum Closing {
    /// How the log ends, and the byte where a piece or a malformed record begins.
    Log(Ending, usize),
    SetUp(Refusal),
}

/// A record with its count, the post that holds its channel, and what the table answered.
pub struct Fed<'a> {
    pub count: usize,
    pub record: &'a Arrival<'a>,
    pub holder: Option<usize>,
    pub answer: Result<u32, Refusal>,
}

pub type Line = fn(&Fed) -> String;

/// The table is the desk's own.
pub type Replayer = fn(&mut Table, &[SetUp], &[u8], Line) -> Replay;

/// The desk's own table does not count.
pub fn replay(_: &mut Table, set_ups: &[SetUp], bytes: &[u8], line: Line) -> Replay {
    played(&mut Table::new(), set_ups, &log::read(bytes), line)
}

/// 02: "Set-ups come before the first record; a refused one ends the replay with its number and no line".
pub fn played(table: &mut Table, set_ups: &[SetUp], log: &Log, line: Line) -> Replay {
    match prepare(table, set_ups) {
        Ok(()) => Replay { lines: lines(table, &log.records, line), closing: Closing::Log(log.ending, log.at) },
        Err(refusal) => Replay { lines: Vec::new(), closing: Closing::SetUp(refusal) },
    }
}

pub fn prepare(table: &mut Table, set_ups: &[SetUp]) -> Result<(), Refusal> {
    set_ups.iter().try_for_each(|&(post, channel, limits)| table.set_up(post, channel, limits))
}

/// 02: "Its lines must be those of the records fed singly: count from 1".
pub fn lines(table: &mut Table, records: &[Arrival], line: Line) -> Vec<String> {
    let fed = records.iter().zip(1..).map(|(record, count)| {
        let holder = table.holder(record.channel);
        line(&Fed { count, record, holder, answer: table.feed(record) })
    });
    fed.collect()
}

/// 02: "one space between".
pub fn line(fed: &Fed) -> String {
    format!("{} {} {}", fed.count, post(fed), answer(fed))
}

/// 02: "dash for refusal 1".
pub fn post(fed: &Fed) -> String {
    match (fed.answer, fed.holder) {
        (Err(Refusal::Number(1)), _) | (_, None) => "-".to_string(),
        (_, Some(post)) => post.to_string(),
    }
}

/// 02: "A with the decimal finding number or R with the refusal"; "refusal 5 adds a space and the start bit".
pub fn answer(fed: &Fed) -> String {
    match fed.answer {
        Ok(findings) => format!("A{findings}"),
        Err(Refusal::Number(number)) => format!("R{number}"),
        Err(Refusal::NoLabel { start }) => format!("R5 {start}"),
    }
}
