//! Req 10: two recordings compared.

use std::fmt;

use crate::log::{self, Ending};
use crate::posts::{Arrival, CHANNELS};

/// 02: "At most 512 records a log"; "lent lists of under 512 places" are refused.
pub const MOST: usize = 512;

/// Side 1 is the first log's, side 2 the second's.
#[derive(Clone, Copy, Debug, PartialEq, Eq)]
pub enum Fault {
    Log { side: usize, at: usize },
    Many { side: usize },
    Room { side: usize },
}

impl fmt::Display for Fault {
    fn fmt(&self, out: &mut fmt::Formatter) -> fmt::Result {
        match self {
            Fault::Log { side, at } => write!(out, "R26:{side}:{at}"),
            Fault::Many { side } => write!(out, "R27:{side}"),
            Fault::Room { side } => write!(out, "R28:{side}"),
        }
    }
}

/// The numbers, from 1, of the records that one log has and the other has not, and the channels that differ, each with the
/// first place where it does.
#[derive(Clone, Debug, PartialEq, Eq)]
pub struct Compared {
    pub first: Vec<usize>,
    pub second: Vec<usize>,
    pub channels: Vec<(u32, usize)>,
}

/// Two logs, and how many places there are for the numbers of each.
pub type Comparer = fn([&[u8]; 2], [usize; 2]) -> Result<Compared, Fault>;

pub fn compare(logs: [&[u8]; 2], rooms: [usize; 2]) -> Result<Compared, Fault> {
    judged(logs, rooms)?;
    let [first, second] = logs.map(|bytes| log::read(bytes).records);
    Ok(compared(&first, &second))
}

pub fn compared(first: &[Arrival], second: &[Arrival]) -> Compared {
    let places = (0..CHANNELS).map(|channel| (channel, place(&on(channel, first), &on(channel, second))));
    Compared {
        first: surplus(first, second),
        second: surplus(second, first),
        channels: places.filter_map(|(channel, place)| Some((channel, place?))).collect(),
    }
}

/// 02: "new numbers refuse a malformed or cut log, with side and byte, then more records, then lent lists of under 512
/// places. At each step the first log comes first".
pub fn judged(logs: [&[u8]; 2], rooms: [usize; 2]) -> Result<(), Fault> {
    let steps = [malformed(logs), many(logs), short(rooms)];
    steps.into_iter().flatten().flatten().next().map_or(Ok(()), Err)
}

pub fn malformed(logs: [&[u8]; 2]) -> [Option<Fault>; 2] {
    [1, 2].map(|side| {
        let log = log::read(logs[side - 1]);
        (log.ending != Ending::End).then_some(Fault::Log { side, at: log.at })
    })
}

/// However the log goes on behind them.
pub fn many(logs: [&[u8]; 2]) -> [Option<Fault>; 2] {
    [1, 2].map(|side| (log::read(logs[side - 1]).records.len() > MOST).then_some(Fault::Many { side }))
}

pub fn short(rooms: [usize; 2]) -> [Option<Fault>; 2] {
    [1, 2].map(|side| (rooms[side - 1] < MOST).then_some(Fault::Room { side }))
}

/// Each record is struck out together with one of the other log's that is the same; one that finds none is surplus, so
/// that of repeats it is the later ones.
pub fn surplus(own: &[Arrival], other: &[Arrival]) -> Vec<usize> {
    let mut left: Vec<&Arrival> = other.iter().collect();
    let mut surplus = Vec::new();
    for (number, record) in (1..).zip(own) {
        match left.iter().position(|same| *same == record) {
            Some(at) => drop(left.remove(at)),
            None => surplus.push(number),
        }
    }
    surplus
}

pub fn on<'a>(channel: u32, records: &'a [Arrival<'a>]) -> Vec<&'a Arrival<'a>> {
    records.iter().filter(|record| record.channel == channel).collect()
}

/// 02: "the first place, from 1, where its two sequences differ (the place after the shorter, if that one only ends), or
/// none".
pub fn place(first: &[&Arrival], second: &[&Arrival]) -> Option<usize> {
    let longer = first.len().max(second.len());
    (1..=longer).find(|&place| first.get(place - 1) != second.get(place - 1))
}

/// `A first=.. second=.. chan=..`, or the refusal.
pub fn line(outcome: Result<Compared, Fault>) -> String {
    match outcome {
        Err(fault) => fault.to_string(),
        Ok(Compared { first, second, channels }) => {
            let numbers = |list: Vec<usize>| joined(list.iter().map(usize::to_string).collect());
            let places = channels.iter().map(|(channel, place)| format!("{channel}:{place}")).collect();
            format!("A first={} second={} chan={}", numbers(first), numbers(second), joined(places))
        }
    }
}

fn joined(parts: Vec<String>) -> String {
    if parts.is_empty() {
        return "-".to_string();
    }
    parts.join(",")
}
