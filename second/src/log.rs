//! Req 01's night log: records as bytes one behind the other, read back up to where they end, are cut or are bad.

use crate::codec::Refusal;
use crate::posts::{Arrival, Frame, CHANNELS};

/// 02: "at most five groups".
const MOST_GROUPS: usize = 5;
const HIGH_BIT: u8 = 0x80;

/// 02: "A tick has length 9, identifier part 0 and no payload".
const TICK: [u64; 2] = [0, 9];
const LONGEST_PAYLOAD: usize = 8;

/// Why no more records are read.
#[derive(Clone, Copy, Debug, PartialEq, Eq)]
pub enum Ending {
    End,
    Cut,
    Bad(Refusal),
}

impl From<Refusal> for Ending {
    fn from(refusal: Refusal) -> Ending {
        Ending::Bad(refusal)
    }
}

/// The whole records, and the byte behind the last of them, where a piece or a bad record begins.
pub struct Log<'a> {
    pub records: Vec<Arrival<'a>>,
    pub ending: Ending,
    pub at: usize,
}

/// What stands first in the bytes, and the bytes behind it.
pub type Taken<'a, T> = Result<(T, &'a [u8]), Ending>;
pub type Number = fn(&[u8]) -> Taken<u32>;
pub type Reader = fn(&[u8]) -> Log;
pub type Writer = fn(&Arrival, &mut [u8]) -> Result<usize, Refusal>;

/// Gives 17, 18 or 19, 20, then 8; a longer buffer keeps its bytes behind the record.
pub fn write(record: &Arrival, buffer: &mut [u8]) -> Result<usize, Refusal> {
    judge_channel(record.channel, CHANNELS)?;
    if let Some(frame) = &record.frame {
        judge_identifier(frame.id, frame.extended)?;
        if frame.bytes.len() > LONGEST_PAYLOAD {
            return Err(Refusal::Number(20));
        }
    }
    let bytes = bytes(record);
    buffer.get_mut(..bytes.len()).ok_or(Refusal::Number(8))?.copy_from_slice(&bytes);
    Ok(bytes.len())
}

/// The five parts of a record that nobody has judged.
pub fn bytes(record: &Arrival) -> Vec<u8> {
    let ([identifier, length], payload) = match &record.frame {
        Some(frame) => ([u64::from(frame.id) * 2 + u64::from(frame.extended), frame.bytes.len() as u64], frame.bytes),
        None => (TICK, &[][..]),
    };
    let numbers = [u64::from(record.time), u64::from(record.channel), identifier, length];
    [numbers.map(groups).concat().as_slice(), payload].concat()
}

/// 02: "groups of seven bits, low group first, high bit set on all but the last, shortest form".
pub fn groups(number: u64) -> Vec<u8> {
    let mut groups = Vec::new();
    let mut left = number;
    while left >= u64::from(HIGH_BIT) {
        groups.push(left as u8 | HIGH_BIT);
        left >>= 7;
    }
    groups.push(left as u8);
    groups
}

pub fn read(bytes: &[u8]) -> Log<'_> {
    records(bytes, |rest| record(rest, number, CHANNELS))
}

pub fn records<'a>(bytes: &'a [u8], record: impl Fn(&'a [u8]) -> Taken<'a, Arrival<'a>>) -> Log<'a> {
    let mut log = Log { records: Vec::new(), ending: Ending::End, at: 0 };
    while log.at < bytes.len() {
        match record(&bytes[log.at..]) {
            Ok((record, rest)) => {
                log.records.push(record);
                log.at = bytes.len() - rest.len();
            }
            Err(ending) => {
                log.ending = ending;
                break;
            }
        }
    }
    log
}

/// Each part is judged before the next is looked for, so that a bad one goes before a cut behind it.
pub fn record(bytes: &[u8], number: Number, channels: u32) -> Taken<'_, Arrival<'_>> {
    let (time, rest) = number(bytes)?;
    let (channel, rest) = number(rest)?;
    judge_channel(channel, channels)?;
    let (identifier, rest) = number(rest)?;
    let (id, extended) = (identifier / 2, identifier % 2 == 1);
    judge_identifier(id, extended)?;
    let (length, rest) = number(rest)?;
    let (frame, rest) = match length {
        0..=8 => {
            let (bytes, rest) = rest.split_at_checked(length as usize).ok_or(Ending::Cut)?;
            (Some(Frame { id, extended, bytes }), rest)
        }
        9 if identifier == 0 => (None, rest),
        9 => return Err(Refusal::Number(21).into()),
        _ => return Err(Refusal::Number(20).into()),
    };
    Ok((Arrival { channel, time, frame }, rest))
}

/// A number is well-formed where its groups are those that writing it gives.
pub fn number(bytes: &[u8]) -> Taken<'_, u32> {
    let (own, rest) = first_groups(bytes)?;
    match u32::try_from(value(own)) {
        Ok(number) if groups(u64::from(number)) == own => Ok((number, rest)),
        _ => Err(Refusal::Number(16).into()),
    }
}

/// The groups up to the first one without its high bit; a cut where the bytes run out before five have it.
pub fn first_groups(bytes: &[u8]) -> Taken<'_, &[u8]> {
    let room = &bytes[..bytes.len().min(MOST_GROUPS)];
    match room.iter().position(|group| group & HIGH_BIT == 0) {
        Some(last) => Ok(bytes.split_at(last + 1)),
        None if room.len() < MOST_GROUPS => Err(Ending::Cut),
        None => Err(Refusal::Number(16).into()),
    }
}

/// At most five groups, 35 bits.
pub fn value(groups: &[u8]) -> u64 {
    groups.iter().rev().fold(0, |value, group| value << 7 | u64::from(group & !HIGH_BIT))
}

fn judge_channel(channel: u32, channels: u32) -> Result<(), Refusal> {
    if channel < channels {
        Ok(())
    } else {
        Err(Refusal::Number(17))
    }
}

fn judge_identifier(id: u32, extended: bool) -> Result<(), Refusal> {
    match extended {
        false if id > 2047 => Err(Refusal::Number(18)),
        true if id >> 29 != 0 => Err(Refusal::Number(19)),
        _ => Ok(()),
    }
}
