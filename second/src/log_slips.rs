//! Wrong readings of Req 01.

use crate::codec::Refusal;
use crate::desk::Desk;
use crate::log::{self, Ending, Log, Reader, Taken, Writer};
use crate::posts::{Arrival, Frame, CHANNELS};

const WRONG_READERS: [(&str, Reader); 6] = [
    ("log-longer", longer_forms),
    ("log-fifth", fifth_group_may_go_on),
    ("log-length", length_after_the_payload),
    ("log-channel", channel_32),
    ("log-tick", tick_with_extended_0),
    ("log-cut", cut_one_record_late),
];

const WRONG_WRITERS: [(&str, Writer); 2] = [("log-write", refuses_after_writing), ("log-room", room_before_the_rest)];

pub fn names() -> impl Iterator<Item = &'static str> {
    WRONG_READERS.map(|(name, _)| name).into_iter().chain(WRONG_WRITERS.map(|(name, _)| name))
}

/// `None` where there is no slip of that name.
pub fn put_into(desk: &mut Desk, name: &str) -> Option<()> {
    if let Some((_, writer)) = WRONG_WRITERS.iter().find(|(known, _)| *known == name) {
        desk.log_writer = *writer;
    } else {
        desk.log_reader = WRONG_READERS.iter().find(|(known, _)| *known == name)?.1;
    }
    Some(())
}

fn longer_forms(bytes: &[u8]) -> Log<'_> {
    fn number(bytes: &[u8]) -> Taken<'_, u32> {
        let (groups, rest) = log::first_groups(bytes)?;
        let number = u32::try_from(log::value(groups)).map_err(|_| Refusal::Number(16))?;
        Ok((number, rest))
    }
    log::records(bytes, |rest| log::record(rest, number, CHANNELS))
}

/// Five groups with their high bits at the end of the log taken for a number that is cut.
fn fifth_group_may_go_on(bytes: &[u8]) -> Log<'_> {
    fn number(bytes: &[u8]) -> Taken<'_, u32> {
        match log::first_groups(bytes) {
            Err(Ending::Bad(_)) if bytes.len() == 5 => Err(Ending::Cut),
            _ => log::number(bytes),
        }
    }
    log::records(bytes, |rest| log::record(rest, number, CHANNELS))
}

fn length_after_the_payload(bytes: &[u8]) -> Log<'_> {
    log::records(bytes, |rest| {
        let judged = log::record(rest, log::number, CHANNELS);
        match numbers(rest) {
            Ok(([.., length], payload))
                if judged == Err(Ending::Bad(Refusal::Number(20))) && payload.len() < length as usize =>
            {
                Err(Ending::Cut)
            }
            _ => judged,
        }
    })
}

/// The four parts before the payload.
fn numbers(bytes: &[u8]) -> Taken<'_, [u32; 4]> {
    let mut numbers = [0; 4];
    let mut rest = bytes;
    for number in &mut numbers {
        (*number, rest) = log::number(rest)?;
    }
    Ok((numbers, rest))
}

fn channel_32(bytes: &[u8]) -> Log<'_> {
    log::records(bytes, |rest| log::record(rest, log::number, CHANNELS + 1))
}

fn tick_with_extended_0(bytes: &[u8]) -> Log<'_> {
    log::records(bytes, |rest| match numbers(rest) {
        Ok(([time, channel, 1, 9], rest)) if channel < CHANNELS => Ok((Arrival { channel, time, frame: None }, rest)),
        _ => log::record(rest, log::number, CHANNELS),
    })
}

/// A piece that lacks payload bytes only is given as a record, and the cut told behind it.
pub fn cut_one_record_late(bytes: &[u8]) -> Log<'_> {
    let mut log = log::read(bytes);
    if let (Ending::Cut, Ok(([time, channel, identifier, _], payload))) = (log.ending, numbers(&bytes[log.at..])) {
        let frame = Some(Frame { id: identifier / 2, extended: identifier % 2 == 1, bytes: payload });
        log.records.push(Arrival { channel, time, frame });
        log.at = bytes.len();
    }
    log
}

fn refuses_after_writing(record: &Arrival, buffer: &mut [u8]) -> Result<usize, Refusal> {
    for (place, byte) in buffer.iter_mut().zip(log::bytes(record)) {
        *place = byte;
    }
    log::write(record, buffer)
}

fn room_before_the_rest(record: &Arrival, buffer: &mut [u8]) -> Result<usize, Refusal> {
    if buffer.len() < log::bytes(record).len() {
        return Err(Refusal::Number(8));
    }
    log::write(record, buffer)
}
