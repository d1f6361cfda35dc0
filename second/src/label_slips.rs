//! Wrong readings of Req 02.

use crate::codec::{self, Heading, Message, Reader, Refusal};
use crate::desk::Desk;

/// In place of the right reader wherever a frame is read.
const WRONG_READERS: [(&str, Reader); 3] = [
    ("label-last", last_offender),
    ("label-length", too_long_after_labels),
    ("label-long", one_number_for_both_lengths),
];

const FRAME_WITHOUT_START: &str = "label-frame";
const CHANGE_WITHOUT_START: &str = "label-change";

pub fn names() -> impl Iterator<Item = &'static str> {
    WRONG_READERS.map(|(name, _)| name).into_iter().chain([FRAME_WITHOUT_START, CHANGE_WITHOUT_START])
}

/// `None` where there is no slip of that name.
pub fn put_into(desk: &mut Desk, name: &str) -> Option<()> {
    match name {
        FRAME_WITHOUT_START => desk.table.reader = |heading, bytes| dropped(codec::read(heading, bytes)),
        CHANGE_WITHOUT_START => desk.changer = own_start_dropped,
        _ => {
            desk.reader = WRONG_READERS.iter().find(|(known, _)| *known == name)?.1;
            desk.table.reader = desk.reader;
        }
    }
    Some(())
}

fn last_offender(heading: Heading, bytes: &[u8]) -> Result<Message, Refusal> {
    let read = codec::read(heading, bytes);
    match (read, heading.page()) {
        (Err(Refusal::NoLabel { .. }), Some(page)) => {
            Err(Refusal::NoLabel { start: codec::offenders(page, bytes).into_iter().max().expect("one that offends") })
        }
        _ => read,
    }
}

/// The labels of a frame that is too long judged by the bytes that the message would have.
fn too_long_after_labels(heading: Heading, bytes: &[u8]) -> Result<Message, Refusal> {
    match (codec::read(heading, bytes), heading.page()) {
        (Err(Refusal::Number(15)), Some(page)) => {
            codec::read(heading, &bytes[..page.len]).and(Err(Refusal::Number(15)))
        }
        (read, _) => read,
    }
}

fn one_number_for_both_lengths(heading: Heading, bytes: &[u8]) -> Result<Message, Refusal> {
    match codec::read(heading, bytes) {
        Err(Refusal::Number(15)) => Err(Refusal::Number(4)),
        read => read,
    }
}

pub fn dropped<T>(outcome: Result<T, Refusal>) -> Result<T, Refusal> {
    match outcome {
        Err(Refusal::NoLabel { .. }) => Err(Refusal::Number(5)),
        other => other,
    }
}

/// The frame's own 5 is handed on with its start, and only that of the new label has none.
fn own_start_dropped(heading: Heading, bytes: &mut [u8], start: u32, raw: i64) -> Result<(), Refusal> {
    codec::read(heading, bytes)?;
    dropped(codec::change(heading, bytes, start, raw))
}
