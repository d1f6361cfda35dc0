//! Lines and answers for the eye: bytes outside ASCII escaped, very long ones cut; what a step brings, in words.

use crate::codec::{self, label_name, Heading};
use crate::fields::{bytes, extended, identifier};
use crate::log;
use crate::log_line;
use crate::pages::{NEWER, OLDER};

const WIDEST: usize = 240;

pub fn line(line: &[u8]) -> String {
    if line.len() <= WIDEST {
        return line.escape_ascii().to_string();
    }
    format!("{}... ({} bytes)", line[..WIDEST].escape_ascii(), line.len())
}

pub fn answer(answer: Option<&Vec<u8>>) -> String {
    answer.map_or("(no answer)".to_string(), |answer| line(answer))
}

/// The message of a `frame` step, and the log of a `replay`.
pub fn brought(step: &[u8]) -> Option<String> {
    let fields: Vec<&[u8]> = step.split(|&byte| byte == b' ').collect();
    match fields[..] {
        [b"frame", _, _, id, form, payload] => message(identifier(id)?, extended(form)?, &bytes(payload)?),
        [b"replay", log, _] => Some(line(log_line::line(&log::read(&bytes(log)?)).as_bytes())),
        _ => None,
    }
}

/// A message by the names of its page, which is of one interface alone or of both.
fn message(id: u32, extended: bool, payload: &[u8]) -> Option<String> {
    let read = |interface| codec::read(Heading { interface, id, extended }, payload).ok();
    let message = read(NEWER).or_else(|| read(OLDER))?;
    let values = message.values();
    let named = message.signals().zip(values).map(|((signal, raw), value)| match label_name(signal, raw) {
        Some(label) => format!(" {}={label}", signal.name),
        None => format!(" {}={value}", signal.name),
    });
    Some(format!("{}{}", message.kind.page().name, named.collect::<String>()))
}
