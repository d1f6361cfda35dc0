//! Wrong readings of Req 04.

use crate::codec::{self, Heading, Message, Places, Reader, Refusal};
use crate::desk::Desk;
use crate::history::{session, Event};
use crate::pages::{Kind, Order, Page, Signal};
use crate::record::{self, Form, FORM};
use crate::rules::{Limits, RULES};
use crate::service::{self, Probe};

/// In place of the right reader wherever a frame is read.
const WRONG_READERS: [(&str, Reader); 6] = [
    ("safety-lowest", |heading, bytes| taken_by(start_is_lowest, heading, bytes)),
    ("safety-walk", |heading, bytes| taken_by(on_at_bit_0, heading, bytes)),
    ("safety-unsigned", unsigned_temperatures),
    ("safety-duty", duty_limited),
    ("safety-extended", extended_as_well),
    ("safety-uncovered", uncovered_bits_dropped),
];

const CONTACTORS: &str = "safety-f3";
const PROBE: &str = "safety-probe";
const LIMIT: &str = "safety-limit";
const LATEST: &str = "safety-latest";

pub fn names() -> impl Iterator<Item = &'static str> {
    WRONG_READERS.map(|(name, _)| name).into_iter().chain([CONTACTORS, PROBE, LIMIT, LATEST])
}

/// `None` where there is no slip of that name.
pub fn put_into(desk: &mut Desk, name: &str) -> Option<()> {
    match name {
        CONTACTORS => desk.table.rules[2] = f3_by_the_safety_controller,
        PROBE => desk.prober = |raw| if raw == -1 { Probe::NotUsed } else { service::probe(raw) },
        LIMIT => desk.limiter = |raw| raw,
        LATEST => {
            desk.recorder = |post, counts| {
                let form = Form { order: |page| (!page.extended, page.id), ..FORM };
                record::line_in(&form, post, counts)
            }
        }
        _ => {
            desk.reader = WRONG_READERS.iter().find(|(known, _)| *known == name)?.1;
            desk.table.reader = desk.reader;
        }
    }
    Some(())
}

fn taken_by(places: Places, heading: Heading, bytes: &[u8]) -> Result<Message, Refusal> {
    let page = codec::read(heading, bytes)?.kind.page();
    Ok(codec::taken(places, page, bytes))
}

/// The start as 000 has it; what would leave the payload is left out.
fn start_is_lowest(page: &Page, signal: &Signal) -> Vec<u32> {
    (signal.start..signal.start + signal.width).filter(|&place| place < page.len as u32 * 8).collect()
}

/// Down to bit 0 of the first byte, but then from bit 0 of the next one up.
fn on_at_bit_0(page: &Page, signal: &Signal) -> Vec<u32> {
    let first = signal.start % 8 + 1;
    if page.order == Order::Little || first >= signal.width {
        return codec::places(page, signal);
    }
    let next = (signal.start / 8 + 1) * 8;
    let walked = (0..first).map(|down| signal.start - down).chain(next..next + signal.width - first);
    walked.rev().collect()
}

fn changed(message: Message, change: impl Fn(&Signal, i64) -> i64) -> Message {
    let raws: Vec<i64> = message.signals().map(|(signal, raw)| change(signal, raw)).collect();
    Message::new(message.kind, &raws)
}

fn unsigned_temperatures(heading: Heading, bytes: &[u8]) -> Result<Message, Refusal> {
    let message = codec::read(heading, bytes)?;
    Ok(changed(message, |signal, raw| if signal.width == 14 { raw.rem_euclid(1 << 14) } else { raw }))
}

fn duty_limited(heading: Heading, bytes: &[u8]) -> Result<Message, Refusal> {
    let message = codec::read(heading, bytes)?;
    Ok(changed(message, |signal, raw| if signal.width == 10 { service::limited_duty(raw) } else { raw }))
}

fn extended_as_well(heading: Heading, bytes: &[u8]) -> Result<Message, Refusal> {
    let standard = Heading { extended: false, ..heading };
    codec::read(if standard.page().is_some() { standard } else { heading }, bytes)
}

fn uncovered_bits_dropped(heading: Heading, bytes: &[u8]) -> Result<Message, Refusal> {
    match (codec::read(heading, bytes), heading.page()) {
        (Err(Refusal::Number(6)), Some(page)) => Ok(codec::taken(codec::places, page, bytes)),
        (read, _) => read,
    }
}

/// The contactors that the host asks the safety controller for taken for the charger's.
fn f3_by_the_safety_controller(limits: &Limits, past: &[Event], event: &Event) -> bool {
    let closes = |control: &Message| control.raw("CC_Contactor1State") + control.raw("CC_Contactor2State") > 0;
    RULES[2](limits, past, event) || event.of(&[Kind::ChargeControl1]).is_some_and(closes) && session(past).is_none()
}
