//! Wrong readings of the messages that Req 14 adds.

use crate::asked::{CONTROLLER_STATUS, DC_POWER_CONTROL, STATUS};
use crate::codec::{self, places, Heading, Message, Reader, Refusal};
use crate::desk::{Desk, Recorder};
use crate::history::{latest, latest_message, session, Event};
use crate::newer_pages::{is_rest, rest, EV_INFORMATION};
use crate::pages::{find, Kind, NEWER};
use crate::posts::{by_own_pages, Frame, Hearing, OTHER_INTERFACE};
use crate::record;
use crate::rules::{powers, Limits, Rule, CONTROLLER_LIMIT, RULES};

/// In place of the right reader, on a post and without one.
const WRONG_READERS: [(&str, Reader); 4] = [
    ("rest-reserved", reserved_dropped),
    ("rest-gap", uncovered_bit_let_pass),
    ("rest-unsigned", energy_unsigned),
    ("rest-doubled", capacity_as_in_001),
];

/// What a post makes of a frame.
const WRONG_HEARINGS: [(&str, Hearing); 2] =
    [("rest-three", still_unknown), ("rest-foreign", unknown_on_an_older_post)];

/// Name, and the rule that stands in for the right one of that number.
const WRONG_RULES: [(&str, usize, Rule); 5] = [
    ("rest-opens", 4, f4_opened_by_a_vehicle),
    ("rest-charge", 8, f8_above_the_vehicles_limit),
    ("rest-voltage", 7, f7_above_the_vehicles_limit),
    ("rest-alive", 2, f2_ended_by_extra_information),
    ("rest-button", 12, f12_by_the_stop_button),
];

const WRONG_RECORDER: (&str, Recorder) = ("rest-record", |post, counts| {
    let line = record::line(post, counts);
    let (before, latest) = line.split_once("latest=").expect("a record");
    let left_out = |message: &&str| !rest().any(|page| message.starts_with(&format!("{:x}x:", page.id)));
    let kept: Vec<&str> = latest.split(';').filter(left_out).collect();
    format!("{before}latest={}", if kept.is_empty() { "-".to_string() } else { kept.join(";") })
});

pub fn names() -> impl Iterator<Item = &'static str> {
    let readers = WRONG_READERS.map(|(name, _)| name).into_iter().chain(WRONG_HEARINGS.map(|(name, _)| name));
    readers.chain(WRONG_RULES.map(|(name, ..)| name)).chain([WRONG_RECORDER.0])
}

/// `None` where there is no slip of that name.
pub fn put_into(desk: &mut Desk, name: &str) -> Option<()> {
    if let Some((_, reader)) = WRONG_READERS.iter().find(|(known, _)| *known == name) {
        (desk.reader, desk.table.reader) = (*reader, *reader);
    } else if let Some((_, hearing)) = WRONG_HEARINGS.iter().find(|(known, _)| *known == name) {
        desk.table.hearing = *hearing;
    } else if let Some((_, number, rule)) = WRONG_RULES.iter().find(|(known, ..)| *known == name) {
        desk.table.rules[number - 1] = *rule;
    } else {
        desk.recorder = [WRONG_RECORDER].iter().find(|(known, _)| *known == name)?.1;
    }
    Some(())
}

/// A message of that kind with other raw numbers, by the names of its signals.
fn read_with(
    heading: Heading,
    bytes: &[u8],
    of: fn(Kind) -> bool,
    raw: fn(&str, i64) -> i64,
) -> Result<Message, Refusal> {
    let message = codec::read(heading, bytes)?;
    if !of(message.kind) {
        return Ok(message);
    }
    let raws: Vec<i64> = message.signals().map(|(signal, carried)| raw(signal.name, carried)).collect();
    Ok(Message::new(message.kind, &raws))
}

fn reserved_dropped(heading: Heading, bytes: &[u8]) -> Result<Message, Refusal> {
    read_with(heading, bytes, is_rest, |name, raw| if name == "Reserved" { 0 } else { raw })
}

fn energy_unsigned(heading: Heading, bytes: &[u8]) -> Result<Message, Refusal> {
    read_with(heading, bytes, |kind| kind == Kind::EvInformationEnergy, |_, raw| raw.rem_euclid(65_536))
}

/// There a Battery_Capacity counts 2 kWh.
fn capacity_as_in_001(heading: Heading, bytes: &[u8]) -> Result<Message, Refusal> {
    let battery = |kind| kind == Kind::EvInformationBattery;
    read_with(heading, bytes, battery, |name, raw| if name == "Battery_Capacity" { 2 * raw } else { raw })
}

/// The page has no signals there, and 02 no word about them.
fn uncovered_bit_let_pass(heading: Heading, bytes: &[u8]) -> Result<Message, Refusal> {
    let page = heading.page().filter(|page| page.kind == Kind::SequenceControl);
    match (codec::read(heading, bytes), page) {
        (Err(Refusal::Number(6)), Some(page)) => Ok(codec::taken(places, page, bytes)),
        (read, _) => read,
    }
}

fn still_unknown(reader: Reader, interface: u32, frame: &Frame) -> Result<Message, Refusal> {
    match by_own_pages(reader, interface, frame) {
        Ok(message) if is_rest(message.kind) => Err(Refusal::Number(3)),
        heard => heard,
    }
}

fn unknown_on_an_older_post(reader: Reader, interface: u32, frame: &Frame) -> Result<Message, Refusal> {
    let page = find(NEWER, frame.id, frame.extended);
    match by_own_pages(reader, interface, frame) {
        Err(OTHER_INTERFACE) if page.is_some_and(|page| is_rest(page.kind)) => Err(Refusal::Number(3)),
        heard => heard,
    }
}

/// Each EV_Information message tells that a vehicle is there.
fn f4_opened_by_a_vehicle(limits: &Limits, past: &[Event], event: &Event) -> bool {
    let opening = Some(Message::new(Kind::NewChargeSession, &[0, 0]));
    let opened = |event: &Event| match event.is(EV_INFORMATION) {
        true => Event { message: opening, ..*event },
        false => *event,
    };
    RULES[3](limits, &past.iter().map(opened).collect::<Vec<Event>>(), event)
}

fn told_by_the_vehicle(past: &[Event], kind: Kind, name: &str) -> Option<i64> {
    latest_message(past, &[kind]).map(|message| message.raw(name))
}

fn f8_above_the_vehicles_limit(limits: &Limits, past: &[Event], event: &Event) -> bool {
    let most = told_by_the_vehicle(past, Kind::EvInformationChargeLimits, "EV_Maximum_Charge_Current");
    let current = session(past).and(event.of(STATUS)).map(|status| status.raw("Present_Current"));
    RULES[7](limits, past, event) || most.zip(current).is_some_and(|(most, current)| current > most)
}

fn f7_above_the_vehicles_limit(limits: &Limits, past: &[Event], event: &Event) -> bool {
    let most = told_by_the_vehicle(past, Kind::EvInformationVoltages, "EV_Maximum_Voltage");
    let on = event.of(DC_POWER_CONTROL).filter(|control| control.label("Power_Function") != "Off");
    let target = on.map(|control| control.raw("Target_Voltage"));
    RULES[6](limits, past, event) || most.zip(target).is_some_and(|(most, target)| target > most)
}

/// It comes every 100 ms too.
fn f2_ended_by_extra_information(_: &Limits, past: &[Event], event: &Event) -> bool {
    let either = [CONTROLLER_STATUS, &[Kind::CcsExtraInformation, Kind::McsExtraInformation]].concat();
    let silent = latest(past, &either).is_some_and(|alive| event.time - alive.time > CONTROLLER_LIMIT);
    latest(past, CONTROLLER_STATUS).is_some() && silent
}

/// A user's stop as an Emergency_Stop.
fn f12_by_the_stop_button(limits: &Limits, past: &[Event], event: &Event) -> bool {
    let pressed = |event: &Event| {
        event.of(&[Kind::SequenceControl]).is_some_and(|control| control.label("User_Stop_Button") == "Pressed")
    };
    RULES[11](limits, past, event) || powers(event) && session(past).is_some_and(|session| session.iter().any(pressed))
}
