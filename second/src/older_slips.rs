//! Wrong readings of Req 11.

use crate::asked::{function, told, Limit, CONTROL, OPENING, STATUS};
use crate::codec::{self, Heading, Message, Reader, Refusal};
use crate::desk::{Desk, Recorder};
use crate::history::{latest, latest_message, session, Event};
use crate::log;
use crate::pages::{self, only_other_has, other, Kind, NEWER, OLDER};
use crate::posts::{
    by_own_pages, in_range, timed_and_read, Admission, Arrival, Frame, Hearing, Listener, Post, Table, OTHER_INTERFACE,
};
use crate::record::{self, Form, FORM};
use crate::replay::{played, Line, Replay, SetUp};
use crate::rules::{limit, poor_insulation, Limits, Rule, CONTROLLER_LIMIT, RULES};

/// What a post makes of a frame.
const WRONG_HEARINGS: [(&str, Hearing); 6] = [
    ("older-late", length_before_29),
    ("older-either", pages_of_both),
    ("older-layout", by_the_newer_page_of_that_name),
    ("older-three", no_number_of_its_own),
    ("older-safety", safety_frames_are_the_newer_ones),
    ("older-standard", form_does_not_count),
];

/// Name, and the rules that stand in for the right ones of those numbers.
const WRONG_RULES: [(&str, &[(usize, Rule)]); 11] = [
    ("older-standby", &[(4, f4_standby_at_0_amps), (5, f5_standby_at_0_amps), (9, f9_standby_at_0_amps)]),
    ("older-negative", &[(8, |limits, past, event| f8_above(limits, past, event, |told| told != 0))]),
    ("older-zero", &[(8, |limits, past, event| f8_above(limits, past, event, |_| true))]),
    ("older-discharge", &[(8, f8_one_number_for_both)]),
    ("older-f1", &[(1, f1_by_the_newer_status)]),
    ("older-f2", &[(2, f2_by_the_newer_status)]),
    ("older-f3", &[(3, f3_by_every_control)]),
    ("older-f5", &[(5, f5_by_the_newer_status)]),
    ("older-f7", &[(7, f7_by_every_control)]),
    ("older-f9", &[(9, f9_not_ended_by_insulation_test)]),
    ("older-f10", &[(10, f10_all_that_is_said)]),
];

const WRONG_ADMISSIONS: [(&str, Admission); 3] =
    [("older-kept", kept_from_the_first_set_up), ("older-dropped", dropped), ("older-unknown", unknown_is_newer)];

/// In place of the right reader wherever a frame is read, and where there is no post.
const RESERVED: (&str, Reader) = ("older-reserved", reserved_dropped);
const ALONE: (&str, Reader) = ("older-alone", other_interface_without_a_post);

const EARLY: (&str, Listener) = ("older-early", other_interface_before_the_clock);

/// In the record: all that the opening says, and Charging_Loop alone for DC_Power_Control.
const WRONG_RECORDERS: [(&str, Recorder); 2] = [
    ("older-first", |post, counts| record::line_in(&Form { first: Message::values, ..FORM }, post, counts)),
    ("older-control", |post, counts| {
        let control = &[Kind::DcPowerControl, Kind::ChargingLoop];
        record::line_in(&Form { control, ..FORM }, post, counts)
    }),
];

const REPLAYED: &str = "older-replay";

pub fn names() -> impl Iterator<Item = &'static str> {
    let others = WRONG_RECORDERS.map(|(name, _)| name).into_iter().chain([EARLY.0, RESERVED.0, ALONE.0, REPLAYED]);
    let posts = WRONG_HEARINGS.map(|(name, _)| name).into_iter().chain(WRONG_RULES.map(|(name, _)| name));
    posts.chain(WRONG_ADMISSIONS.map(|(name, _)| name)).chain(others)
}

/// `None` where there is no slip of that name.
pub fn put_into(desk: &mut Desk, name: &str) -> Option<()> {
    if let Some((_, hearing)) = WRONG_HEARINGS.iter().find(|(known, _)| *known == name) {
        desk.table.hearing = *hearing;
    } else if let Some((_, rules)) = WRONG_RULES.iter().find(|(known, _)| *known == name) {
        rules.iter().for_each(|(number, rule)| desk.table.rules[number - 1] = *rule);
    } else if let Some((_, admission)) = WRONG_ADMISSIONS.iter().find(|(known, _)| *known == name) {
        desk.table.admission = *admission;
    } else if name == RESERVED.0 {
        (desk.reader, desk.table.reader) = (RESERVED.1, RESERVED.1);
    } else if name == ALONE.0 {
        desk.reader = ALONE.1;
    } else if name == EARLY.0 {
        desk.table.listener = EARLY.1;
    } else if let Some((_, recorder)) = WRONG_RECORDERS.iter().find(|(known, _)| *known == name) {
        desk.recorder = *recorder;
    } else if name == REPLAYED {
        desk.replayer = every_post_is_newer;
    } else {
        return None;
    }
    Some(())
}

fn heading(interface: u32, frame: &Frame) -> Heading {
    Heading { interface, id: frame.id, extended: frame.extended }
}

/// The other pages' 4 and 15 come first.
fn length_before_29(reader: Reader, interface: u32, frame: &Frame) -> Result<Message, Refusal> {
    let heard = by_own_pages(reader, interface, frame);
    match (heard, reader(heading(other(interface), frame), frame.bytes)) {
        (Err(OTHER_INTERFACE), Err(length @ Refusal::Number(4 | 15))) => Err(length),
        (heard, _) => heard,
    }
}

/// Whatever a post's interface is.
fn pages_of_both(reader: Reader, interface: u32, frame: &Frame) -> Result<Message, Refusal> {
    match by_own_pages(reader, interface, frame) {
        Err(OTHER_INTERFACE) => reader(heading(other(interface), frame), frame.bytes),
        heard => heard,
    }
}

/// An older frame by the layout that 000 has under its name: a New_Charge_Session of 2 bytes, say.
fn by_the_newer_page_of_that_name(reader: Reader, interface: u32, frame: &Frame) -> Result<Message, Refusal> {
    let own = heading(interface, frame).page().filter(|_| interface == OLDER);
    let newer = own.and_then(|own| pages::of(NEWER).find(|page| page.name == own.name));
    match newer.filter(|newer| newer.extended) {
        Some(newer) => reader(Heading { interface: NEWER, id: newer.id, extended: true }, frame.bytes),
        None => by_own_pages(reader, interface, frame),
    }
}

fn no_number_of_its_own(reader: Reader, interface: u32, frame: &Frame) -> Result<Message, Refusal> {
    reader(heading(interface, frame), frame.bytes)
}

fn safety_frames_are_the_newer_ones(reader: Reader, interface: u32, frame: &Frame) -> Result<Message, Refusal> {
    if interface == OLDER && heading(OLDER, frame).page().is_some_and(|page| !page.extended) {
        return Err(OTHER_INTERFACE);
    }
    by_own_pages(reader, interface, frame)
}

fn form_does_not_count(reader: Reader, interface: u32, frame: &Frame) -> Result<Message, Refusal> {
    match by_own_pages(reader, interface, frame) {
        Err(Refusal::Number(3)) if only_other_has(interface, frame.id, !frame.extended) => Err(OTHER_INTERFACE),
        heard => heard,
    }
}

fn other_interface_before_the_clock(table: &Table, place: usize, arrival: &Arrival) -> Result<Event, Refusal> {
    match arrival.frame.as_ref().map(|frame| table.read(place, frame)) {
        Some(Err(OTHER_INTERFACE)) => Err(OTHER_INTERFACE),
        _ => timed_and_read(table, place, arrival),
    }
}

/// 001's page says that a Charging_Loop at 0 V and 0 A means "a sort of Standby".
fn stands_by(control: &Message) -> bool {
    control.kind == Kind::ChargingLoop && control.raw("Target_Current") == 0
}

fn f4_standby_at_0_amps(limits: &Limits, past: &[Event], event: &Event) -> bool {
    RULES[3](limits, past, event) && !event.of(CONTROL).is_some_and(stands_by)
}

fn f5_standby_at_0_amps(limits: &Limits, past: &[Event], event: &Event) -> bool {
    RULES[4](limits, past, event) && !event.of(CONTROL).is_some_and(stands_by)
}

fn f9_standby_at_0_amps(limits: &Limits, past: &[Event], event: &Event) -> bool {
    let control = session(past).and_then(|session| latest_message(session, CONTROL));
    RULES[8](limits, past, event) && !control.is_some_and(stands_by)
}

/// With such a number taken for a limit, where it is an older post's.
fn f8_above(limits: &Limits, past: &[Event], event: &Event, is_limit: fn(i64) -> bool) -> bool {
    let told = latest_message(past, &[Kind::PowerModulesLimits]).and_then(|limits| told(limits, Limit::Charge));
    let above = |current: i64| told.is_some_and(|told| is_limit(told) && current > told);
    RULES[7](limits, past, event) || in_session(past, event).is_some_and(above)
}

fn in_session(past: &[Event], event: &Event) -> Option<i64> {
    session(past).and(event.of(STATUS)).map(|status| status.raw("Present_Current"))
}

/// Maximum_Current for the discharge limit as well.
fn f8_one_number_for_both(limits: &Limits, past: &[Event], event: &Event) -> bool {
    let told = latest_message(past, &[Kind::PowerModulesLimits]).and_then(|limits| told(limits, Limit::Charge));
    let below = |current: i64| told.is_some_and(|told| told > 0 && current < -told);
    RULES[7](limits, past, event) || in_session(past, event).is_some_and(below)
}

fn f1_by_the_newer_status(limits: &Limits, past: &[Event], event: &Event) -> bool {
    session(past).is_some_and(|session| {
        let seen = latest(session, &[Kind::PowerModulesStatus]).unwrap_or(&session[0]);
        event.time - seen.time > u64::from(limits.silence)
    })
}

fn f2_by_the_newer_status(_: &Limits, past: &[Event], event: &Event) -> bool {
    let status = latest(past, &[Kind::AdvanticsControllerStatus]);
    status.is_some_and(|status| event.time - status.time > CONTROLLER_LIMIT)
}

/// A power transfer takes closed contactors.
fn f3_by_every_control(limits: &Limits, past: &[Event], event: &Event) -> bool {
    RULES[2](limits, past, event) || event.is(&[Kind::ChargingLoop]) && session(past).is_none()
}

fn f5_by_the_newer_status(limits: &Limits, past: &[Event], event: &Event) -> bool {
    let heard: Vec<Event> = past.iter().filter(|event| !event.is(&[Kind::OlderPowerModulesStatus])).copied().collect();
    RULES[4](limits, &heard, event)
}

fn f7_by_every_control(limits: &Limits, past: &[Event], event: &Event) -> bool {
    let above = |control: &Message| {
        let target = if control.kind == Kind::InsulationTest { "Test_Voltage" } else { "Target_Voltage" };
        function(control) != "Off" && control.raw(target) > limit(limits.volt, past, Limit::Voltage)
    };
    event.of(CONTROL).is_some_and(above)
}

/// The latest Precharge or Charging_Loop counts, whatever came behind it.
fn f9_not_ended_by_insulation_test(limits: &Limits, past: &[Event], event: &Event) -> bool {
    let live = |session| latest(session, &[Kind::Precharge, Kind::ChargingLoop]).is_some();
    let poor = event.of(&[Kind::OlderPowerModulesStatus]).is_some_and(|status| poor_insulation(limits, status));
    RULES[8](limits, past, event) || poor && session(past).is_some_and(live)
}

fn f10_all_that_is_said(_: &Limits, past: &[Event], event: &Event) -> bool {
    event.of(OPENING).is_some_and(|repeat| {
        let first = session(past).and_then(|session| session[0].of(OPENING));
        first.is_some_and(|first| repeat != first)
    })
}

fn kept_from_the_first_set_up(before: Option<&Post>, limits: Limits) -> Option<Limits> {
    let admitted = in_range(before, limits)?;
    Some(before.map_or(admitted, |post| Limits { interface: post.limits.interface, ..admitted }))
}

/// A second set-up makes every post a newer one.
fn dropped(before: Option<&Post>, limits: Limits) -> Option<Limits> {
    let admitted = in_range(before, limits)?;
    Some(if before.is_some() { Limits { interface: NEWER, ..admitted } } else { admitted })
}

fn unknown_is_newer(before: Option<&Post>, limits: Limits) -> Option<Limits> {
    let interface = if limits.interface == OLDER { OLDER } else { NEWER };
    in_range(before, Limits { interface, ..limits })
}

fn reserved_dropped(heading: Heading, bytes: &[u8]) -> Result<Message, Refusal> {
    let message = codec::read(heading, bytes)?;
    let carried = message.signals().map(|(signal, raw)| if signal.name == "Reserved" { 0 } else { raw });
    Ok(Message::new(message.kind, &carried.collect::<Vec<i64>>()))
}

fn other_interface_without_a_post(heading: Heading, bytes: &[u8]) -> Result<Message, Refusal> {
    let Heading { interface, id, extended } = heading;
    by_own_pages(codec::read, interface, &Frame { id, extended, bytes })
}

/// Only an unknown interface is refused.
fn every_post_is_newer(_: &mut Table, set_ups: &[SetUp], bytes: &[u8], line: Line) -> Replay {
    let mut newer = set_ups.to_vec();
    for (.., limits) in newer.iter_mut().filter(|(.., limits)| limits.interface == OLDER) {
        limits.interface = NEWER;
    }
    played(&mut Table::new(), &newer, &log::read(bytes), line)
}
