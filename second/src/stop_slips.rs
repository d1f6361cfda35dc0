//! Wrong readings of Req 14's Emergency_Stop.

use crate::asked::{function, CONTROL, FINISHED, STOP};
use crate::desk::{Desk, Recorder};
use crate::history::{latest, session, Event};
use crate::pages::Kind;
use crate::posts::{Post, Table};
use crate::record::{self, Form, FORM};
use crate::rules::{live, powers, Limits, Rule, RULES};
use crate::tallies::{counts, Counter, Counts};

/// Name, and the rule that stands in for F12.
const WRONG_RULES: [(&str, Rule); 8] = [
    ("stop-session", f12_by_the_session_before),
    ("stop-closed", f12_without_a_session),
    ("stop-standby", f12_on_standby),
    ("stop-off", f12_on_off),
    ("stop-test", f12_without_insulation_test),
    ("stop-last", f12_once_a_stop),
    ("stop-vehicle", f12_by_the_charger_alone),
    ("stop-older", f12_by_the_newer_stop),
];

/// In the record: a stop of the session before, one with no session open, and the first one of the session.
const WRONG_RECORDERS: [(&str, Recorder); 3] = [
    ("stop-kept", |post, counts| shown(|past| session(past).and_then(|_| latest(past, STOP)), post, counts)),
    ("stop-left", |post, counts| shown(|past| latest(past, STOP), post, counts)),
    ("stop-first", |post, counts| shown(|past| session(past)?.iter().find(|event| event.is(STOP)), post, counts)),
];

const WRONG_COUNTER: (&str, Counter) = ("stop-tally", tallied_as_f11);

pub fn names() -> impl Iterator<Item = &'static str> {
    let rules = WRONG_RULES.map(|(name, _)| name).into_iter();
    rules.chain(WRONG_RECORDERS.map(|(name, _)| name)).chain([WRONG_COUNTER.0])
}

/// `None` where there is no slip of that name.
pub fn put_into(desk: &mut Desk, name: &str) -> Option<()> {
    if let Some((_, rule)) = WRONG_RULES.iter().find(|(known, _)| *known == name) {
        desk.table.rules[11] = *rule;
    } else if let Some((_, recorder)) = WRONG_RECORDERS.iter().find(|(known, _)| *known == name) {
        desk.recorder = *recorder;
    } else {
        desk.counter = [WRONG_COUNTER].iter().find(|(known, _)| *known == name)?.1;
    }
    Some(())
}

/// The stop is kept from the session before, or from before the opening.
fn f12_by_the_session_before(_: &Limits, past: &[Event], event: &Event) -> bool {
    powers(event) && session(past).is_some() && latest(past, STOP).is_some()
}

/// A stop counts from the last finish on, whether a session is open or not.
fn f12_without_a_session(_: &Limits, past: &[Event], event: &Event) -> bool {
    let finished = past.iter().rposition(|event| event.is(FINISHED));
    powers(event) && latest(&past[finished.map_or(0, |place| place + 1)..], STOP).is_some()
}

fn stopped(past: &[Event]) -> bool {
    session(past).is_some_and(|session| latest(session, STOP).is_some())
}

fn on_function(event: &Event, name: &str) -> bool {
    event.of(CONTROL).is_some_and(|control| function(control) == name)
}

fn f12_on_standby(limits: &Limits, past: &[Event], event: &Event) -> bool {
    RULES[11](limits, past, event) || on_function(event, "Standby") && stopped(past)
}

fn f12_on_off(limits: &Limits, past: &[Event], event: &Event) -> bool {
    RULES[11](limits, past, event) || on_function(event, "Off") && stopped(past)
}

fn f12_without_insulation_test(_: &Limits, past: &[Event], event: &Event) -> bool {
    event.of(CONTROL).is_some_and(live) && stopped(past)
}

/// A stop is used up by the control that follows it.
fn f12_once_a_stop(limits: &Limits, past: &[Event], event: &Event) -> bool {
    let either = |event: &&Event| event.is(STOP) || event.is(CONTROL);
    RULES[11](limits, past, event) && past.iter().rev().find(either).is_some_and(|event| event.is(STOP))
}

/// A vehicle's stop does not count.
fn f12_by_the_charger_alone(limits: &Limits, past: &[Event], event: &Event) -> bool {
    let by_the_charger = |event: &Event| event.of(STOP).is_some_and(|stop| stop.label("Origin") == "EVSE");
    RULES[11](limits, past, event) && session(past).is_some_and(|session| session.iter().any(by_the_charger))
}

/// 001's Emergency_Stop is not seen.
fn f12_by_the_newer_stop(limits: &Limits, past: &[Event], event: &Event) -> bool {
    RULES[11](limits, past, event) && latest(past, &[Kind::EmergencyStop]).is_some()
}

fn shown(stop: fn(&[Event]) -> Option<&Event>, post: &Post, counts: &Counts) -> String {
    record::line_in(&Form { stop, ..FORM }, post, counts)
}

fn tallied_as_f11(table: &Table, place: usize, post: &Post) -> Counts {
    let mut right = counts(table, place, post);
    right.tallies[10] += std::mem::take(&mut right.tallies[11]);
    right
}
