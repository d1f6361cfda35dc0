//! Wrong rules that break a law of Req 12.

use crate::asked::{CONTROLLER_STATUS, STOP};
use crate::history::{latest, session, Event};
use crate::rules::{Limits, Rule, CONTROLLER_LIMIT, RULES};

/// Number, and the rule that stands in for the right one of that number: other ticks give a kept event other findings.
pub const WRONG_KEPT: [(usize, Rule); 4] = [
    (1, f1_since_the_latest_event),
    (2, f2_of_the_last_eight_events),
    (5, f5_until_a_tick),
    (12, f12_of_the_event_before),
];

/// A silence is told too late, or not at all.
pub const WRONG_SILENCE: [(usize, Rule); 3] =
    [(1, f1_since_the_latest_event), (1, f1_one_ms_late), (1, f1_of_frames_alone)];

fn f1_since_the_latest_event(limits: &Limits, past: &[Event], event: &Event) -> bool {
    session(past)
        .and_then(|session| session.last())
        .is_some_and(|last| event.time - last.time > u64::from(limits.silence))
}

/// As from a buffer that ticks fill as well.
fn f2_of_the_last_eight_events(_: &Limits, past: &[Event], event: &Event) -> bool {
    let last = &past[past.len().saturating_sub(8)..];
    latest(last, CONTROLLER_STATUS).is_some_and(|status| event.time - status.time > CONTROLLER_LIMIT)
}

/// What was received before the latest tick does not count.
fn f5_until_a_tick(limits: &Limits, past: &[Event], event: &Event) -> bool {
    let tick = past.iter().rposition(|event| event.message.is_none());
    RULES[4](limits, &past[tick.map_or(0, |place| place + 1)..], event)
}

/// Only a control that follows the stop at once.
fn f12_of_the_event_before(limits: &Limits, past: &[Event], event: &Event) -> bool {
    past.last().is_some_and(|before| before.is(STOP)) && RULES[11](limits, past, event)
}

fn f1_one_ms_late(limits: &Limits, past: &[Event], event: &Event) -> bool {
    RULES[0](&Limits { silence: limits.silence + 1, ..*limits }, past, event)
}

fn f1_of_frames_alone(limits: &Limits, past: &[Event], event: &Event) -> bool {
    event.message.is_some() && RULES[0](limits, past, event)
}
