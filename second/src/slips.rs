//! Wrong readings of 01 and 02, kept to show that a comparison finds them.

use crate::asked::{
    protocol_and_plug, told, Limit, CONTROL, CONTROLLER_STATUS, DC_POWER_CONTROL, OPENING, STATUS, TOLD,
};
use crate::batch_slips;
use crate::clock::unrolled;
use crate::clock_slips;
use crate::codec::Message;
use crate::desk::Desk;
use crate::history::{latest, latest_message, latest_time, session, Event};
use crate::index_slips;
use crate::label_slips;
use crate::log_slips;
use crate::older_slips;
use crate::posts::Post;
use crate::recordings_slips;
use crate::replay_slips;
use crate::rest_slips;
use crate::rules::{self, limit, live, poor_insulation, powers, under_power, Limits, Rule};
use crate::safety_slips;
use crate::sensor_slips;
use crate::stop_slips;
use crate::tally_slips;

/// Name, and the rule that stands in for the right one of that number.
const WRONG_RULES: [(&str, usize, Rule); 17] = [
    ("f1", 1, f1_restarted_by_repeats),
    ("f1-edge", 1, f1_at_w_itself),
    ("f2", 2, f2_at_200_itself),
    ("f2-session", 2, f2_within_the_session),
    ("f3", 3, f3_with_a_power_function),
    ("f4", 4, f4_without_insulation_test),
    ("f5", 5, f5_allowed_by_the_session_before),
    ("f6", 6, f6_voltage_only),
    ("f7-zero", 7, f7_received_zero_is_zero),
    ("f7-cap", 7, f7_default_is_no_cap),
    ("f7-standby", 7, f7_not_in_standby),
    ("f8-sign", 8, f8_unsigned_current),
    ("f8-edge", 8, f8_at_the_limit_itself),
    ("f9-edge", 9, f9_at_the_limit_itself),
    ("f9-session", 9, f9_control_before_the_opening),
    ("f10", 10, f10_against_the_latest),
    ("f11", 11, f11_never),
];

const SHARED_CLOCK: &str = "clock";

pub fn names() -> Vec<&'static str> {
    let rules = WRONG_RULES.iter().map(|(name, ..)| *name);
    let early = log_slips::names().chain(label_slips::names()).chain(sensor_slips::names());
    let early = early.chain(tally_slips::names()).chain(clock_slips::names());
    let later = safety_slips::names().chain(replay_slips::names()).chain(batch_slips::names());
    let later = later.chain(recordings_slips::names()).chain(older_slips::names()).chain(index_slips::names());
    let later = later.chain(stop_slips::names()).chain(rest_slips::names());
    rules.chain([SHARED_CLOCK]).chain(early).chain(later).collect()
}

/// An empty desk with the slip of that name, if there is one.
pub fn desk(name: &str) -> Option<Desk> {
    let mut desk = Desk::new();
    if name == SHARED_CLOCK {
        desk.table.clock = shared_clock;
    } else if let Some((_, number, rule)) = WRONG_RULES.iter().find(|(known, ..)| *known == name) {
        desk.table.rules[number - 1] = *rule;
    } else {
        let put = [
            log_slips::put_into,
            label_slips::put_into,
            sensor_slips::put_into,
            tally_slips::put_into,
            clock_slips::put_into,
            safety_slips::put_into,
            replay_slips::put_into,
            batch_slips::put_into,
            recordings_slips::put_into,
            older_slips::put_into,
            index_slips::put_into,
            stop_slips::put_into,
            rest_slips::put_into,
        ];
        put.iter().find_map(|put_into| put_into(&mut desk, name))?;
    }
    Some(desk)
}

fn f1_restarted_by_repeats(limits: &Limits, past: &[Event], event: &Event) -> bool {
    session(past).is_some_and(|session| {
        let either = |seen: &&Event| seen.is(STATUS) || seen.is(OPENING);
        session.iter().rev().find(either).is_some_and(|seen| event.time - seen.time > u64::from(limits.silence))
    })
}

fn f1_at_w_itself(limits: &Limits, past: &[Event], event: &Event) -> bool {
    session(past).is_some_and(|session| {
        let seen = latest(session, STATUS).unwrap_or(&session[0]);
        event.time - seen.time >= u64::from(limits.silence)
    })
}

fn f2_at_200_itself(_: &Limits, past: &[Event], event: &Event) -> bool {
    latest(past, CONTROLLER_STATUS).is_some_and(|status| event.time - status.time >= 200)
}

fn f2_within_the_session(_: &Limits, past: &[Event], event: &Event) -> bool {
    let status = latest(session(past).unwrap_or(past), CONTROLLER_STATUS);
    status.is_some_and(|status| event.time - status.time > 200)
}

fn f3_with_a_power_function(limits: &Limits, past: &[Event], event: &Event) -> bool {
    rules::RULES[2](limits, past, event) && powers(event)
}

fn f4_without_insulation_test(_: &Limits, past: &[Event], event: &Event) -> bool {
    event.of(CONTROL).is_some_and(live) && session(past).is_none()
}

fn f5_allowed_by_the_session_before(_: &Limits, past: &[Event], event: &Event) -> bool {
    powers(event) && session(past).is_some() && !rules::allowed(past)
}

fn f6_voltage_only(_: &Limits, _: &[Event], event: &Event) -> bool {
    event.of(DC_POWER_CONTROL).is_some_and(|control| {
        control.label("Lower_Output_Voltage") == "Lowering"
            && (control.label("Power_Function") != "Standby" || control.raw("Target_Voltage") != 0)
    })
}

fn f7_received_zero_is_zero(limits: &Limits, past: &[Event], event: &Event) -> bool {
    let received = latest_message(past, TOLD).and_then(|limits| told(limits, Limit::Voltage));
    target_above(event, received.unwrap_or(i64::MAX).min(i64::from(limits.volt)))
}

fn f7_default_is_no_cap(limits: &Limits, past: &[Event], event: &Event) -> bool {
    let received = latest_message(past, TOLD).and_then(|limits| told(limits, Limit::Voltage));
    target_above(event, received.filter(|&received| received != 0).unwrap_or(i64::from(limits.volt)))
}

fn target_above(event: &Event, limit: i64) -> bool {
    event
        .of(DC_POWER_CONTROL)
        .is_some_and(|control| control.label("Power_Function") != "Off" && control.raw("Target_Voltage") > limit)
}

fn f7_not_in_standby(limits: &Limits, past: &[Event], event: &Event) -> bool {
    rules::RULES[6](limits, past, event) && powers(event)
}

fn f8_unsigned_current(limits: &Limits, past: &[Event], event: &Event) -> bool {
    event.of(STATUS).is_some_and(|status| {
        let current = status.raw("Present_Current").rem_euclid(65_536);
        session(past).is_some() && current > limit(limits.charge, past, Limit::Charge)
    })
}

fn f8_at_the_limit_itself(limits: &Limits, past: &[Event], event: &Event) -> bool {
    event.of(STATUS).is_some_and(|status| {
        let current = status.raw("Present_Current");
        session(past).is_some()
            && (current > limit(limits.charge, past, Limit::Charge)
                || current <= -limit(limits.discharge, past, Limit::Discharge))
    })
}

fn f9_at_the_limit_itself(limits: &Limits, past: &[Event], event: &Event) -> bool {
    let equal = |status: &Message| status.raw("Insulation_Resistance") * 200 == status.raw("Present_Voltage");
    rules::RULES[8](limits, past, event) || under_power(past, event).is_some_and(equal)
}

fn f9_control_before_the_opening(limits: &Limits, past: &[Event], event: &Event) -> bool {
    event.of(STATUS).is_some_and(|status| {
        let control = latest_message(past, CONTROL);
        session(past).is_some() && control.is_some_and(live) && poor_insulation(limits, status)
    })
}

fn f10_against_the_latest(_: &Limits, past: &[Event], event: &Event) -> bool {
    event.of(OPENING).is_some_and(|repeat| {
        let before = session(past).and_then(|session| latest_message(session, OPENING));
        before.is_some_and(|before| protocol_and_plug(repeat) != protocol_and_plug(before))
    })
}

fn f11_never(_: &Limits, _: &[Event], _: &Event) -> bool {
    false
}

/// One clock for all posts, so that a later frame of one gets another's next one refused with 2.
fn shared_clock(posts: &[Option<Post>], _: usize, received: u32) -> Option<u64> {
    unrolled(posts.iter().flatten().filter_map(|post| latest_time(&post.history)).max(), received)
}
