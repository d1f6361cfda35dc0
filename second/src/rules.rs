//! The findings F1 to F11 of 01 and F12 of 02, each as a question to the history before the event and to the event.

use crate::asked::{
    function, protocol_and_plug, told, Limit, CONTROL, CONTROLLER_STATUS, DC_POWER_CONTROL, FINISHED, OPENING, STATUS,
    STOP, TOLD,
};
use crate::codec::Message;
use crate::history::{latest, latest_message, session, Event};
use crate::pages::Unit;

/// A post's defaults: tenths of a volt, tenths of an ampere, milliseconds; its insulation sensor's kind; and its interface.
#[derive(Clone, Copy, Debug)]
pub struct Limits {
    pub volt: u32,
    pub charge: u32,
    pub discharge: u32,
    pub silence: u32,
    pub sensor: u32,
    pub interface: u32,
}

/// The kinds of a sensor: one that measures, and one that only knows yes and no.
pub const MEASURING: u32 = 0;
pub const YES_NO: u32 = 1;

pub type Rule = fn(&Limits, &[Event], &Event) -> bool;

/// Rule k stands at place k - 1, which is also its bit of the answer.
pub const RULES: [Rule; 12] = [f1, f2, f3, f4, f5, f6, f7, f8, f9, f10, f11, f12];

pub fn findings(rules: &[Rule], limits: &Limits, past: &[Event], event: &Event) -> u32 {
    let found = rules.iter().enumerate().filter(|(_, rule)| rule(limits, past, event));
    found.map(|(place, _)| 1 << place).sum()
}

/// 001: "within 200 ms".
pub const CONTROLLER_LIMIT: u64 = 200;

fn f1(limits: &Limits, past: &[Event], event: &Event) -> bool {
    session(past).is_some_and(|session| {
        let status = latest(session, STATUS).map(|status| status.time);
        let later = status.unwrap_or(0).max(session[0].time);
        event.time - later > u64::from(limits.silence)
    })
}

fn f2(_: &Limits, past: &[Event], event: &Event) -> bool {
    latest(past, CONTROLLER_STATUS).is_some_and(|status| event.time - status.time > CONTROLLER_LIMIT)
}

fn f3(_: &Limits, past: &[Event], event: &Event) -> bool {
    event.of(DC_POWER_CONTROL).is_some_and(|control| control.label("Output_Contactors") == "Close")
        && session(past).is_none()
}

fn f4(_: &Limits, past: &[Event], event: &Event) -> bool {
    powers(event) && session(past).is_none()
}

fn f5(_: &Limits, past: &[Event], event: &Event) -> bool {
    powers(event) && session(past).is_some_and(|session| !allowed(session))
}

fn f6(_: &Limits, _: &[Event], event: &Event) -> bool {
    event.of(DC_POWER_CONTROL).is_some_and(|control| {
        let setpoint =
            control.signals().any(|(signal, raw)| matches!(signal.unit, Unit::Volts | Unit::Amps) && raw != 0);
        control.label("Lower_Output_Voltage") == "Lowering"
            && (control.label("Power_Function") != "Standby" || setpoint)
    })
}

fn f7(limits: &Limits, past: &[Event], event: &Event) -> bool {
    event.of(DC_POWER_CONTROL).is_some_and(|control| {
        control.label("Power_Function") != "Off"
            && control.raw("Target_Voltage") > limit(limits.volt, past, Limit::Voltage)
    })
}

fn f8(limits: &Limits, past: &[Event], event: &Event) -> bool {
    event.of(STATUS).is_some_and(|status| {
        let current = status.raw("Present_Current");
        session(past).is_some()
            && (current > limit(limits.charge, past, Limit::Charge)
                || current < -limit(limits.discharge, past, Limit::Discharge))
    })
}

fn f9(limits: &Limits, past: &[Event], event: &Event) -> bool {
    under_power(past, event).is_some_and(|status| poor_insulation(limits, status))
}

fn f10(_: &Limits, past: &[Event], event: &Event) -> bool {
    event.of(OPENING).is_some_and(|repeat| {
        let first = session(past).and_then(|session| session[0].of(OPENING));
        first.is_some_and(|first| protocol_and_plug(repeat) != protocol_and_plug(first))
    })
}

fn f11(_: &Limits, past: &[Event], event: &Event) -> bool {
    event.is(FINISHED) && session(past).is_none()
}

fn f12(_: &Limits, past: &[Event], event: &Event) -> bool {
    powers(event) && session(past).is_some_and(|session| latest(session, STOP).is_some())
}

/// F4, F5 and F12's "insulation test, precharge or power transfer".
pub fn powers(event: &Event) -> bool {
    let powers = |control| matches!(function(control), "Insulation_Test" | "Precharge" | "Power_Transfer");
    event.of(CONTROL).is_some_and(powers)
}

/// The status that F9 looks at: in a session "whose latest DC_Power_Control is precharge or power transfer".
pub fn under_power<'a>(past: &[Event], event: &'a Event) -> Option<&'a Message> {
    let control = latest_message(session(past)?, CONTROL);
    event.of(STATUS).filter(|_| control.is_some_and(live))
}

/// F9's "precharge or power transfer".
pub fn live(control: &Message) -> bool {
    matches!(function(control), "Precharge" | "Power_Transfer")
}

/// 02: "For a yes/no sensor F9's insulation test is raw 0 and nothing else; for a measuring one F9 stays".
pub fn poor_insulation(limits: &Limits, status: &Message) -> bool {
    match limits.sensor {
        YES_NO => said_invalid(status),
        _ => poor_measure(status),
    }
}

/// 02: "The maker's page makes 255 Valid and 0 Invalid there".
pub fn said_invalid(status: &Message) -> bool {
    status.raw("Insulation_Resistance") == 0
}

/// F9's "raw insulation times 200 is below raw voltage".
pub fn poor_measure(status: &Message) -> bool {
    status.raw("Insulation_Resistance") * 200 < status.raw("Present_Voltage")
}

pub fn allowed(events: &[Event]) -> bool {
    latest_message(events, STATUS).is_some_and(|status| status.label("System_Enable") == "Allowed")
}

/// 01: "the smaller of the default and the latest DC_Power_Parameters number since set-up; 0 or none received means
/// the default"; 02: "a current of 0 or less meaning the default".
pub fn limit(default: u32, past: &[Event], which: Limit) -> i64 {
    let default = i64::from(default);
    match latest_message(past, TOLD).and_then(|limits| told(limits, which)) {
        Some(received) if received > 0 => received.min(default),
        _ => default,
    }
}
