//! Wrong readings of Req 03.

use crate::desk::Desk;
use crate::history::Event;
use crate::posts::{in_range, Admission, Post};
use crate::rules::{poor_measure, said_invalid, under_power, Limits, Rule, MEASURING, RULES, YES_NO};

/// In F9's place.
const WRONG_RULES: [(&str, Rule); 3] = [
    ("sensor-measured", measured_on_every_post),
    ("sensor-zero", zero_on_every_post),
    ("sensor-both", measured_as_well_as_zero),
];

const WRONG_ADMISSIONS: [(&str, Admission); 3] = [
    ("sensor-dropped", dropped_by_a_second_set_up),
    ("sensor-kept", kept_from_the_first_set_up),
    ("sensor-unknown", unknown_is_measuring),
];

pub fn names() -> impl Iterator<Item = &'static str> {
    WRONG_RULES.map(|(name, _)| name).into_iter().chain(WRONG_ADMISSIONS.map(|(name, _)| name))
}

/// `None` where there is no slip of that name.
pub fn put_into(desk: &mut Desk, name: &str) -> Option<()> {
    if let Some((_, rule)) = WRONG_RULES.iter().find(|(known, _)| *known == name) {
        desk.table.rules[8] = *rule;
    } else {
        desk.table.admission = WRONG_ADMISSIONS.iter().find(|(known, _)| *known == name)?.1;
    }
    Some(())
}

fn measured_on_every_post(_: &Limits, past: &[Event], event: &Event) -> bool {
    under_power(past, event).is_some_and(poor_measure)
}

fn zero_on_every_post(_: &Limits, past: &[Event], event: &Event) -> bool {
    under_power(past, event).is_some_and(said_invalid)
}

/// On a yes/no post the measuring test beside its own.
fn measured_as_well_as_zero(limits: &Limits, past: &[Event], event: &Event) -> bool {
    RULES[8](limits, past, event) || limits.sensor == YES_NO && measured_on_every_post(limits, past, event)
}

fn dropped_by_a_second_set_up(before: Option<&Post>, limits: Limits) -> Option<Limits> {
    let admitted = in_range(before, limits)?;
    Some(if before.is_some() { Limits { sensor: MEASURING, ..admitted } } else { admitted })
}

fn kept_from_the_first_set_up(before: Option<&Post>, limits: Limits) -> Option<Limits> {
    let admitted = in_range(before, limits)?;
    Some(before.map_or(admitted, |post| Limits { sensor: post.limits.sensor, ..admitted }))
}

fn unknown_is_measuring(before: Option<&Post>, limits: Limits) -> Option<Limits> {
    let sensor = if limits.sensor == YES_NO { YES_NO } else { MEASURING };
    in_range(before, Limits { sensor, ..limits })
}
