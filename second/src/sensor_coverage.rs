//! What a step shows of the two kinds of sensors (Req 03).

use crate::clock::unrolled;
use crate::codec::{self, Heading};
use crate::desk;
use crate::fields::{bytes, extended, identifier, natural};
use crate::history::{latest_time, Event};
use crate::posts::{in_range, Post, Table};
use crate::rules::{poor_measure, under_power, Limits, MEASURING, YES_NO};

const YES_NO_AT_0: &str = "yes/no F9 at 0 V";
const YES_NO_POOR: &str = "yes/no under 100 Ohm per volt";
const MEASURING_AT_0: &str = "measuring raw 0 at 0 V";
const UNKNOWN: &str = "unknown sensor";
const CHANGED: &str = "another sensor by a second set-up";

pub const WANTED: [&str; 5] = [YES_NO_AT_0, YES_NO_POOR, MEASURING_AT_0, UNKNOWN, CHANGED];

/// `table` is as it was before the step.
pub fn shown(table: &Table, step: &[u8], answer: &[u8]) -> Option<&'static str> {
    let fields: Vec<&[u8]> = step.split(|&byte| byte == b' ').collect();
    match fields[..] {
        [b"setup", ref numbers @ ..] => by_set_up(table, desk::set_up(numbers)?, answer),
        [b"frame", channel, time, id, form, payload] => {
            let post = table.on(natural(channel)?)?;
            let heading = Heading { interface: post.limits.interface, id: identifier(id)?, extended: extended(form)? };
            let message = codec::read(heading, &bytes(payload)?).ok();
            let time = unrolled(latest_time(&post.history), natural(time)?)?;
            by_event(post, &Event { time, message }, answer)
        }
        _ => None,
    }
}

fn by_set_up(table: &Table, (post, _, limits): (u32, u32, Limits), answer: &[u8]) -> Option<&'static str> {
    match answer {
        b"R12" => in_range(None, Limits { sensor: MEASURING, ..limits }).map(|_| UNKNOWN),
        b"A" if table.post(post).is_ok_and(|before| before.limits.sensor != limits.sensor) => Some(CHANGED),
        _ => None,
    }
}

/// A status that F9 looks at.
fn by_event(post: &Post, event: &Event, answer: &[u8]) -> Option<&'static str> {
    let findings: u32 = std::str::from_utf8(answer.strip_prefix(b"A")?).ok()?.parse().ok()?;
    let status = under_power(&post.history, event)?;
    let at_0 = status.raw("Present_Voltage") == 0;
    match (post.limits.sensor, findings >> 8 & 1) {
        (YES_NO, 1) if at_0 => Some(YES_NO_AT_0),
        (YES_NO, 0) if poor_measure(status) => Some(YES_NO_POOR),
        (MEASURING, 0) if at_0 && status.raw("Insulation_Resistance") == 0 => Some(MEASURING_AT_0),
        _ => None,
    }
}

#[cfg(test)]
mod tests {
    use super::*;
    use crate::desk::Desk;

    /// What the last step of a story shows, behind a set-up and a power transfer on channel 4.
    fn shows(set_up: &str, step: &str) -> Option<&'static str> {
        let (mut before, mut behind) = (Desk::new(), Desk::new());
        for line in [set_up, "frame 4 9 6b001 x 0201", "frame 4 9 6b003 x 00000000000008"] {
            desk::answer(&mut before, line.as_bytes());
            desk::answer(&mut behind, line.as_bytes());
        }
        let answer = desk::answer(&mut behind, step.as_bytes());
        shown(&before.table, step.as_bytes(), answer.as_bytes())
    }

    #[test]
    fn each_is_shown_by_steps_of_its_own() {
        let (measuring, yes_no) = ("setup 0 4 5000 1000 500 500 0", "setup 0 4 5000 1000 500 500 1");
        assert_eq!(shows(yes_no, "frame 4 9 63000 x 0000000041000100"), Some(YES_NO_AT_0));
        assert_eq!(shows(yes_no, "frame 4 9 63000 x 0000000041000101"), None);
        assert_eq!(shows(yes_no, "frame 4 9 63000 x 0100000041000100"), None);
        assert_eq!(shows(yes_no, "frame 4 9 63000 x 8813000041000118"), Some(YES_NO_POOR));
        assert_eq!(shows(yes_no, "frame 4 9 63000 x 8813000041000119"), None);
        assert_eq!(shows(yes_no, "frame 4 8 63000 x 0000000041000100"), None);
        assert_eq!(shows(measuring, "frame 4 9 63000 x 0000000041000100"), Some(MEASURING_AT_0));
        assert_eq!(shows(measuring, "frame 4 9 63000 x 0100000041000100"), None);
        assert_eq!(shows(measuring, "setup 0 4 5000 1000 500 500 2"), Some(UNKNOWN));
        assert_eq!(shows(measuring, "setup 0 4 0 1000 500 500 2"), None);
        assert_eq!(shows(measuring, yes_no), Some(CHANGED));
        assert_eq!(shows(yes_no, yes_no), None);
        assert_eq!(shows(yes_no, "setup 0 4 5000 1000 500 500"), Some(CHANGED));
    }
}
