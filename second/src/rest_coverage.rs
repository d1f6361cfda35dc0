//! What a step shows of the messages that Req 14 adds.

use crate::codec::{self, Heading, Message};
use crate::desk;
use crate::fields::{extended, identifier};
use crate::history::{latest_message, session, Event};
use crate::newer_pages::{is_rest, rest, EV_INFORMATION};
use crate::pages::{find, Kind, Page, NEWER};
use crate::posts::{Post, Table};
use crate::rules::powers;
use crate::safety_coverage::those;

/// Each message by these.
const WAYS: [&str; 2] = ["by frame", "without a post"];

const OTHERS: [&str; 13] = [
    "63002 R6",
    "6b202 R6",
    "R6 without a post",
    "one refused with 29",
    "one with F1",
    "one with F2",
    "one refused with 5",
    "Reserved above 32 bits",
    "energy below 0",
    "no session by a vehicle",
    "no F8 above a vehicle's current",
    "no F7 above a vehicle's voltage",
    "no F12 by a stop button",
];

pub fn wanted() -> impl Iterator<Item = String> {
    let messages = rest().flat_map(|page| WAYS.map(|way| format!("{:x} {way}", page.id)));
    messages.chain(OTHERS.map(str::to_string))
}

/// `table` is as it was before the step.
pub fn shown(table: &Table, step: &[u8], answer: &[u8]) -> Vec<String> {
    let fields: Vec<&[u8]> = step.split(|&byte| byte == b' ').collect();
    let Ok(answer) = std::str::from_utf8(answer) else {
        return Vec::new();
    };
    let shown = match fields[0] {
        b"frame" => by_frame(table, &fields, answer),
        b"read" | b"change" | b"write" => without_post(&fields, answer),
        _ => None,
    };
    shown.unwrap_or_default()
}

fn one(id: u32, extended: bool) -> Option<&'static Page> {
    find(NEWER, id, extended).filter(|page| is_rest(page.kind))
}

fn by_frame(table: &Table, fields: &[&[u8]], answer: &str) -> Option<Vec<String>> {
    let mut payload = Vec::new();
    let arrival = desk::arrival(fields, &mut payload)?;
    let (frame, post) = (arrival.frame?, table.on(arrival.channel)?);
    let heading = Heading { interface: post.limits.interface, id: frame.id, extended: frame.extended };
    let findings = answer.strip_prefix('A').and_then(|findings| findings.parse::<u32>().ok());
    let Some(page) = one(frame.id, frame.extended) else {
        return Some(by_another(post, &codec::read(heading, frame.bytes).ok()?, findings?));
    };
    let found = |number: u32| findings.is_some_and(|findings| findings >> (number - 1) & 1 == 1);
    let mut shown = those(&[
        (found(1), "one with F1"),
        (found(2), "one with F2"),
        (answer.starts_with("R5:"), "one refused with 5"),
        (answer == "R29", "one refused with 29"),
    ]);
    shown.extend(findings.map(|_| format!("{:x} by frame", page.id)));
    shown.extend((answer == "R6").then(|| format!("{:x} R6", page.id)));
    Some(shown)
}

/// What is found of one of 01's messages, and is not where the ones before it counted.
fn by_another(post: &Post, message: &Message, findings: u32) -> Vec<String> {
    let past = &post.history;
    let found = |number: u32| findings >> (number - 1) & 1 == 1;
    let told = |kind, name| latest_message(past, &[kind]).map(|message| message.raw(name));
    let above =
        |kind, name, most: Option<i64>| message.kind == kind && most.is_some_and(|most| message.raw(name) > most);
    let current = told(Kind::EvInformationChargeLimits, "EV_Maximum_Charge_Current");
    let voltage = told(Kind::EvInformationVoltages, "EV_Maximum_Voltage");
    let on = message.kind == Kind::DcPowerControl && message.label("Power_Function") != "Off";
    let vehicle = |event: &Event| event.is(EV_INFORMATION);
    let pressed = |event: &Event| {
        event.of(&[Kind::SequenceControl]).is_some_and(|control| control.label("User_Stop_Button") == "Pressed")
    };
    let open = session(past);
    let powers = powers(&Event { time: 0, message: Some(*message) });
    let above_current = above(Kind::PowerModulesStatus, "Present_Current", current);
    let above_voltage = on && above(Kind::DcPowerControl, "Target_Voltage", voltage);
    those(&[
        (found(4) && past.iter().any(vehicle), "no session by a vehicle"),
        (open.is_some() && above_current && !found(8), "no F8 above a vehicle's current"),
        (above_voltage && !found(7), "no F7 above a vehicle's voltage"),
        (powers && open.is_some_and(|open| open.iter().any(pressed)) && !found(12), "no F12 by a stop button"),
    ])
}

fn without_post(fields: &[&[u8]], answer: &str) -> Option<Vec<String>> {
    let page = one(identifier(fields.get(1)?)?, extended(fields.get(2)?)?)?;
    let outcome = answer.split(' ').next()?;
    let told = match fields[0] {
        b"read" => answer.split_once(':').map_or("", |(_, values)| values),
        b"write" => std::str::from_utf8(fields.get(3)?).ok()?,
        _ => "",
    };
    let values: Vec<i64> = told.split(',').filter(|_| outcome == "A").filter_map(|value| value.parse().ok()).collect();
    let reserved =
        page.signals.iter().zip(&values).any(|(signal, &value)| signal.name == "Reserved" && value >> 32 > 0);
    let energy = page.kind == Kind::EvInformationEnergy && values.iter().any(|&value| value < 0);
    let mut shown = those(&[
        (outcome == "R6", "R6 without a post"),
        (outcome.starts_with("R5:"), "one refused with 5"),
        (reserved, "Reserved above 32 bits"),
        (energy, "energy below 0"),
    ]);
    shown.extend((outcome == "A").then(|| format!("{:x} without a post", page.id)));
    Some(shown)
}

#[cfg(test)]
mod tests {
    use super::*;
    use crate::desk::Desk;

    /// What the last step of a story shows, behind the set-ups of a newer post on channel 4 and of an older one on 5.
    fn shows(story: &str) -> Vec<String> {
        let (mut before, mut behind) = (Desk::new(), Desk::new());
        let posts = ["setup 0 4 5000 1000 500 500", "setup 1 5 5000 1000 500 500 0 1"];
        let steps: Vec<&str> = posts.into_iter().chain(story.lines()).collect();
        let (last, first) = steps.split_last().expect("a story");
        for step in first {
            for desk in [&mut before, &mut behind] {
                desk::answer(desk, step.as_bytes());
            }
        }
        let answer = desk::answer(&mut behind, last.as_bytes());
        shown(&before.table, last.as_bytes(), answer.as_bytes())
    }

    #[test]
    fn each_message_is_shown_in_each_way() {
        for page in rest() {
            let (id, payload) = (page.id, "00".repeat(page.len));
            assert_eq!(shows(&format!("frame 4 0 {id:x} x {payload}")), [format!("{id:x} by frame")]);
            assert_eq!(shows(&format!("read {id:x} x {payload}")), [format!("{id:x} without a post")]);
            assert_eq!(shows(&format!("frame 5 0 {id:x} x {payload}")), ["one refused with 29"]);
        }
    }

    #[test]
    fn the_others_are_shown_by_stories_of_their_own() {
        const OPENED: &str = "frame 4 0 6b001 x 0201\nframe 4 0 63000 x 0000000041000164";
        let mut met = Vec::new();
        for (story, wanted) in [
            ("frame 4 0 63002 x 040000".to_string(), &["63002 R6"][..]),
            ("frame 4 0 6b202 x 0000000000010000".to_string(), &["6b202 R6"]),
            ("read 63002 x 040000".to_string(), &["R6 without a post"]),
            ("read 6b204 x 0004000000000000".to_string(), &["one refused with 5"]),
            ("frame 5 0 63002 x 040000".to_string(), &["one refused with 29"]),
            (format!("{OPENED}\nframe 4 501 6b300 x 0000"), &["one with F1", "6b300 by frame"]),
            ("frame 4 0 6b000 x 01\nframe 4 201 6b300 x 0000".to_string(), &["one with F2", "6b300 by frame"]),
            ("frame 4 0 6b203 x 0100000000000000".to_string(), &["one refused with 5"]),
            ("read 63201 x 00000000f0ffffff".to_string(), &["Reserved above 32 bits", "63201 without a post"]),
            ("read 63201 x f0ffffff0f000000".to_string(), &["63201 without a post"]),
            ("read 6b104 x ffff00000000".to_string(), &["energy below 0", "6b104 without a post"]),
            ("read 6b104 x ff7f00000000".to_string(), &["6b104 without a post"]),
            ("write 6b104 x 0,0,-1 000000000000".to_string(), &["energy below 0", "6b104 without a post"]),
            ("write 6b104 x 0,0,-1 00000000".to_string(), &[]),
            ("change 6b104 x ffff00000000 0 -1".to_string(), &["6b104 without a post"]),
            (
                "frame 4 0 6b100 x 000000000000\nframe 4 0 6b003 x 00000000000008".to_string(),
                &["no session by a vehicle"],
            ),
            (
                format!("{OPENED}\nframe 4 0 6b102 x 0000010000000000\nframe 4 0 63000 x 0000020041000164"),
                &["no F8 above a vehicle's current"],
            ),
            (format!("{OPENED}\nframe 4 0 6b102 x 0000010000000000\nframe 4 0 63000 x 0000e90341000164"), &[]),
            (
                "frame 4 0 6b101 x 000001000000\nframe 4 0 6b003 x 02000000000001".to_string(),
                &["no F7 above a vehicle's voltage"],
            ),
            ("frame 4 0 6b101 x 000001000000\nframe 4 0 6b003 x 02000000000000".to_string(), &[]),
            (
                format!("{OPENED}\nframe 4 0 63002 x 000001\nframe 4 0 6b003 x 00000000000008"),
                &["no F12 by a stop button"],
            ),
            (format!("{OPENED}\nframe 4 0 63002 x 000000\nframe 4 0 6b003 x 00000000000008"), &[]),
        ] {
            assert_eq!(shows(&story), wanted, "{story}");
            met.extend(wanted);
        }
        assert_eq!(OTHERS.iter().filter(|shown| !met.contains(shown)).count(), 0);
    }
}
