//! What a step shows of Emergency_Stop and F12 (Req 14).

use crate::asked::{function, CONTROL, OPENING, STOP};
use crate::codec::{self, Heading};
use crate::desk;
use crate::history::{latest, session, Event};
use crate::pages::OLDER;
use crate::posts::{Post, Table};
use crate::rules::powers;
use crate::safety_coverage::those;

/// By the functions of DC_Power_Control, and by the messages that are one each on an older post.
const FOUND: [&str; 6] = [
    "Insulation_Test",
    "Precharge",
    "Power_Transfer",
    "older Insulation_Test",
    "older Precharge",
    "older Power_Transfer",
];

const OTHERS: [&str; 14] = [
    "F12 with F5",
    "F12 without F5",
    "F12 behind a repeat",
    "F12 behind another F12",
    "F12 by a vehicle's stop alone",
    "no F12 on Standby",
    "no F12 on Off",
    "no F12 before a stop",
    "no F12 by a stop before the opening",
    "no F12 without a session",
    "record with sstop=6b005x",
    "record with sstop=68006x",
    "record with the later of two stops",
    "record with a stop before the opening",
];

pub fn wanted() -> impl Iterator<Item = String> {
    FOUND.map(|by| format!("F12 by {by}")).into_iter().chain(OTHERS.map(str::to_string))
}

/// `table` is as it was before the step.
pub fn shown(table: &Table, step: &[u8], answer: &[u8]) -> Vec<String> {
    let fields: Vec<&[u8]> = step.split(|&byte| byte == b' ').collect();
    let Ok(answer) = std::str::from_utf8(answer) else {
        return Vec::new();
    };
    let shown = match fields[0] {
        b"frame" => by_frame(table, &fields, answer),
        b"record" => by_record(table, &fields, answer),
        _ => None,
    };
    shown.unwrap_or_default()
}

fn by_frame(table: &Table, fields: &[&[u8]], answer: &str) -> Option<Vec<String>> {
    let mut payload = Vec::new();
    let arrival = desk::arrival(fields, &mut payload)?;
    let (frame, post) = (arrival.frame?, table.on(arrival.channel)?);
    let heading = Heading { interface: post.limits.interface, id: frame.id, extended: frame.extended };
    let event = Event { time: 0, message: codec::read(heading, frame.bytes).ok() };
    let by = function(event.of(CONTROL)?);
    let findings: u32 = answer.strip_prefix('A')?.parse().ok()?;
    let found = |number: u32| findings >> (number - 1) & 1 == 1;
    if found(12) {
        return Some(with_f12(post, by, found(5)));
    }
    let stops = |events: &[Event]| events.iter().any(|event| event.is(STOP));
    let (open, stopped) = (session(&post.history), stops(&post.history));
    let powers = powers(&event);
    Some(those(&[
        (by == "Standby" && open.is_some_and(stops), "no F12 on Standby"),
        (by == "Off" && open.is_some_and(stops), "no F12 on Off"),
        (powers && open.is_some() && !stopped, "no F12 before a stop"),
        (powers && open.is_some() && stopped, "no F12 by a stop before the opening"),
        (powers && open.is_none() && stopped, "no F12 without a session"),
    ]))
}

fn with_f12(post: &Post, by: &str, f5: bool) -> Vec<String> {
    let older = if post.limits.interface == OLDER { "older " } else { "" };
    let open = session(&post.history).unwrap_or_default();
    let behind = &open[open.iter().position(|event| event.is(STOP)).unwrap_or(open.len())..];
    let by_the_charger = |event: &Event| event.of(STOP).is_some_and(|stop| stop.label("Origin") == "EVSE");
    let mut shown = those(&[
        (f5, "F12 with F5"),
        (!f5, "F12 without F5"),
        (behind.iter().any(|event| event.is(OPENING)), "F12 behind a repeat"),
        (behind.iter().any(powers), "F12 behind another F12"),
        (!behind.iter().any(by_the_charger), "F12 by a vehicle's stop alone"),
    ]);
    shown.push(format!("F12 by {older}{by}"));
    shown
}

fn by_record(table: &Table, fields: &[&[u8]], answer: &str) -> Option<Vec<String>> {
    let kept = answer.split(' ').find_map(|part| part.strip_prefix("sstop="))?;
    let post = std::str::from_utf8(fields.get(1)?).ok()?.parse().ok()?;
    let past = &table.post(post).ok()?.history;
    let several = |session: &[Event]| session.iter().filter(|event| event.is(STOP)).count() > 1;
    let open = session(past);
    let before = kept == "-" && open.is_some() && latest(past, STOP).is_some();
    let mut shown = those(&[
        (kept != "-" && open.is_some_and(several), "record with the later of two stops"),
        (before, "record with a stop before the opening"),
    ]);
    if kept != "-" {
        shown.push(format!("record with sstop={}", kept.split(':').next().unwrap_or_default()));
    }
    Some(shown)
}

#[cfg(test)]
mod tests {
    use std::collections::BTreeSet;

    use super::*;
    use crate::desk::Desk;

    /// What the last step of a story shows; a newer post stands on channel 4, an older one on channel 5, and both have an open
    /// session.
    fn shows(story: &str) -> Vec<String> {
        let (mut before, mut behind) = (Desk::new(), Desk::new());
        let begun = "setup 0 4 5000 1000 500 500\nsetup 1 5 5000 1000 500 500 0 1\n\
                     frame 4 0 6b001 x 0201\nframe 5 0 68001 x 0201000000000000";
        let steps: Vec<&str> = begun.lines().chain(story.lines()).collect();
        let (last, first) = steps.split_last().expect("a story");
        for step in first {
            for desk in [&mut before, &mut behind] {
                desk::answer(desk, step.as_bytes());
            }
        }
        let answer = desk::answer(&mut behind, last.as_bytes());
        shown(&before.table, last.as_bytes(), answer.as_bytes())
    }

    const STOPPED: &str = "frame 4 0 6b005 x 01";
    const OLDER_STOPPED: &str = "frame 5 0 68006 x 01";
    const TRANSFER: &str = "frame 4 0 6b003 x 00000000000008";
    const ANEW: &str = "frame 4 0 6b004 x 00\nframe 4 0 6b001 x 0201";

    #[test]
    fn each_is_shown_by_a_story_of_its_own() {
        let mut met = BTreeSet::new();
        for (story, wanted) in [
            (format!("{STOPPED}\nframe 4 0 6b003 x 00000000000002"), &["F12 with F5", "F12 by Insulation_Test"][..]),
            (format!("{STOPPED}\nframe 4 0 6b003 x 00000000000004"), &["F12 with F5", "F12 by Precharge"]),
            (format!("{STOPPED}\n{TRANSFER}"), &["F12 with F5", "F12 by Power_Transfer"]),
            (
                format!("frame 4 0 63000 x 0000000041000164\n{STOPPED}\n{TRANSFER}"),
                &["F12 without F5", "F12 by Power_Transfer"],
            ),
            (format!("{OLDER_STOPPED}\nframe 5 0 68002 x 0000"), &["F12 with F5", "F12 by older Insulation_Test"]),
            (format!("{OLDER_STOPPED}\nframe 5 0 68003 x 00000000"), &["F12 with F5", "F12 by older Precharge"]),
            (format!("{OLDER_STOPPED}\nframe 5 0 68005 x 0000000000"), &["F12 with F5", "F12 by older Power_Transfer"]),
            (
                format!("{STOPPED}\nframe 4 0 6b001 x 0201\n{TRANSFER}"),
                &["F12 with F5", "F12 behind a repeat", "F12 by Power_Transfer"],
            ),
            (
                format!("frame 4 0 6b001 x 0201\n{STOPPED}\n{TRANSFER}\n{TRANSFER}"),
                &["F12 with F5", "F12 behind another F12", "F12 by Power_Transfer"],
            ),
            (
                format!("frame 4 0 6b005 x 03\n{TRANSFER}"),
                &["F12 with F5", "F12 by a vehicle's stop alone", "F12 by Power_Transfer"],
            ),
            (format!("frame 4 0 6b005 x 03\n{STOPPED}\n{TRANSFER}"), &["F12 with F5", "F12 by Power_Transfer"]),
            (format!("{STOPPED}\nframe 4 0 6b003 x 00000000000001"), &["no F12 on Standby"]),
            (format!("{STOPPED}\nframe 4 0 6b003 x 00000000000000"), &["no F12 on Off"]),
            (TRANSFER.to_string(), &["no F12 before a stop"]),
            ("frame 4 0 6b003 x 00000000000001".to_string(), &[]),
            (format!("{STOPPED}\n{ANEW}\n{TRANSFER}"), &["no F12 by a stop before the opening"]),
            (format!("{STOPPED}\nframe 4 0 6b004 x 00\n{TRANSFER}"), &["no F12 without a session"]),
            (format!("{STOPPED}\nframe 5 0 68005 x 0000000000"), &["no F12 before a stop"]),
            (STOPPED.to_string(), &[]),
            (format!("{STOPPED}\nrecord 0"), &["record with sstop=6b005x"]),
            (format!("{OLDER_STOPPED}\nrecord 1"), &["record with sstop=68006x"]),
            (
                format!("{STOPPED}\nframe 4 1 6b005 x 03\nrecord 0"),
                &["record with the later of two stops", "record with sstop=6b005x"],
            ),
            (format!("{STOPPED}\n{ANEW}\nrecord 0"), &["record with a stop before the opening"]),
            (format!("{STOPPED}\nframe 4 0 6b004 x 00\nrecord 0"), &[]),
            ("record 0".to_string(), &[]),
        ] {
            assert_eq!(shows(&story), wanted, "{story}");
            met.extend(wanted.iter().map(|shown| shown.to_string()));
        }
        assert_eq!(super::wanted().filter(|shown| !met.contains(shown)).count(), 0);
    }
}
