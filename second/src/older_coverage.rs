//! What a step shows of posts of either interface (Req 11).

use crate::asked::{protocol_and_plug, told, Limit, CONTROL, OPENING, STATUS, TOLD};
use crate::batch::word;
use crate::clock::unrolled;
use crate::codec::{self, Heading, Message};
use crate::desk;
use crate::history::{latest_message, latest_time, session, Event};
use crate::older_pages::OLDER_PAGES;
use crate::pages::{only_other_has, other, Kind, OLDER};
use crate::posts::{in_range, Frame, Post, Table, OTHER_INTERFACE};
use crate::replay_setups;
use crate::rules::{limit, poor_insulation, Limits};
use crate::safety_coverage::those;

const OTHERS: [&str; 35] = [
    "R29 on a newer post for A",
    "R29 on a newer post for R4",
    "R29 on a newer post for R5",
    "R29 on a newer post for R6",
    "R29 on a newer post for R15",
    "R29 on an older post for A",
    "R29 on an older post for R4",
    "R29 on an older post for R5",
    "R29 on an older post for R6",
    "R29 on an older post for R15",
    "R3 for the other form of R29",
    "R2 before R29",
    "004 on an older post",
    "older R6",
    "F8 above a told current",
    "no F8 above a told current of 0",
    "no F8 above a told current below 0",
    "no F8 below minus a told current",
    "F9 by Precharge",
    "F9 by Charging_Loop at 0 V and 0 A",
    "no F9 by Insulation_Test",
    "no F7 above the voltage limit",
    "no F10 for other numbers",
    "unknown interface",
    "another interface by a second set-up",
    "record with sdpc=68002x",
    "record with sdpc=68003x",
    "record with sdpc=68005x",
    "older record with both forms",
    "read1 R3 for 000",
    "read R3 for 001",
    "write X for 001",
    "replay with R29",
    "replay of an unknown interface",
    "batch with R29",
];

/// F3, F6 and F7 give none there.
const FINDINGS: [u32; 9] = [1, 2, 4, 5, 8, 9, 10, 11, 12];

/// Each of 001's messages on a post and without one, and the rest.
pub fn wanted() -> impl Iterator<Item = String> {
    let messages = OLDER_PAGES.iter().flat_map(|page| ["by frame", "without a post"].map(|way| (page.id, way)));
    let messages = messages.map(|(id, way)| format!("{id:x} {way}"));
    let findings = FINDINGS.map(|number| format!("older F{number}"));
    messages.chain(findings).chain(OTHERS.map(str::to_string))
}

/// `table` is as it was before the step.
pub fn shown(table: &Table, step: &[u8], answer: &[u8]) -> Vec<String> {
    let fields: Vec<&[u8]> = step.split(|&byte| byte == b' ').collect();
    let Ok(answer) = std::str::from_utf8(answer) else {
        return Vec::new();
    };
    let shown = match fields[0] {
        b"frame" => by_frame(table, &fields, answer),
        b"setup" => by_set_up(table, &fields[1..], answer),
        b"record" => Some(by_record(answer)),
        b"read" | b"write" | b"read1" | b"change1" | b"write1" => without_post(&fields, answer),
        b"replay" => by_replay(&fields, answer),
        b"batch" => {
            let refused = word(Err(OTHER_INTERFACE)).to_string();
            Some(those(&[(answer.starts_with('A') && answer.split(' ').any(|word| word == refused), "batch with R29")]))
        }
        _ => None,
    };
    shown.unwrap_or_default()
}

fn by_frame(table: &Table, fields: &[&[u8]], answer: &str) -> Option<Vec<String>> {
    let mut payload = Vec::new();
    let arrival = desk::arrival(fields, &mut payload)?;
    let (frame, post) = (arrival.frame?, table.on(arrival.channel)?);
    let (id, extended, interface) = (frame.id, frame.extended, post.limits.interface);
    let read = |interface| codec::read(Heading { interface, id, extended }, frame.bytes);
    match answer {
        "R29" => Some(vec![other_interface(interface, &frame)]),
        "R2" => Some(those(&[(only_other_has(interface, id, extended), "R2 before R29")])),
        "R3" => Some(those(&[(only_other_has(interface, id, !extended), "R3 for the other form of R29")])),
        "R6" => Some(those(&[(interface == OLDER, "older R6")])),
        _ if interface != OLDER => None,
        _ => {
            let findings = answer.strip_prefix('A')?.parse().ok()?;
            let time = unrolled(latest_time(&post.history), arrival.time)?;
            Some(on_an_older_post(post, &Event { time, message: Some(read(OLDER).ok()?) }, findings))
        }
    }
}

/// With what the pages that have it make of the frame.
fn other_interface(interface: u32, frame: &Frame) -> String {
    let heading = Heading { interface: other(interface), id: frame.id, extended: frame.extended };
    let post = if interface == OLDER { "an older" } else { "a newer" };
    let read = codec::read(heading, frame.bytes);
    let read = read.map_or_else(|refusal| refusal.to_string(), |_| "A".to_string());
    format!("R29 on {post} post for {}", read.split(':').next().unwrap_or_default())
}

fn on_an_older_post(post: &Post, event: &Event, findings: u32) -> Vec<String> {
    let page = event.message.expect("a frame").kind.page();
    let found = |number: u32| findings >> (number - 1) & 1 == 1;
    let mut shown: Vec<String> =
        FINDINGS.into_iter().filter(|&number| found(number)).map(|number| format!("older F{number}")).collect();
    shown.push(if page.extended { format!("{:x} by frame", page.id) } else { "004 on an older post".to_string() });
    shown.extend(event.of(STATUS).map(|status| by_status(post, status, found(8), found(9))).unwrap_or_default());
    let above = |control: &Message| control.raws()[0] > limit(post.limits.volt, &post.history, Limit::Voltage);
    let other_numbers = |repeat: &Message| {
        let first = session(&post.history).and_then(|session| session[0].of(OPENING));
        first.is_some_and(|first| protocol_and_plug(first) == protocol_and_plug(repeat) && first != repeat)
    };
    shown.extend(those(&[
        (event.of(CONTROL).is_some_and(above) && !found(7), "no F7 above the voltage limit"),
        (event.of(OPENING).is_some_and(other_numbers) && !found(10), "no F10 for other numbers"),
    ]));
    shown
}

fn by_status(post: &Post, status: &Message, f8: bool, f9: bool) -> Vec<String> {
    let Some(session) = session(&post.history) else {
        return Vec::new();
    };
    let current = status.raw("Present_Current");
    let (charge, discharge) = (i64::from(post.limits.charge), i64::from(post.limits.discharge));
    let within = -discharge <= current && current <= charge;
    let told = latest_message(&post.history, TOLD).and_then(|limits| told(limits, Limit::Charge));
    let told = |is: fn(i64) -> bool| told.filter(|told| is(*told));
    let above = |told: Option<i64>| told.is_some_and(|told| current > told);
    let control = latest_message(session, CONTROL);
    let by = |kind| control.filter(|control| control.kind == kind);
    let at_0 = |control: &Message| control.raws()[..2] == [0, 0];
    let below = told(|told| told > 0).is_some_and(|told| current < -told);
    those(&[
        (f8 && within && above(told(|told| told > 0)), "F8 above a told current"),
        (!f8 && above(told(|told| told == 0)), "no F8 above a told current of 0"),
        (!f8 && above(told(|told| told < 0)), "no F8 above a told current below 0"),
        (!f8 && below, "no F8 below minus a told current"),
        (f9 && by(Kind::Precharge).is_some(), "F9 by Precharge"),
        (f9 && by(Kind::ChargingLoop).is_some_and(at_0), "F9 by Charging_Loop at 0 V and 0 A"),
        (
            !f9 && by(Kind::InsulationTest).is_some() && poor_insulation(&post.limits, status),
            "no F9 by Insulation_Test",
        ),
    ])
}

fn by_set_up(table: &Table, numbers: &[&[u8]], answer: &str) -> Option<Vec<String>> {
    let (post, _, limits) = desk::set_up(numbers)?;
    let another = table.post(post).is_ok_and(|before| before.limits.interface != limits.interface);
    Some(those(&[
        (answer == "R12" && interface_alone_is_wrong(limits), "unknown interface"),
        (answer == "A" && another, "another interface by a second set-up"),
    ]))
}

fn interface_alone_is_wrong(limits: Limits) -> bool {
    in_range(None, limits).is_none() && in_range(None, Limits { interface: OLDER, ..limits }).is_some()
}

fn by_record(answer: &str) -> Vec<String> {
    let part = |name: &str| answer.split(' ').find_map(|part| part.strip_prefix(name)).unwrap_or_default();
    let (control, latest) = (part("sdpc="), part("latest="));
    let older = part("iface=") == "1";
    let mut shown = those(&[(older && latest.contains("s:") && latest.contains("x:"), "older record with both forms")]);
    if older && control != "-" {
        shown.push(format!("record with sdpc={}", control.split(':').next().unwrap_or_default()));
    }
    shown
}

fn without_post(fields: &[&[u8]], answer: &str) -> Option<Vec<String>> {
    let (word, id) = (std::str::from_utf8(fields[0]).ok()?, std::str::from_utf8(fields.get(1)?).ok()?);
    let extended = fields.get(2)? == b"x";
    let (newer, older) = (id.starts_with("63") || id.starts_with("6b"), has_001(id) && extended);
    Some(match (word, answer.split(' ').next()?) {
        ("read1", "R3") => those(&[(newer && extended, "read1 R3 for 000")]),
        ("read", "R3") => those(&[(older, "read R3 for 001")]),
        ("write", "X") => those(&[(older, "write X for 001")]),
        ("read1" | "change1" | "write1", "A") if older => vec![format!("{id} without a post")],
        _ => Vec::new(),
    })
}

fn has_001(id: &str) -> bool {
    OLDER_PAGES.iter().any(|page| format!("{:x}", page.id) == id)
}

fn by_replay(fields: &[&[u8]], answer: &str) -> Option<Vec<String>> {
    let set_ups = replay_setups::field(fields.get(2)?)?;
    let mut table = Table::new();
    let refused = set_ups.iter().find(|&&(post, channel, limits)| table.set_up(post, channel, limits).is_err());
    let unknown = refused.is_some_and(|(.., limits)| interface_alone_is_wrong(*limits));
    Some(those(&[
        (answer.split('|').any(|line| line.ends_with(" R29")), "replay with R29"),
        (answer == "SETUP R12" && unknown, "replay of an unknown interface"),
    ]))
}

#[cfg(test)]
mod tests {
    use std::collections::BTreeSet;

    use super::*;
    use crate::desk::Desk;

    /// What the last step of a story shows, behind the set-ups of an older post on channel 4 and of a newer one on 5.
    fn shows(story: &str) -> Vec<String> {
        let (mut before, mut behind) = (Desk::new(), Desk::new());
        let posts = ["setup 0 4 5000 1000 500 500 0 1", "setup 1 5 5000 1000 500 500"];
        let steps: Vec<&str> = posts.into_iter().chain(story.lines()).collect();
        let (last, first) = steps.split_last().expect("a story");
        for step in first {
            for desk in [&mut before, &mut behind] {
                desk::answer(desk, step.as_bytes());
            }
        }
        let answer = desk::answer(&mut behind, last.as_bytes());
        shown(&before.table, last.as_bytes(), answer.as_bytes())
    }

    const OPENED: &str = "frame 4 0 68001 x 0201000000000000\nframe 4 0 60010 x 0000000041000164";
    const POOR: &str = "frame 4 0 60010 x 8813000041000118";

    fn in_a_session(story: &str) -> Vec<String> {
        shows(&format!("{OPENED}\n{story}"))
    }

    #[test]
    fn each_is_shown_by_a_story_of_its_own() {
        let mut met = BTreeSet::new();
        for (shown, wanted) in [
            (shows("frame 5 0 68009 x 07"), &["R29 on a newer post for A"][..]),
            (shows("frame 5 0 68009 x -"), &["R29 on a newer post for R4"]),
            (shows("frame 5 0 68009 x 0e"), &["R29 on a newer post for R5"]),
            (shows("frame 5 0 60012 x 040000"), &["R29 on a newer post for R6"]),
            (shows("frame 5 0 68009 x 0700"), &["R29 on a newer post for R15"]),
            (shows("frame 4 0 6b000 x 07"), &["R29 on an older post for A"]),
            (shows("frame 4 0 6b000 x -"), &["R29 on an older post for R4"]),
            (shows("frame 4 0 6b000 x 0e"), &["R29 on an older post for R5"]),
            (shows("frame 4 0 63002 x 040000"), &["R29 on an older post for R6"]),
            (shows("frame 4 0 6b000 x 0700"), &["R29 on an older post for R15"]),
            (shows("frame 4 0 6b000 s 07"), &["R3 for the other form of R29"]),
            (shows("frame 4 0 6b001 s 07"), &["R3 for the other form of R29"]),
            (shows("frame 4 0 68009 s 07"), &[]),
            (shows("tick 4 1\nframe 4 0 6b000 x 07"), &["R2 before R29"]),
            (shows("tick 4 1\nframe 4 0 68009 x 07"), &[]),
            (shows("frame 4 0 6 s 0000000000000000"), &["004 on an older post"]),
            (shows("frame 5 0 6 s 0000000000000000"), &[]),
            (shows("frame 4 0 60012 x 040000"), &["older R6"]),
            (shows("frame 5 0 6 s ffffffffffffffff"), &[]),
            (shows("frame 4 0 68003 x 00000000"), &["older F4", "68003 by frame"]),
            (shows("frame 4 0 68003 x 89130000"), &["older F4", "68003 by frame", "no F7 above the voltage limit"]),
            (shows("frame 4 0 68007 x 00"), &["older F11", "68007 by frame"]),
            (
                in_a_session("frame 4 0 60011 x 0000640000000000\nframe 4 0 60010 x 0000650041000164"),
                &["older F8", "60010 by frame", "F8 above a told current"],
            ),
            (
                in_a_session("frame 4 0 60011 x 0000640000000000\nframe 4 0 60010 x 00009bff41000164"),
                &["60010 by frame", "no F8 below minus a told current"],
            ),
            (
                in_a_session("frame 4 0 60011 x 0000000000000000\nframe 4 0 60010 x 0000010041000164"),
                &["60010 by frame", "no F8 above a told current of 0"],
            ),
            (
                in_a_session("frame 4 0 60011 x 0000ffff00000000\nframe 4 0 60010 x 0000000041000164"),
                &["60010 by frame", "no F8 above a told current below 0"],
            ),
            (
                in_a_session(&format!("frame 4 0 68003 x 00000000\n{POOR}")),
                &["older F9", "60010 by frame", "F9 by Precharge"],
            ),
            (
                in_a_session(&format!("frame 4 0 68005 x 0000000050\n{POOR}")),
                &["older F9", "60010 by frame", "F9 by Charging_Loop at 0 V and 0 A"],
            ),
            (in_a_session(&format!("frame 4 0 68005 x 0100000050\n{POOR}")), &["older F9", "60010 by frame"]),
            (in_a_session(&format!("frame 4 0 68002 x 0000\n{POOR}")), &["60010 by frame", "no F9 by Insulation_Test"]),
            (in_a_session("frame 4 0 68001 x 0201010000000000"), &["68001 by frame", "no F10 for other numbers"]),
            (in_a_session("frame 4 0 68001 x 0301000000000000"), &["older F10", "68001 by frame"]),
            (in_a_session("tick 4 0"), &[]),
            (shows("setup 2 6 5000 1000 500 500 0 2"), &["unknown interface"]),
            (shows("setup 2 6 5000 1000 500 500 2 1"), &[]),
            (shows("setup 2 6 5000 1000 500 500 2 2"), &[]),
            (shows("setup 0 4 5000 1000 500 500"), &["another interface by a second set-up"]),
            (shows("setup 0 4 5000 1000 500 500 0 1"), &[]),
            (in_a_session("frame 4 0 68002 x 0000\nrecord 0"), &["record with sdpc=68002x"]),
            (in_a_session("frame 4 0 68003 x 00000000\nrecord 0"), &["record with sdpc=68003x"]),
            (in_a_session("frame 4 0 68005 x 0000000000\nrecord 0"), &["record with sdpc=68005x"]),
            (
                shows("frame 4 0 6 s 0000000000000000\nframe 4 0 68009 x 07\nrecord 0"),
                &["older record with both forms"],
            ),
            (shows("read1 6b000 x 07"), &["read1 R3 for 000"]),
            (shows("read 68009 x 07"), &["read R3 for 001"]),
            (shows("read 68009 s 07"), &[]),
            (shows("write 68009 x 7 00"), &["write X for 001"]),
            (shows("read1 68009 x 07"), &["68009 without a post"]),
            (shows("change1 68009 x 07 0 6"), &["68009 without a post"]),
            (shows("write1 68009 x 7 00"), &["68009 without a post"]),
            (shows("write1 68009 x 14 00"), &[]),
            (shows("replay 000481c0350107 0,4,5000,1000,500,500,0,1"), &["replay with R29"]),
            (shows("replay 000481c0350107 0,4,5000,1000,500,500,0,0"), &[]),
            (shows("replay - 0,4,5000,1000,500,500,0,2"), &["replay of an unknown interface"]),
            (shows("batch 000481c0350107 1"), &["batch with R29"]),
        ] {
            assert_eq!(shown, wanted);
            met.extend(shown);
        }
        assert_eq!(OTHERS.iter().filter(|shown| !met.contains(**shown)).count(), 0);
    }
}
