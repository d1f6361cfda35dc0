//! What a step shows of clocks that come round (Req 09).

use std::collections::BTreeMap;

use crate::asked::{CONTROLLER_STATUS, STATUS};
use crate::clock::{as_received, difference, unrolled, EARLIER, OLDEST, ROUND};
use crate::desk;
use crate::fields::{bytes, natural};
use crate::history::{latest, latest_time, session, Event};
use crate::log;
use crate::posts::{Arrival, Post, Table, CHANNELS};
use crate::safety_coverage::those;

const WANTED: [&str; 19] = [
    "tick across the round",
    "frame across the round",
    "first time of 2^31 or more",
    "2^31 - 1 ms later",
    "R2 by a difference of 2^31",
    "R2 back across the round",
    "F1 across the round",
    "no F1 across the round",
    "F2 across the round",
    "no F2 across the round",
    "F1 a round after the last sign",
    "F2 a round after the last sign",
    "record with times of two rounds",
    "record with an age of 0",
    "record with an age of 2^32 - 2",
    "record with an age of 2^32 - 1",
    "record with an age that stopped growing",
    "replay across the round",
    "batch across the round",
];

pub fn wanted() -> impl Iterator<Item = String> {
    WANTED.into_iter().map(str::to_string)
}

/// `table` is as it was before the step.
pub fn shown(table: &Table, step: &[u8], answer: &[u8]) -> Vec<String> {
    let fields: Vec<&[u8]> = step.split(|&byte| byte == b' ').collect();
    let Ok(answer) = std::str::from_utf8(answer) else {
        return Vec::new();
    };
    let known = match fields[..] {
        [b"frame" | b"tick", ..] => {
            let mut payload = Vec::new();
            desk::arrival(&fields, &mut payload).and_then(|arrival| by_arrival(table, &arrival, answer))
        }
        [b"record", post] if answer.starts_with('K') => natural(post).and_then(|post| by_record(table, post)),
        [b"replay", log, _] => bytes(log).map(|log| {
            let answers =
                answer.split('|').map(|line| line.split(' ').nth(2).is_some_and(|word| word.starts_with('A')));
            those(&[(across(&Table::new(), &log, answers), "replay across the round")])
        }),
        [b"batch", log, _] if answer.starts_with('A') => bytes(log).map(|log| {
            let answers = answer.split(' ').skip(1).map(|word| word.parse().is_ok_and(|word: u32| word < 65_536));
            those(&[(across(table, &log, answers), "batch across the round")])
        }),
        _ => None,
    };
    known.unwrap_or_default()
}

fn by_arrival(table: &Table, arrival: &Arrival, answer: &str) -> Option<Vec<String>> {
    let post = table.on(arrival.channel)?;
    let received = arrival.time;
    let Some(latest) = latest_time(&post.history) else {
        let late = u64::from(received) >= EARLIER && answer.starts_with('A');
        return Some(those(&[(late, "first time of 2^31 or more")]));
    };
    let later = difference(latest, received);
    let Some(time) = unrolled(Some(latest), received) else {
        return Some(those(&[
            (answer == "R2" && later == EARLIER, "R2 by a difference of 2^31"),
            (answer == "R2" && received > as_received(latest) && later > EARLIER, "R2 back across the round"),
        ]));
    };
    let number: u32 = answer.strip_prefix('A')?.parse().ok()?;
    let crosses = as_received(time) < as_received(latest);
    let mut shown = those(&[
        (crosses && arrival.frame.is_none(), "tick across the round"),
        (crosses && arrival.frame.is_some(), "frame across the round"),
        (later == EARLIER - 1, "2^31 - 1 ms later"),
    ]);
    for (rule, sign) in [(1, power_modules(post)), (2, controller(post))] {
        let Some(sign) = sign else {
            continue;
        };
        let found = number >> (rule - 1) & 1 == 1;
        let near = crosses && time - sign < 100_000;
        let round = as_received(time).wrapping_sub(as_received(sign)) <= 200 && time - sign >= ROUND;
        shown.extend((near && found).then(|| format!("F{rule} across the round")));
        shown.extend((near && !found).then(|| format!("no F{rule} across the round")));
        shown.extend((round && found).then(|| format!("F{rule} a round after the last sign")));
    }
    Some(shown)
}

/// When F1 last heard of the power modules.
fn power_modules(post: &Post) -> Option<u64> {
    let session = session(&post.history)?;
    Some(latest(session, STATUS).unwrap_or(&session[0]).time)
}

fn controller(post: &Post) -> Option<u64> {
    latest(&post.history, CONTROLLER_STATUS).map(|status| status.time)
}

fn by_record(table: &Table, post: u32) -> Option<Vec<String>> {
    let history = &table.post(post).ok()?.history;
    let now = latest_time(history)?;
    let kept: Vec<&Event> = history.iter().filter_map(|event| latest(history, &[event.message?.kind])).collect();
    let ages: Vec<u64> = kept.iter().map(|event| now - event.time).collect();
    let oldest = u64::from(OLDEST);
    Some(those(&[
        (kept.iter().any(|event| event.time / ROUND != now / ROUND), "record with times of two rounds"),
        (ages.contains(&0), "record with an age of 0"),
        (ages.contains(&(oldest - 1)), "record with an age of 2^32 - 2"),
        (ages.contains(&oldest), "record with an age of 2^32 - 1"),
        (ages.iter().any(|age| *age > oldest), "record with an age that stopped growing"),
    ]))
}

/// Whether the times of a channel's accepted records fall, as received, behind what its post in the table had.
fn across(table: &Table, log: &[u8], accepted: impl Iterator<Item = bool>) -> bool {
    let had = |channel| Some((channel, as_received(latest_time(&table.on(channel)?.history)?)));
    let mut latest: BTreeMap<u32, u32> = (0..CHANNELS).filter_map(had).collect();
    let records = log::read(log).records;
    let mut fallen = false;
    for (record, _) in records.iter().zip(accepted).filter(|(_, accepted)| *accepted) {
        fallen |= latest.insert(record.channel, record.time).is_some_and(|before| record.time < before);
    }
    fallen
}

#[cfg(test)]
mod tests {
    use std::collections::BTreeSet;

    use super::*;
    use crate::desk::Desk;

    /// What the last step of a story shows, behind a set-up.
    fn shows(story: &str) -> Vec<String> {
        let (mut before, mut behind, mut shown) = (Desk::new(), Desk::new(), Vec::new());
        for step in ["setup 0 4 5000 1000 500 500"].into_iter().chain(story.lines().map(str::trim)) {
            let answer = desk::answer(&mut behind, step.as_bytes());
            shown = super::shown(&before.table, step.as_bytes(), answer.as_bytes());
            desk::answer(&mut before, step.as_bytes());
        }
        shown
    }

    #[test]
    fn each_is_shown_by_a_story_of_its_own() {
        let mut met = BTreeSet::new();
        for (story, wanted) in [
            ("tick 4 4294967290\ntick 4 5", &["tick across the round"][..]),
            ("tick 4 4294967290\nframe 4 5 6b005 x 0000", &[]),
            ("tick 4 4294967290\nframe 4 5 6 s 8215000000000000", &["frame across the round"]),
            ("tick 4 4294967290\ntick 4 4294967291", &[]),
            ("tick 4 2147483648", &["first time of 2^31 or more"]),
            ("tick 4 2147483647", &[]),
            ("tick 4 1\ntick 4 2147483648", &["2^31 - 1 ms later"]),
            ("tick 4 1\ntick 4 2147483649", &["R2 by a difference of 2^31"]),
            ("tick 4 2147483651\ntick 4 5", &[]),
            ("tick 4 0\ntick 4 4294967295", &["R2 back across the round"]),
            ("frame 4 4294967290 6b001 x 0201\ntick 4 494", &["tick across the round", "no F1 across the round"]),
            ("frame 4 4294967290 6b001 x 0201\ntick 4 495", &["tick across the round", "F1 across the round"]),
            ("frame 4 4294967290 6b000 x 01\ntick 4 194", &["tick across the round", "no F2 across the round"]),
            ("frame 4 4294967290 6b000 x 01\ntick 4 195", &["tick across the round", "F2 across the round"]),
            (
                "frame 4 5 6b001 x 0201\ntick 4 2000000005\ntick 4 4000000005\ntick 4 6",
                &["tick across the round", "F1 a round after the last sign"],
            ),
            (
                "frame 4 5 6b000 x 01\ntick 4 2000000005\ntick 4 4000000005\ntick 4 6",
                &["tick across the round", "F2 a round after the last sign"],
            ),
            ("frame 4 4294967290 6b000 x 01\ntick 4 5\nrecord 0", &["record with times of two rounds"]),
            ("frame 4 5 6b000 x 01\nrecord 0", &["record with an age of 0"]),
            (
                "frame 4 1 6b000 x 01\ntick 4 2147483648\ntick 4 4294967295\nrecord 0",
                &["record with an age of 2^32 - 2"],
            ),
            (
                "frame 4 0 6b000 x 01\ntick 4 2147483647\ntick 4 4294967294\ntick 4 4294967295\nrecord 0",
                &["record with an age of 2^32 - 1"],
            ),
            (
                "frame 4 0 6b000 x 01\ntick 4 2147483647\ntick 4 4294967294\ntick 4 0\nrecord 0",
                &["record with times of two rounds", "record with an age that stopped growing"],
            ),
            ("replay faffffff0f04000905040009 0,4,5000,1000,500,500", &["replay across the round"]),
            ("replay faffffff0f04000905050009 0,4,5000,1000,500,500", &[]),
            ("batch faffffff0f04000905040009 2", &["batch across the round"]),
            ("tick 4 4294967290\nbatch 05040009 1", &["batch across the round"]),
            ("tick 4 6\nbatch faffffff0f04000905040009 2", &[]),
        ] {
            assert_eq!(shows(story), wanted, "{story}");
            met.extend(wanted.iter().map(|shown| shown.to_string()));
        }
        assert_eq!(super::wanted().filter(|shown| !met.contains(shown)).count(), 0);
    }
}
