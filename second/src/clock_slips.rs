//! Wrong readings of Req 09.

use crate::asked::{CONTROLLER_STATUS, STATUS};
use crate::clock::{as_received, difference, unrolled, EARLIER, ROUND};
use crate::desk::{Desk, Recorder};
use crate::history::{latest, session, Event};
use crate::posts::{own_latest, Clock, Post};
use crate::record::{self, Form, FORM};
use crate::rules::{Limits, Rule, CONTROLLER_LIMIT};
use crate::tallies::Counts;

const WRONG_CLOCKS: [(&str, Clock); 4] = [
    ("clock-half", half_range_accepted),
    ("clock-locked", locked_by_the_round),
    ("clock-late", nothing_is_earlier),
    ("clock-first", first_behind_0),
];

/// Name, and the rule that stands in for the right one of that number.
const WRONG_RULES: [(&str, usize, Rule); 3] = [
    ("clock-f1", 1, f1_on_received_times),
    ("clock-f1-round", 1, f1_that_comes_round),
    ("clock-f2", 2, f2_on_received_times),
];

const WRONG_RECORDERS: [(&str, Recorder); 4] = [
    ("clock-age-received", |post, counts| kept_as(age_of_the_received_difference, post, counts)),
    ("clock-age-round", |post, counts| kept_as(age_that_comes_round, post, counts)),
    ("clock-age-half", |post, counts| kept_as(age_that_stops_at_half_the_range, post, counts)),
    ("clock-shown", |post, counts| kept_as(unrolled_time_shown, post, counts)),
];

pub fn names() -> impl Iterator<Item = &'static str> {
    let rules = WRONG_RULES.map(|(name, ..)| name);
    WRONG_CLOCKS.map(|(name, _)| name).into_iter().chain(rules).chain(WRONG_RECORDERS.map(|(name, _)| name))
}

/// `None` where there is no slip of that name.
pub fn put_into(desk: &mut Desk, name: &str) -> Option<()> {
    if let Some((_, clock)) = WRONG_CLOCKS.iter().find(|(known, _)| *known == name) {
        desk.table.clock = *clock;
    } else if let Some((_, number, rule)) = WRONG_RULES.iter().find(|(known, ..)| *known == name) {
        desk.table.rules[number - 1] = *rule;
    } else {
        desk.recorder = WRONG_RECORDERS.iter().find(|(known, _)| *known == name)?.1;
    }
    Some(())
}

/// A difference of exactly 2^31 is later.
fn half_range_accepted(posts: &[Option<Post>], place: usize, received: u32) -> Option<u64> {
    let latest = own_latest(posts, place);
    let half = latest.filter(|latest| difference(*latest, received) == EARLIER);
    half.map(|latest| latest + EARLIER).or_else(|| unrolled(latest, received))
}

/// 02: "refusal 2 then locks the post", as it did before.
fn locked_by_the_round(posts: &[Option<Post>], place: usize, received: u32) -> Option<u64> {
    let time = u64::from(received);
    own_latest(posts, place).is_none_or(|latest| latest <= time).then_some(time)
}

/// Every time has its place ahead.
fn nothing_is_earlier(posts: &[Option<Post>], place: usize, received: u32) -> Option<u64> {
    let latest = own_latest(posts, place);
    Some(latest.map_or(u64::from(received), |latest| latest + difference(latest, received)))
}

/// A post's clock begins at 0, so that half of the first times are refused.
fn first_behind_0(posts: &[Option<Post>], place: usize, received: u32) -> Option<u64> {
    unrolled(own_latest(posts, place).or(Some(0)), received)
}

/// Which are below the earlier ones behind the round.
fn f1_on_received_times(limits: &Limits, past: &[Event], event: &Event) -> bool {
    session(past).is_some_and(|session| {
        let status = latest(session, STATUS).map_or(0, |status| as_received(status.time));
        let later = status.max(as_received(session[0].time));
        as_received(event.time).saturating_sub(later) > limits.silence
    })
}

/// A silence of 49.7 days is none.
fn f1_that_comes_round(limits: &Limits, past: &[Event], event: &Event) -> bool {
    session(past).is_some_and(|session| {
        let seen = latest(session, STATUS).unwrap_or(&session[0]);
        (event.time - seen.time) % ROUND > u64::from(limits.silence)
    })
}

fn f2_on_received_times(_: &Limits, past: &[Event], event: &Event) -> bool {
    latest(past, CONTROLLER_STATUS).is_some_and(|status| {
        let (now, then) = (as_received(event.time), as_received(status.time));
        u64::from(now.saturating_sub(then)) > CONTROLLER_LIMIT
    })
}

fn kept_as(kept: fn(u64, u64) -> String, post: &Post, counts: &Counts) -> String {
    record::line_in(&Form { kept, ..FORM }, post, counts)
}

fn age_of_the_received_difference(latest: u64, kept: u64) -> String {
    format!("{}+{}", as_received(kept), as_received(latest).abs_diff(as_received(kept)))
}

fn age_that_comes_round(latest: u64, kept: u64) -> String {
    format!("{}+{}", as_received(kept), (latest - kept) % ROUND)
}

fn age_that_stops_at_half_the_range(latest: u64, kept: u64) -> String {
    format!("{}+{}", as_received(kept), (latest - kept).min(EARLIER))
}

fn unrolled_time_shown(latest: u64, kept: u64) -> String {
    format!("{kept}+{}", crate::clock::age(latest, kept))
}
