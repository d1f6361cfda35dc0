//! Wrong readings of Req 08.

use crate::batch::{self, Batcher};
use crate::clock::unrolled;
use crate::codec::Refusal;
use crate::desk::Desk;
use crate::history::{latest_time, Event};
use crate::log;
use crate::posts::{Post, Request, Table};
use crate::replay::{played, Line, Replay, Replayer, SetUp};
use crate::rules::{findings, RULES};
use crate::tallies::{at_most, counts, numbers, tallied, Counter, Counts, RefusedCounter};

const WRONG_COUNTERS: [(&str, Counter); 6] = [
    ("tally-refused", counted_after_a_refused_frame),
    ("tally-kept", kept_by_a_second_set_up),
    ("tally-next", one_place_on),
    ("tally-lowest", lowest_finding_only),
    ("tally-ticks", ticks_left_out),
    ("tally-shared", one_tally_for_all_posts),
];

const WRONG_REFUSED_COUNTERS: [(&str, RefusedCounter); 4] = [
    ("tally-setup", raised_by_a_refused_set_up),
    ("tally-release", raised_by_a_refused_release),
    ("tally-stray", without_refusal_1),
    ("tally-cleared", cleared_by_a_set_up),
];

const WRONG_BATCHERS: [(&str, Batcher); 2] =
    [("tally-batch", refused_batch_counts), ("tally-records", records_of_a_batch_do_not_count)];

const WRONG_REPLAYER: (&str, Replayer) = ("tally-replay", replay_counts);

pub fn names() -> impl Iterator<Item = &'static str> {
    let counters = WRONG_COUNTERS.map(|(name, _)| name).into_iter().chain(WRONG_REFUSED_COUNTERS.map(|(name, _)| name));
    counters.chain(WRONG_BATCHERS.map(|(name, _)| name)).chain([WRONG_REPLAYER.0])
}

/// `None` where there is no slip of that name.
pub fn put_into(desk: &mut Desk, name: &str) -> Option<()> {
    if let Some((_, counter)) = WRONG_COUNTERS.iter().find(|(known, _)| *known == name) {
        desk.counter = *counter;
    } else if let Some((_, counter)) = WRONG_REFUSED_COUNTERS.iter().find(|(known, _)| *known == name) {
        desk.refused_counter = *counter;
    } else if let Some((_, batcher)) = WRONG_BATCHERS.iter().find(|(known, _)| *known == name) {
        desk.batcher = *batcher;
    } else {
        desk.replayer = [WRONG_REPLAYER].iter().find(|(known, _)| *known == name)?.1;
    }
    Some(())
}

/// What its time raises, F1 and F2, is counted before the frame is read.
fn counted_after_a_refused_frame(table: &Table, place: usize, post: &Post) -> Counts {
    let mut right = counts(table, place, post);
    let raised: Vec<u32> = refused_since_set_up(table, place)
        .filter_map(|(accepted, received)| {
            let past = &post.history[..accepted];
            let time = unrolled(latest_time(past), received)?;
            Some(findings(&RULES, &post.limits, past, &Event { time, message: None }))
        })
        .collect();
    for (tally, more) in right.tallies.iter_mut().zip(tallied(raised.into_iter())) {
        *tally += more;
    }
    right
}

/// For each frame or tick of the post that was refused since its set-up: how many were accepted before it, and its time.
fn refused_since_set_up(table: &Table, place: usize) -> impl Iterator<Item = (usize, u32)> + '_ {
    let set_up =
        |request: &Request| matches!(*request, Request::SetUp { post, outcome: Ok(()) } if post as usize == place);
    let since = table.requests.iter().rposition(set_up).unwrap_or(0);
    let mut accepted = 0;
    table.requests[since..].iter().filter_map(move |request| match *request {
        Request::Arrival { place: Some(own), time, outcome } if own == place => {
            accepted += usize::from(outcome.is_ok());
            outcome.err().map(|_| (accepted, time))
        }
        _ => None,
    })
}

/// Only a release makes an end of them.
fn kept_by_a_second_set_up(table: &Table, place: usize, _: &Post) -> Counts {
    let released =
        |request: &Request| matches!(*request, Request::Release { post, outcome: Ok(()) } if post as usize == place);
    let since = table.requests.iter().rposition(released).unwrap_or(0);
    counts_of(&accepted(&table.requests[since..], |own| own == place))
}

fn one_tally_for_all_posts(table: &Table, place: usize, post: &Post) -> Counts {
    let right = counts(table, place, post);
    Counts { tallies: tallied(accepted(&table.requests, |_| true).into_iter()), ..right }
}

/// What was answered to the accepted frames and ticks of such posts.
fn accepted(requests: &[Request], of: impl Fn(usize) -> bool) -> Vec<u32> {
    let answer = |request: &Request| match *request {
        Request::Arrival { place: Some(place), outcome: Ok(number), .. } if of(place) => Some(number),
        _ => None,
    };
    requests.iter().filter_map(answer).collect()
}

fn counts_of(numbers: &[u32]) -> Counts {
    Counts { accepted: numbers.len() as u32, tallies: tallied(numbers.iter().copied()) }
}

/// The last one's place is the first.
fn one_place_on(table: &Table, place: usize, post: &Post) -> Counts {
    let mut right = counts(table, place, post);
    right.tallies.rotate_right(1);
    right
}

/// Of several findings of one event.
fn lowest_finding_only(table: &Table, place: usize, post: &Post) -> Counts {
    let lowest = numbers(post).map(|number| number & number.wrapping_neg());
    Counts { tallies: tallied(lowest), ..counts(table, place, post) }
}

fn ticks_left_out(table: &Table, place: usize, post: &Post) -> Counts {
    let frames = post.history.iter().filter(|event| event.message.is_some());
    Counts { accepted: frames.count() as u32, ..counts(table, place, post) }
}

fn refused_where(table: &Table, counted: impl Fn(&Request) -> bool) -> u32 {
    at_most(table.largest, table.requests.iter().filter(|request| counted(request)).count())
}

fn raised_by_a_refused_set_up(table: &Table) -> u32 {
    refused_where(table, |request| {
        matches!(request, Request::Arrival { outcome: Err(_), .. } | Request::SetUp { outcome: Err(_), .. })
    })
}

fn raised_by_a_refused_release(table: &Table) -> u32 {
    refused_where(table, |request| {
        matches!(request, Request::Arrival { outcome: Err(_), .. } | Request::Release { outcome: Err(_), .. })
    })
}

fn without_refusal_1(table: &Table) -> u32 {
    refused_where(table, |request| matches!(request, Request::Arrival { place: Some(_), outcome: Err(_), .. }))
}

fn cleared_by_a_set_up(table: &Table) -> u32 {
    let set_up = |request: &Request| matches!(request, Request::SetUp { outcome: Ok(()), .. });
    let since = table.requests.iter().rposition(set_up).unwrap_or(0);
    at_most(table.largest, table.requests[since..].iter().filter(|request| is_refused(request)).count())
}

fn is_refused(request: &Request) -> bool {
    matches!(request, Request::Arrival { outcome: Err(_), .. })
}

/// Each record that stands before what is wrong, or one where there is none.
fn refused_batch_counts(table: &mut Table, bytes: &[u8], answers: &mut [u32]) -> Result<usize, Refusal> {
    let outcome = batch::batch(table, bytes, answers);
    if let Err(refusal) = outcome {
        let refused = log::read(bytes).records.len().max(1);
        let time = 0;
        table.requests.extend((0..refused).map(|_| Request::Arrival { place: None, time, outcome: Err(refusal) }));
    }
    outcome
}

fn records_of_a_batch_do_not_count(table: &mut Table, bytes: &[u8], answers: &mut [u32]) -> Result<usize, Refusal> {
    let before = table.requests.len();
    let outcome = batch::batch(table, bytes, answers);
    let accepted: Vec<Request> = table.requests.drain(before..).filter(|request| !is_refused(request)).collect();
    table.requests.extend(accepted);
    outcome
}

fn replay_counts(table: &mut Table, set_ups: &[SetUp], bytes: &[u8], line: Line) -> Replay {
    let mut own = Table::new();
    let replay = played(&mut own, set_ups, &log::read(bytes), line);
    table.requests.extend(own.requests.into_iter().filter(is_refused));
    replay
}
