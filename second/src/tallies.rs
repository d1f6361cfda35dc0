//! Req 08's counts: of a post over its history, and of what a table refused over all that was asked of it.

use crate::codec::Refusal;
use crate::posts::{Post, Request, Table};
use crate::rules::{findings, RULES};

/// 02: "each 32 bits".
pub const LARGEST: u32 = u32::MAX;

/// 02: "A frame or tick that would take its post's count past the largest is refused with a new number, judged after all
/// others".
pub const FULL: Refusal = Refusal::Number(25);

/// 02: "eleven counts, one per finding, and the count of accepted frames and ticks since set-up", and "F12 has its own tally".
pub struct Counts {
    pub accepted: u32,
    pub tallies: [u32; RULES.len()],
}

/// The place is that of the post in its table.
pub type Counter = fn(&Table, usize, &Post) -> Counts;

pub type RefusedCounter = fn(&Table) -> u32;

/// 02: "equal to the count over that post's history".
pub fn counts(_: &Table, _: usize, post: &Post) -> Counts {
    Counts { accepted: post.history.len() as u32, tallies: tallied(numbers(post)) }
}

/// What each event of the history found, judged anew by the events before it.
pub fn numbers(post: &Post) -> impl Iterator<Item = u32> + '_ {
    let past = |place| &post.history[..place];
    (0..).zip(&post.history).map(move |(place, event)| findings(&RULES, &post.limits, past(place), event))
}

/// How many of the numbers have each finding.
pub fn tallied(numbers: impl Iterator<Item = u32>) -> [u32; RULES.len()] {
    let numbers: Vec<u32> = numbers.collect();
    std::array::from_fn(|place| numbers.iter().filter(|number| *number >> place & 1 == 1).count() as u32)
}

/// 02: "of frames and ticks refused since it was made"; it "stays at 4,294,967,295 once there".
pub fn refused(table: &Table) -> u32 {
    let refused = table.requests.iter().filter(|request| matches!(request, Request::Arrival { outcome: Err(_), .. }));
    at_most(table.largest, refused.count())
}

pub fn at_most(largest: u32, count: usize) -> u32 {
    u32::try_from(count).unwrap_or(largest).min(largest)
}
