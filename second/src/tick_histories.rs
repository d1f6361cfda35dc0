//! Random histories for the laws of Req 12, and a post that hears a list of events.
//!
//! That the laws hold is proved; what is tried here could only refute them.

use crate::clock::as_received;
use crate::codec::Refusal;
use crate::desk::{self, Desk};
use crate::history::Event;
use crate::posts::{Arrival, Frame, Post, Table, POSTS};
use crate::rules::{Limits, Rule, RULES};
use crate::script::{script, Extras};

pub type Rules = [Rule; RULES.len()];

/// What a script leaves of its posts of that interface, now and then: sessions, late frames, rounds of the clock.
pub fn histories(seed: u64, interface: u32) -> Vec<(Limits, Vec<Event>)> {
    let mut desk = Desk::new();
    let mut left = Vec::new();
    for (place, line) in script(seed, 2500, Extras::default()).iter().enumerate() {
        if desk::is_step(line) {
            desk::answer(&mut desk, line);
        }
        if place % 100 == 99 {
            let posts = (0..POSTS as u32).filter_map(|post| desk.table.post(post).ok());
            let of_it = posts.filter(|post| post.limits.interface == interface);
            left.extend(of_it.map(|post| (post.limits, post.history.clone())));
        }
    }
    left
}

/// A post in a table of its own, and its answer to each event of a list.
pub struct Heard {
    pub table: Table,
    pub answers: Vec<u32>,
}

impl Heard {
    pub fn post(&self) -> &Post {
        self.table.post(0).expect("it was set up")
    }
}

/// None where the list is not accepted whole.
pub fn heard(rules: Rules, limits: Limits, events: impl Iterator<Item = Event>) -> Option<Heard> {
    let mut table = Table::new();
    table.rules = rules;
    table.set_up(0, 4, limits).ok()?;
    let answers = events.map(|event| feed(&mut table, &event)).collect::<Result<_, Refusal>>().ok()?;
    Some(Heard { table, answers })
}

fn feed(table: &mut Table, event: &Event) -> Result<u32, Refusal> {
    let bytes = event.message.map(|message| message.bytes());
    let page = event.message.map(|message| message.kind.page());
    let frame = page.zip(bytes.as_ref()).map(|(page, bytes)| Frame { id: page.id, extended: page.extended, bytes });
    table.feed(&Arrival { channel: 4, time: as_received(event.time), frame })
}

/// 01's rules, but for a wrong one of that number.
pub fn with_wrong(&(number, rule): &(usize, Rule)) -> Rules {
    let mut rules = RULES;
    rules[number - 1] = rule;
    rules
}
