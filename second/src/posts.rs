//! The table of posts: set-up, release, and which post a frame or tick goes to.

use crate::clock::unrolled;
use crate::codec::{self, Heading, Message, Reader, Refusal};
use crate::history::{latest_time, Event};
use crate::pages::{only_other_has, NEWER, OLDER};
use crate::rules::{findings, Limits, Rule, MEASURING, RULES, YES_NO};
use crate::tallies::{FULL, LARGEST};

pub const POSTS: usize = 16;
pub const CHANNELS: u32 = 32;

pub struct Post {
    pub channel: u32,
    pub limits: Limits,
    pub history: Vec<Event>,
}

/// A frame as it comes from the bus, or a tick where there is nothing but the time.
#[derive(Clone, Debug, PartialEq, Eq)]
pub struct Arrival<'a> {
    pub channel: u32,
    pub time: u32,
    pub frame: Option<Frame<'a>>,
}

#[derive(Clone, Debug, PartialEq, Eq)]
pub struct Frame<'a> {
    pub id: u32,
    pub extended: bool,
    pub bytes: &'a [u8],
}

/// What was asked of a table, and what came of it.
#[derive(Clone, Copy, Debug)]
pub enum Request {
    SetUp {
        post: u32,
        outcome: Result<(), Refusal>,
    },
    Release {
        post: u32,
        outcome: Result<(), Refusal>,
    },
    /// A frame or tick, with the place of the post that holds its channel, and its time as received.
    Arrival {
        place: Option<usize>,
        time: u32,
        outcome: Result<u32, Refusal>,
    },
}

/// A set-up on a channel, or a release, and whether it was accepted.
pub struct Seating {
    pub post: u32,
    pub channel: Option<u32>,
    pub accepted: bool,
}

/// The place of the post that holds a channel.
pub type Finder = fn(&Table, u32) -> Option<usize>;

/// The unrolled time of an arrival for the post at that place, received at that time; none where it is earlier than the latest.
pub type Clock = fn(&[Option<Post>], usize, u32) -> Option<u64>;

/// What a post with that interface makes of a frame, with that reader for its own pages.
pub type Hearing = fn(Reader, u32, &Frame) -> Result<Message, Refusal>;

/// The event that an arrival is to the post at that place, if nothing refuses it.
pub type Listener = fn(&Table, usize, &Arrival) -> Result<Event, Refusal>;

/// 29: "A frame whose identifier only the other interface has".
pub const OTHER_INTERFACE: Refusal = Refusal::Number(29);

/// The limits that a set-up puts in force on the post that stands there, if one does; none where one is outside its
/// range.
pub type Admission = fn(Option<&Post>, Limits) -> Option<Limits>;

pub struct Table {
    posts: Vec<Option<Post>>,
    /// All that was asked of it since it was made.
    pub requests: Vec<Request>,
    /// The set-ups and releases among them, with their channels.
    pub seatings: Vec<Seating>,
    /// The largest count, of a post's accepted frames and ticks and of the refused ones.
    pub largest: u32,
    pub rules: [Rule; RULES.len()],
    pub clock: Clock,
    pub reader: Reader,
    pub hearing: Hearing,
    pub listener: Listener,
    pub admission: Admission,
    pub finder: Finder,
}

impl Table {
    pub fn new() -> Table {
        Table::of(POSTS)
    }

    /// A table of so many posts.
    pub fn of(posts: usize) -> Table {
        Table {
            posts: (0..posts).map(|_| None).collect(),
            requests: Vec::new(),
            seatings: Vec::new(),
            largest: LARGEST,
            rules: RULES,
            clock: own_clock,
            reader: codec::read,
            hearing: by_own_pages,
            listener: timed_and_read,
            admission: in_range,
            finder: searched,
        }
    }

    /// Gives 9 to 12, the lowest that applies.
    pub fn set_up(&mut self, post: u32, channel: u32, limits: Limits) -> Result<(), Refusal> {
        let outcome = self.begin(post, channel, limits);
        self.requests.push(Request::SetUp { post, outcome });
        self.seatings.push(Seating { post, channel: Some(channel), accepted: outcome.is_ok() });
        outcome
    }

    fn begin(&mut self, post: u32, channel: u32, limits: Limits) -> Result<(), Refusal> {
        let place = self.place(post)?;
        if channel >= CHANNELS {
            return Err(Refusal::Number(10));
        }
        if self.holder(channel).is_some_and(|holder| holder != place) {
            return Err(Refusal::Number(11));
        }
        let limits = (self.admission)(self.posts[place].as_ref(), limits).ok_or(Refusal::Number(12))?;
        self.posts[place] = Some(Post { channel, limits, history: Vec::new() });
        Ok(())
    }

    pub fn release(&mut self, post: u32) -> Result<(), Refusal> {
        let outcome = self.place(post).and_then(|place| self.posts[place].take().map(drop).ok_or(Refusal::Number(14)));
        self.requests.push(Request::Release { post, outcome });
        self.seatings.push(Seating { post, channel: None, accepted: outcome.is_ok() });
        outcome
    }

    pub fn post(&self, post: u32) -> Result<&Post, Refusal> {
        self.posts[self.place(post)?].as_ref().ok_or(Refusal::Number(14))
    }

    /// Gives 1 to 6, the lowest that applies, with 29 in 3's place and 15 in 4's, and after all of them 25; a refused arrival
    /// is part of no history.
    pub fn feed(&mut self, arrival: &Arrival) -> Result<u32, Refusal> {
        let outcome = self.hear(arrival);
        let place = self.holder(arrival.channel);
        self.requests.push(Request::Arrival { place, time: arrival.time, outcome });
        outcome
    }

    fn hear(&mut self, arrival: &Arrival) -> Result<u32, Refusal> {
        let place = self.holder(arrival.channel).ok_or(Refusal::Number(1))?;
        let event = (self.listener)(self, place, arrival)?;
        let post = self.posts[place].as_mut().expect("the channel's holder");
        if post.history.len() >= self.largest as usize {
            return Err(FULL);
        }
        let found = findings(&self.rules, &post.limits, &post.history, &event);
        post.history.push(event);
        Ok(found)
    }

    /// What a frame says to the post at that place.
    pub fn read(&self, place: usize, frame: &Frame) -> Result<Message, Refusal> {
        let post = self.posts[place].as_ref().expect("the channel's holder");
        (self.hearing)(self.reader, post.limits.interface, frame)
    }

    /// The post that holds a channel.
    pub fn on(&self, channel: u32) -> Option<&Post> {
        self.posts[self.holder(channel)?].as_ref()
    }

    /// The place of the post that holds a channel.
    pub fn holder(&self, channel: u32) -> Option<usize> {
        (self.finder)(self, channel)
    }

    /// 02: "Refusal 9 now begins at 16".
    fn place(&self, post: u32) -> Result<usize, Refusal> {
        let place = post as usize;
        if place < self.posts.len() {
            Ok(place)
        } else {
            Err(Refusal::Number(9))
        }
    }
}

/// A search over the posts. A channel above 31 has no holder, since no set-up takes it.
pub fn searched(table: &Table, channel: u32) -> Option<usize> {
    table.posts.iter().position(|post| post.as_ref().is_some_and(|post| post.channel == channel))
}

/// 2 before all that is wrong with a frame.
pub fn timed_and_read(table: &Table, place: usize, arrival: &Arrival) -> Result<Event, Refusal> {
    let time = (table.clock)(&table.posts, place, arrival.time).ok_or(Refusal::Number(2))?;
    let message = arrival.frame.as_ref().map(|frame| table.read(place, frame)).transpose()?;
    Ok(Event { time, message })
}

/// 02: "gets, on that post, a refusal number of its own in 3's place, never a message".
pub fn by_own_pages(reader: Reader, interface: u32, frame: &Frame) -> Result<Message, Refusal> {
    let read = reader(Heading { interface, id: frame.id, extended: frame.extended }, frame.bytes);
    match read {
        Err(Refusal::Number(3)) if only_other_has(interface, frame.id, frame.extended) => Err(OTHER_INTERFACE),
        read => read,
    }
}

/// What stood before does not count.
pub fn in_range(_: Option<&Post>, limits: Limits) -> Option<Limits> {
    let good = (1..=65_535).contains(&limits.volt)
        && (1..=32_767).contains(&limits.charge)
        && limits.discharge <= 32_767
        && (100..=60_000).contains(&limits.silence)
        && matches!(limits.sensor, MEASURING | YES_NO)
        && matches!(limits.interface, NEWER | OLDER);
    good.then_some(limits)
}

/// 01: "earlier than that post's latest accepted frame or tick"; the other posts' clocks say nothing.
fn own_clock(posts: &[Option<Post>], place: usize, received: u32) -> Option<u64> {
    unrolled(own_latest(posts, place), received)
}

/// The latest time of the post at that place.
pub fn own_latest(posts: &[Option<Post>], place: usize) -> Option<u64> {
    latest_time(&posts[place].as_ref()?.history)
}
