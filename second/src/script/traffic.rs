//! Frames and ticks: sessions that run, with times at the edges, and frames that are refused.

use super::kinds::{arriving, status};
use super::messages::{aimed, any, some_page, uncovered, unlabelled, wrong_length};
use super::sketch::Sketch;
use super::Generator;
use crate::asked::{protocol_and_plug, told, Limit, CONTROLLER_STATUS, FINISHED, OPENING, STATUS, TOLD};
use crate::clock::as_received;
use crate::codec::Message;
use crate::fields::{form, hex};
use crate::pages::{other, Kind, Page, NEWER, OLDER};
use crate::rng::Rng;
use crate::rules::CONTROLLER_LIMIT;

/// Identifiers that only look close; in neither form in the table.
const STRANGERS: [u32; 20] = [
    0,
    5,
    9,
    0x106,
    2047,
    0x60000,
    0x60014,
    0x63003,
    0x63200,
    0x63202,
    0x68000,
    0x68008,
    0x68010,
    0x6b006,
    0x6b106,
    0x6b301,
    0x8000_0006,
    0x8006_0010,
    0x8006_3000,
    u32::MAX,
];

/// Half the range of a time: so much earlier is also so much later, and is refused.
const HALF: u32 = 1 << 31;

impl Generator {
    pub fn traffic(&mut self) -> String {
        let alive: Vec<usize> = (0..self.posts.len()).filter(|&place| self.posts[place].is_some()).collect();
        if alive.is_empty() {
            return self.astray();
        }
        if self.posts[self.busy].is_none() || self.rng.chance(25) {
            self.busy = self.rng.pick(&alive);
        }
        let rng = &mut self.rng;
        let post = self.posts[self.busy].as_mut().expect("one of those alive");
        let time = moment(rng, post);
        let kind = rng.weighted(&arriving(post.limits.interface, post.open));
        let message = kind.map(|kind| aimed(rng, kind, post));
        note(post, time, message.as_ref());
        match message {
            Some(message) => of_page(post.channel, as_received(time), message.kind.page(), &message.bytes()),
            None => tick(post.channel, time),
        }
    }

    /// A status behind what came to an open session, so that limits and functions are judged while they stand.
    pub fn status_at_once(&mut self) {
        if let Some(post) = self.posts[self.busy].as_mut().filter(|post| post.open) {
            let message = aimed(&mut self.rng, status(post.limits.interface), post);
            note(post, post.now, Some(&message));
            let line = of_page(post.channel, as_received(post.now), message.kind.page(), &message.bytes());
            self.following.push_back(line);
        }
    }

    /// A frame or tick that is refused, for one reason or for several.
    pub fn refused(&mut self) -> String {
        let Some(post) = &self.posts[self.busy] else {
            return self.astray();
        };
        let (channel, now, begun) = (post.channel, as_received(post.now), post.begun);
        let interface = post.limits.interface;
        let rng = &mut self.rng;
        let time = if rng.chance(10) { now.wrapping_sub(1) } else { now };
        let page = some_page(rng, interface);
        let bytes = any(rng, page).bytes();
        match rng.below(13) {
            0 => self.astray(),
            1 if begun => self.early(channel, now),
            2 => frame(channel, time, (rng.pick(&STRANGERS), rng.chance(60)), &bytes),
            3 => frame(channel, time, (page.id ^ 1 << rng.below(32), page.extended), &bytes),
            4 => frame(channel, time, (page.id, !page.extended), &bytes),
            5 => of_page(channel, time, page, &[]),
            refused => {
                let (page, bytes) = match refused {
                    1 | 6 | 7 => wrong_length(rng, interface),
                    8 | 11 => uncovered(rng, interface),
                    _ => unlabelled(rng, interface),
                };
                of_page(channel, time, page, &bytes)
            }
        }
    }

    /// A frame by the pages that the post has not, with nothing else wrong, with something, or in the other form.
    pub fn of_the_other_interface(&mut self) -> String {
        let Some(post) = &self.posts[self.busy] else {
            return self.astray();
        };
        let (channel, now, interface) = (post.channel, as_received(post.now), other(post.limits.interface));
        let rng = &mut self.rng;
        let time = if rng.chance(10) { now.wrapping_sub(1) } else { now };
        let (page, bytes) = match rng.below(8) {
            0..=2 => wrong_length(rng, interface),
            3 => unlabelled(rng, interface),
            4 | 5 => uncovered(rng, interface),
            _ => {
                let page = some_page(rng, interface);
                (page, any(rng, page).bytes())
            }
        };
        let form = page.extended != rng.chance(15);
        frame(channel, time, (page.id, form), &bytes)
    }

    /// A time before the post's clock, alone or with an identifier that would be refused as well.
    fn early(&mut self, channel: u32, now: u32) -> String {
        let rng = &mut self.rng;
        let by = rng.pick(&[1, 1, 2, 1000, 1 << 30, HALF - 1, HALF, HALF]);
        let time = now.wrapping_sub(by);
        let interface = rng.pick(&[NEWER, OLDER]);
        let page = some_page(rng, interface);
        let bytes = any(rng, page).bytes();
        match rng.below(4) {
            0 | 1 => format!("tick {channel} {time}"),
            2 => of_page(channel, time, page, &bytes),
            _ => frame(channel, time, (rng.pick(&STRANGERS), rng.chance(60)), &bytes),
        }
    }

    /// A channel that nobody holds, or none at all.
    pub fn astray(&mut self) -> String {
        let free = self.free_channel();
        let channel = self.rng.pick(&[free, free, 31, 32, 33, 4_294_967_295]);
        let time = self.rng.below(100_000);
        if self.rng.chance(50) {
            return format!("tick {channel} {time}");
        }
        let interface = self.rng.pick(&[NEWER, OLDER]);
        let page = some_page(&mut self.rng, interface);
        of_page(channel as u32, time as u32, page, &any(&mut self.rng, page).bytes())
    }
}

/// When the next event arrives: in step, at once, or just around one of the two limits of silence.
fn moment(rng: &mut Rng, post: &Sketch) -> u64 {
    // A limit that is passed by one ms at most.
    let around = rng.pick(&[0, 1, 2, 2]);
    let aim = match rng.below(100) {
        0..=24 => post.now,
        25..=54 => post.now + rng.pick(&[1, 10, 50, 99, 100, 100]),
        55..=74 => post.status_at.unwrap_or(post.now) + CONTROLLER_LIMIT - 1 + around,
        75..=97 => post.heard_at + u64::from(post.limits.silence) - 1 + around,
        _ => post.now + rng.below(70_001),
    };
    aim.max(post.now)
}

pub fn note(post: &mut Sketch, time: u64, message: Option<&Message>) {
    (post.now, post.begun) = (time, true);
    let Some(message) = message else {
        return;
    };
    let is = |asked: &[Kind]| asked.contains(&message.kind);
    if is(CONTROLLER_STATUS) {
        post.status_at = Some(time);
    } else if is(STATUS) && post.open {
        post.heard_at = time;
    } else if is(TOLD) {
        post.received =
            [Limit::Voltage, Limit::Charge, Limit::Discharge].map(|limit| told(message, limit).unwrap_or(0));
    } else if is(OPENING) && !post.open {
        post.open = true;
        post.heard_at = time;
        post.first = protocol_and_plug(message);
    } else if is(FINISHED) {
        post.open = false;
    }
}

pub fn tick(channel: u32, time: u64) -> String {
    format!("tick {channel} {}", as_received(time))
}

pub fn of_page(channel: u32, time: u32, page: &Page, bytes: &[u8]) -> String {
    frame(channel, time, (page.id, page.extended), bytes)
}

fn frame(channel: u32, time: u32, (id, extended): (u32, bool), bytes: &[u8]) -> String {
    format!("frame {channel} {time} {id:x} {} {}", form(extended), hex(bytes))
}
