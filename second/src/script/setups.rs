//! Set-ups, releases and records, accepted ones and every refused sort.

use super::sketch::Sketch;
use super::Generator;
use crate::clock::EARLIER;
use crate::posts::{CHANNELS, POSTS};
use crate::rules::Limits;

const POSTS_BEYOND: [u64; 6] = [16, 16, 16, 17, 255, 4_294_967_295];
const CHANNELS_BEYOND: [u64; 4] = [32, 33, 64, 4_294_967_295];

/// Limits inside their range, and outside, most often just outside.
const VOLT: ([u64; 6], [u64; 5]) = ([1, 2, 4000, 5000, 10_000, 65_535], [0, 0, 65_536, 65_536, 4_294_967_295]);
const CHARGE: ([u64; 6], [u64; 5]) = ([1, 2, 100, 1000, 32_766, 32_767], [0, 0, 32_768, 32_768, 65_535]);
const DISCHARGE: ([u64; 6], [u64; 5]) =
    ([0, 0, 1, 500, 32_766, 32_767], [32_768, 32_768, 32_768, 65_535, 4_294_967_295]);
const SILENCE: ([u64; 8], [u64; 5]) = ([100, 100, 101, 150, 250, 500, 1000, 60_000], [99, 99, 60_001, 60_001, 0]);
const SENSOR: ([u64; 2], [u64; 5]) = ([0, 1], [2, 2, 3, 256, 4_294_967_295]);
const INTERFACE: ([u64; 2], [u64; 5]) = ([0, 1], [2, 2, 3, 256, 4_294_967_295]);

/// The places of the sensor and of the interface among the limits; what stands from there on may go without saying.
const NEED_NO_SAYING: [usize; 2] = [5, 4];

impl Generator {
    /// A set-up to be accepted: a free post or one to start anew, on its own channel or a free one.
    pub fn set_up(&mut self) -> String {
        let post = self.post_to_set_up();
        self.set_up_post(post)
    }

    pub fn set_up_post(&mut self, post: u64) -> String {
        let own = self.posts[post as usize].as_ref().map(|post| u64::from(post.channel));
        let channel = match own {
            Some(channel) if self.rng.chance(50) => channel,
            _ => self.free_channel(),
        };
        // What comes on a channel that was left goes to nobody.
        if let Some(left) = own.filter(|own| *own != channel && self.rng.chance(30)) {
            self.following.push_back(format!("tick {left} {}", self.rng.below(100_000)));
        }
        let limits = self.limits();
        self.sketch(post as usize, channel as u32, limits);
        self.set_up_line(post, channel, limits)
    }

    /// All sixteen posts at once, and few of them afterwards, so that the traffic does not scatter for long.
    pub fn crowd(&mut self) -> String {
        let mut lines: Vec<String> = Vec::new();
        for post in self.places(false) {
            lines.push(self.set_up_post(post));
        }
        lines.push("index".to_string());
        let (channel, limits) = (self.free_channel(), self.limits());
        lines.push(self.set_up_line(16, channel, limits));
        for _ in 0..6 {
            lines.push(self.traffic());
        }
        while self.places(true).len() > 4 {
            self.busy = self.rng.pick(&self.places(true)) as usize;
            self.posts[self.busy] = None;
            lines.push(format!("release {}", self.busy));
        }
        lines.push("index".to_string());
        self.following.extend(lines.split_off(1));
        lines.remove(0)
    }

    /// A set-up with one thing wrong, or with several.
    pub fn refused_set_up(&mut self) -> String {
        let mut post = self.rng.below(POSTS as u64);
        let mut channel = self.free_channel();
        let mut limits = self.limits();
        let flaws = self.rng.pick(&[1, 2, 4, 4, 8, 8, 8, 8, 8, 3, 5, 10, 12, 15]);
        if flaws & 1 != 0 {
            post = self.rng.pick(&POSTS_BEYOND);
        }
        if flaws & 2 != 0 {
            channel = self.rng.pick(&CHANNELS_BEYOND);
        }
        if flaws & 4 != 0 {
            let others = (0..).zip(&self.posts).filter(|(place, _)| *place != post);
            let taken: Vec<u64> = others.filter_map(|(_, other)| Some(u64::from(other.as_ref()?.channel))).collect();
            // With nobody to take a channel from, the limits have to do.
            channel = if taken.is_empty() { channel } else { self.rng.pick(&taken) };
        }
        if flaws & 8 != 0 || flaws == 4 && self.posts.iter().flatten().count() < 2 {
            let which = self.rng.pick(&[0, 1, 2, 3, 4, 4, 5, 5]);
            limits[which] = self.rng.pick(&[VOLT.1, CHARGE.1, DISCHARGE.1, SILENCE.1, SENSOR.1, INTERFACE.1][which]);
        }
        self.set_up_line(post, channel, limits)
    }

    pub fn release(&mut self) -> String {
        let post = self.some_post();
        if let Some(sketch) = self.posts.get_mut(post as usize) {
            *sketch = None;
        }
        format!("release {post}")
    }

    /// Of a post that is not set up, or of none.
    pub fn refused_release(&mut self) -> String {
        let free = self.places(false);
        let posts = if free.is_empty() || self.rng.chance(40) { &POSTS_BEYOND[..] } else { &free };
        format!("release {}", self.rng.pick(posts))
    }

    pub fn record(&mut self) -> String {
        format!("record {}", self.some_post())
    }

    /// Any post while few are set up, then one of those, so that the traffic does not scatter.
    fn post_to_set_up(&mut self) -> u64 {
        let alive = self.places(true);
        if alive.len() >= 5 {
            self.rng.pick(&alive)
        } else {
            self.rng.below(POSTS as u64)
        }
    }

    fn places(&self, alive: bool) -> Vec<u64> {
        (0..).zip(&self.posts).filter(|(_, post)| post.is_some() == alive).map(|(place, _)| place).collect()
    }

    fn some_post(&mut self) -> u64 {
        match self.rng.below(20) {
            0 | 4 => self.rng.pick(&POSTS_BEYOND),
            1 => self.rng.pick(&self.places(false)),
            2 | 3 => self.rng.below(POSTS as u64),
            _ => self.busy as u64,
        }
    }

    fn limits(&mut self) -> [u64; 6] {
        let rng = &mut self.rng;
        let (volt, charge, discharge) = (rng.pick(&VOLT.0), rng.pick(&CHARGE.0), rng.pick(&DISCHARGE.0));
        [volt, charge, discharge, rng.pick(&SILENCE.0), rng.pick(&SENSOR.0), rng.pick(&INTERFACE.0)]
    }

    pub fn free_channel(&mut self) -> u64 {
        let held = |channel: u64| self.posts.iter().flatten().any(|post| u64::from(post.channel) == channel);
        let free: Vec<u64> = (0..u64::from(CHANNELS)).filter(|&channel| !held(channel)).collect();
        let edges: Vec<u64> = free.iter().copied().filter(|channel| matches!(channel, 0 | 4 | 31)).collect();
        let choices = if !edges.is_empty() && self.rng.chance(50) { &edges } else { &free };
        self.rng.pick(choices)
    }

    /// Starts small, at 0, close to the largest time, or close to half of it.
    fn sketch(&mut self, post: usize, channel: u32, limits: [u64; 6]) {
        let now = match self.rng.below(10) {
            0 | 1 => 0,
            2 | 3 => u32::MAX - self.rng.below(1000) as u32,
            4 => u32::MAX,
            5 => EARLIER as u32 - 1 + self.rng.below(3) as u32,
            _ => self.rng.below(100_000) as u32,
        };
        let [volt, charge, discharge, silence, sensor, interface] = limits.map(|limit| limit as u32);
        let limits = Limits { volt, charge, discharge, silence, sensor, interface };
        self.posts[post] = Some(Sketch::new(channel, limits, now));
        self.busy = post;
    }

    fn set_up_line(&mut self, post: u64, channel: u64, limits: [u64; 6]) -> String {
        let mut said = &limits[..];
        for place in NEED_NO_SAYING {
            if said.len() == place + 1 && said[place] == 0 && self.rng.chance(60) {
                said = &said[..place];
            }
        }
        let said: Vec<String> = said.iter().map(u64::to_string).collect();
        format!("setup {post} {channel} {}", said.join(" "))
    }
}
