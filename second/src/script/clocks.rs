//! Clocks that come round: silences of weeks, and traffic that goes on just before the round.

use super::kinds::signs_of_life;
use super::messages::{aimed, any};
use super::traffic::{note, of_page, tick};
use super::Generator;
use crate::clock::{as_received, EARLIER, ROUND};
use crate::pages::Kind;

/// The longest step that is not refused.
const LONGEST: u64 = EARLIER - 1;

impl Generator {
    /// Ticks with nothing between them, up to around the largest age or beyond the limits of silence a round later; then the
    /// record.
    pub fn long_silence(&mut self) -> String {
        let last = self.rng.pick(&[0, 1, 1, 2, 2, 50, 100, 202, LONGEST]);
        let first = self.rng.pick(&[LONGEST, LONGEST, LONGEST - 1, 1_000_000_000]);
        self.ticks(&[first, LONGEST, last])
    }

    /// Up to shortly before the round, so that what comes next goes across it: a batch at times, or a tick and one that is too
    /// late for its time.
    pub fn round(&mut self) -> String {
        let Some(post) = &self.posts[self.busy] else {
            return self.astray();
        };
        let left = ROUND - post.now % ROUND;
        let short = self.rng.pick(&[1, 1, 2, 50, 150, 300]).min(left);
        let (third, rest) = ((left - short) / 3, (left - short) % 3);
        let first = self.ticks(&[third, third, third + rest]);
        match self.rng.below(10) {
            0..=2 => {
                let batch = self.batch();
                self.following.push_back(batch);
            }
            3 | 4 => self.back_across(),
            _ => {}
        }
        first
    }

    /// A tick at the round or shortly behind it, and then one of before it, and one at half the range.
    fn back_across(&mut self) {
        let (behind, before) = (self.rng.below(3), 1 + self.rng.below(3));
        if let Some(post) = &mut self.posts[self.busy] {
            let round = (post.now / ROUND + 1) * ROUND;
            let now = round + behind;
            note(post, now, None);
            self.following.extend([now, round - before, now + EARLIER].map(|time| tick(post.channel, time)));
        }
    }

    /// A frame at once, so that the post's clock is where it is thought to be, a tick after each of the silences, and the record;
    /// mostly signs of life then, so that other silences begin.
    fn ticks(&mut self, silences: &[u64]) -> String {
        let Some(post) = &mut self.posts[self.busy] else {
            return self.astray();
        };
        let page = Kind::ChargeControl1.page();
        let first = of_page(post.channel, as_received(post.now), page, &any(&mut self.rng, page).bytes());
        for silence in silences {
            let time = post.now + silence;
            note(post, time, None);
            self.following.push_back(tick(post.channel, time));
        }
        self.following.push_back(format!("record {}", self.busy));
        for kind in signs_of_life(post.limits.interface) {
            if self.rng.chance(70) {
                let message = aimed(&mut self.rng, kind, post);
                note(post, post.now, Some(&message));
                self.following.push_back(of_page(post.channel, as_received(post.now), kind.page(), &message.bytes()));
            }
        }
        first
    }
}
