//! Nights to replay, each with posts of its own: whole, cut and malformed, and with set-ups that are refused.

use super::logs::bad_record;
use super::Generator;
use crate::clock::ROUND;
use crate::desk;
use crate::fields::hex;
use crate::log;
use crate::posts::Arrival;

impl Generator {
    pub fn replay(&mut self) -> String {
        let mut night = Generator::new(self.rng.next(), self.extras);
        let set_ups = night.night_set_ups().join(";");
        night.shortly_before_the_round();
        let log = night.night_log();
        format!("replay {} {}", hex(&log), if set_ups.is_empty() { "-" } else { &set_ups })
    }

    fn night_set_ups(&mut self) -> Vec<String> {
        let count = self.rng.pick(&[0, 1, 1, 1, 2, 2, 3, 5]);
        let refused = self.rng.pick(&[0, 0, 0, 0, 0, 0, 0, 0, 0, 1, 1, 2, 3]);
        let mut set_ups: Vec<String> = (0..count).map(|_| self.night_set_up()).collect();
        for _ in 0..refused {
            let at = self.rng.below(set_ups.len() as u64 + 1) as usize;
            set_ups.insert(at, fields(&self.refused_set_up()));
        }
        set_ups
    }

    /// Now and then of a post that has its set-up already.
    fn night_set_up(&mut self) -> String {
        let line = match self.posts.iter().position(Option::is_some) {
            Some(post) if self.rng.chance(20) => self.set_up_post(post as u64),
            _ => self.set_up(),
        };
        fields(&line)
    }

    /// Now and then, so that the night goes across it.
    fn shortly_before_the_round(&mut self) {
        if self.rng.chance(20) {
            let short = self.rng.pick(&[1, 1, 2, 50, 150, 300]);
            self.posts.iter_mut().flatten().for_each(|post| post.now = ROUND - short);
        }
    }

    fn night_log(&mut self) -> Vec<u8> {
        let count = self.rng.pick(&[0, 1, 1, 2, 3, 5, 8, 13, 20, 40]);
        let mut records: Vec<Vec<u8>> = (0..count).filter_map(|_| self.night_record()).collect();
        let fate = self.rng.below(10);
        if fate < 3 {
            let at = self.rng.below(records.len() as u64 + 1) as usize;
            records.insert(at, bad_record(&mut self.rng).0);
        }
        let mut log = records.concat();
        if (3..6).contains(&fate) {
            log.truncate(self.rng.below(log.len() as u64 + 1) as usize);
        }
        log
    }

    /// `None` where the log cannot hold what comes.
    pub fn night_record(&mut self) -> Option<Vec<u8>> {
        let line = match self.rng.below(12) {
            0..=2 => self.refused(),
            3 => self.astray(),
            4 => self.of_the_other_interface(),
            _ => self.traffic(),
        };
        let (mut payload, mut room) = (Vec::new(), [0; 20]);
        let words: Vec<&[u8]> = line.as_bytes().split(|&byte| byte == b' ').collect();
        let record: Arrival = desk::arrival(&words, &mut payload)?;
        log::write(&record, &mut room).ok().map(|length| room[..length].to_vec())
    }
}

/// A set-up's line as a part of `SETUPS`.
fn fields(line: &str) -> String {
    line.trim_start_matches("setup ").replace(' ', ",")
}
