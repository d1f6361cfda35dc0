//! Seeded desk scripts that go to the edges of 01 on posts of both interfaces, of the log, of its replay and of two of them
//! compared.

mod batches;
mod clocks;
mod kinds;
mod logs;
mod malformed;
mod messages;
mod recordings;
mod replays;
mod setups;
mod sketch;
mod stateless;
mod traffic;

use std::collections::VecDeque;

use crate::desk::is_step;
use crate::posts::POSTS;
use crate::rng::Rng;
use sketch::Sketch;

/// What a script may hold beside the steps of the base.
#[derive(Clone, Copy, Default)]
pub struct Extras {
    pub explain: bool,
}

/// A script of that many steps; comments and blank lines come on top.
pub fn script(seed: u64, steps: usize, extras: Extras) -> Vec<Vec<u8>> {
    let mut generator = Generator::new(seed, extras);
    // The one place where surely nothing was refused, and nobody set up.
    let mut lines = vec![b"refused".to_vec(), b"index".to_vec()];
    let mut written = 2;
    while written < steps {
        let line = generator.line();
        written += usize::from(is_step(&line));
        lines.push(line);
    }
    lines
}

/// Lines as a file holds them.
pub fn joined(lines: &[Vec<u8>]) -> Vec<u8> {
    lines.iter().flat_map(|line| [line.as_slice(), b"\n"].concat()).collect()
}

const STARTS: [&str; 14] =
    ["0", "8", "48", "63", "64", "255", "256", "4294967295", "4294967296", "", "048", "-1", "+8", "48:"];

struct Generator {
    rng: Rng,
    posts: [Option<Sketch>; POSTS],
    /// The post that the traffic is about just now, so that sessions get somewhere.
    busy: usize,
    /// How many of a thousand steps set up or release: scripts with long histories and with short ones.
    restless: u64,
    /// The next lines, where some have to follow at once.
    following: VecDeque<String>,
    extras: Extras,
}

#[derive(Clone, Copy)]
enum Sort {
    Traffic,
    LongSilence,
    Round,
    Refused,
    OtherInterface,
    Record,
    RefusedCount,
    Index,
    Crowd,
    SetUp,
    RefusedSetUp,
    Release,
    RefusedRelease,
    Read,
    Change,
    Write,
    Service,
    LogRead,
    LogWrite,
    Replay,
    Batch,
    Compare,
    Malformed,
    Remark,
    Explain,
}

impl Generator {
    fn new(seed: u64, extras: Extras) -> Generator {
        let mut rng = Rng::new(seed);
        let restless = rng.pick(&[6, 15, 40]);
        Generator { rng, posts: Default::default(), busy: 0, restless, following: VecDeque::new(), extras }
    }

    fn line(&mut self) -> Vec<u8> {
        if let Some(line) = self.following.pop_front() {
            return line.into_bytes();
        }
        match self.sort() {
            Sort::Traffic => {
                let line = self.traffic();
                if self.rng.chance(15) {
                    self.status_at_once();
                }
                line.into_bytes()
            }
            Sort::LongSilence => self.long_silence().into_bytes(),
            Sort::Round => self.round().into_bytes(),
            Sort::Refused => self.refused().into_bytes(),
            Sort::OtherInterface => self.of_the_other_interface().into_bytes(),
            Sort::Record => self.record().into_bytes(),
            Sort::RefusedCount => b"refused".to_vec(),
            Sort::Index => b"index".to_vec(),
            Sort::Crowd => self.crowd().into_bytes(),
            Sort::SetUp => {
                let line = self.set_up();
                // Now and then the record at once, before anything comes to the post.
                self.following.extend(self.rng.chance(20).then(|| format!("record {}", self.busy)));
                self.indexed(line)
            }
            Sort::RefusedSetUp => {
                let line = self.refused_set_up();
                self.indexed(line)
            }
            Sort::Release => {
                let line = self.release();
                self.indexed(line)
            }
            Sort::RefusedRelease => {
                let line = self.refused_release();
                self.indexed(line)
            }
            Sort::Read => self.read().into_bytes(),
            Sort::Change => self.change().into_bytes(),
            Sort::Write => self.write().into_bytes(),
            Sort::Service => self.service().into_bytes(),
            Sort::LogRead => self.log_read().into_bytes(),
            Sort::LogWrite => self.log_write().into_bytes(),
            Sort::Replay => self.replay().into_bytes(),
            Sort::Batch => self.batch().into_bytes(),
            Sort::Compare => self.compare().into_bytes(),
            Sort::Malformed => self.malformed(),
            Sort::Remark => self.remark(),
            Sort::Explain => self.explain().into_bytes(),
        }
    }

    /// A line that moves the index, or must not; now and then the index comes at once.
    fn indexed(&mut self, line: String) -> Vec<u8> {
        self.following.extend(self.rng.chance(30).then(|| "index".to_string()));
        line.into_bytes()
    }

    fn sort(&mut self) -> Sort {
        let alive = self.posts.iter().flatten().count();
        if alive < 2 && self.rng.chance(60) {
            return Sort::SetUp;
        }
        let restless = self.restless;
        let explain = if self.extras.explain { 15 } else { 0 };
        self.rng.weighted(&[
            (620, Sort::Traffic),
            (10, Sort::LongSilence),
            (25, Sort::Round),
            (60, Sort::Refused),
            (60, Sort::OtherInterface),
            (60, Sort::Record),
            (50, Sort::RefusedCount),
            (40, Sort::Index),
            (2, Sort::Crowd),
            (restless, Sort::SetUp),
            (35, Sort::RefusedSetUp),
            (restless / 4 + 2, Sort::Release),
            (10, Sort::RefusedRelease),
            (150, Sort::Read),
            (120, Sort::Change),
            (150, Sort::Write),
            (50, Sort::Service),
            (60, Sort::LogRead),
            (35, Sort::LogWrite),
            (75, Sort::Replay),
            (80, Sort::Batch),
            (105, Sort::Compare),
            (45, Sort::Malformed),
            (12, Sort::Remark),
            (explain, Sort::Explain),
        ])
    }

    /// A comment or a blank line.
    fn remark(&mut self) -> Vec<u8> {
        match self.rng.below(40) {
            0 => [b"# ".as_slice(), &[b'-'; 70_000]].concat(),
            1..=15 => Vec::new(),
            16..=25 => b"#".to_vec(),
            26..=30 => b"#tick 0 0".to_vec(),
            _ => format!("# restless {}", self.restless).into_bytes(),
        }
    }

    fn explain(&mut self) -> String {
        let number = match self.rng.below(4) {
            0 => self.rng.below(4096),
            1 => 1 << self.rng.below(14),
            2 => self.rng.pick(&[0, 2048, 4095, 4096, 4_294_967_295, 4_294_967_296]),
            _ if self.rng.chance(60) => return format!("explain R{}", self.rng.below(32)),
            _ => return self.explain_start(),
        };
        format!("explain {number}")
    }

    /// Refusal 5 with a start bit, and what only looks so.
    fn explain_start(&mut self) -> String {
        let number = if self.rng.chance(80) { 5 } else { self.rng.below(24) };
        let start = self.rng.pick(&STARTS);
        let any = self.rng.below(300).to_string();
        format!("explain R{number}:{}", if self.rng.chance(50) { start } else { &any })
    }
}

#[cfg(test)]
mod tests {
    use std::cmp::Ordering;
    use std::collections::BTreeSet;

    use super::*;
    use crate::codec;
    use crate::fields::{bytes, extended, identifier};
    use crate::pages;

    #[test]
    fn same_seed_same_script() {
        let once = script(7, 2000, Extras::default());
        assert_eq!(once, script(7, 2000, Extras::default()));
        assert_ne!(once, script(8, 2000, Extras::default()));
        assert_eq!(once.iter().filter(|line| is_step(line)).count(), 2000);
        assert!(once.iter().all(|line| !line.contains(&b'\n')));
    }

    /// The word, the page and the payload of the steps that bring a frame of the table.
    fn frames(script: &[Vec<u8>]) -> Vec<(&'static str, &'static pages::Page, Vec<u8>)> {
        let frame = |line: &Vec<u8>| {
            let fields: Vec<&[u8]> = line.split(|&byte| byte == b' ').collect();
            let (word, id, form, payload) = match fields[..] {
                [b"frame", _, _, id, form, payload] => ("frame", id, form, payload),
                [b"read" | b"read1", id, form, payload] => ("read", id, form, payload),
                [b"change" | b"change1", id, form, payload, _, _] => ("change", id, form, payload),
                _ => return None,
            };
            let (id, extended) = (identifier(id)?, extended(form)?);
            let page = pages::all().find(|page| page.id == id && page.extended == extended)?;
            Some((word, page, bytes(payload)?))
        };
        script.iter().filter_map(frame).collect()
    }

    #[test]
    fn every_message_too_short_and_too_long_by_one_byte_and_by_several() {
        let mut met = BTreeSet::new();
        for seed in 1..24 {
            for (word, page, payload) in frames(&script(seed, 8000, Extras::default())) {
                let by = payload.len().abs_diff(page.len).min(2);
                met.insert((word, page.name, payload.len().cmp(&page.len), by));
            }
        }
        for (page, word) in pages::all().flat_map(|page| [(page, "frame"), (page, "read")]) {
            for by in [1, 2] {
                let (long, short) = ((word, page.name, Ordering::Greater, by), (word, page.name, Ordering::Less, by));
                assert!(met.contains(&long), "{long:?}");
                // One byte cannot be too short by more.
                assert!(page.len < by || met.contains(&short), "{short:?}");
            }
        }
    }

    #[test]
    fn two_labels_that_offend_come_with_each_word() {
        let frames = (1..6).flat_map(|seed| frames(&script(seed, 8000, Extras::default())));
        let two = |(_, page, payload): &(_, &pages::Page, Vec<u8>)| {
            payload.len() == page.len && codec::offenders(page, payload).len() > 1
        };
        let words: BTreeSet<&str> = frames.filter(two).map(|(word, ..)| word).collect();
        assert_eq!(words, BTreeSet::from(["change", "frame", "read"]));
    }
}
