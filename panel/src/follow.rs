//! Following the night log: whole records go to the library, batch by batch, and what it answers is kept where it is a finding.

use crate::library::{self, Depot, Found, Refusal, BATCH_BYTES, CHANNELS, FINDINGS, POSTS};
use crate::log::{Log, Lost};
use crate::words;

/// A record has four bytes at least.
const RECORDS: usize = BATCH_BYTES / 4;

/// How the log stands.
#[derive(Clone, Debug, PartialEq, Eq)]
pub enum Stand {
    /// Read to its end, but for so many bytes: the beginning of a record, whose rest is waited for.
    Whole {
        piece: u64,
    },
    /// There is more to read.
    Within,
    /// The record that begins there is malformed, and nothing behind it can be told.
    Malformed(Refusal),
    Lost(Lost),
}

/// The answer to an accepted frame or tick that has a finding.
#[derive(Clone, Copy, Debug, PartialEq, Eq)]
pub struct Finding {
    /// Finding k is bit k - 1.
    pub word: u32,
    /// As received.
    pub time: u32,
    /// The post's own time of it, which does not come round.
    moment: u64,
}

/// What the library's answers told of a post: no look-up has it.
#[derive(Clone, Copy, Debug, Default, PartialEq, Eq)]
pub struct Told {
    /// ms since the post's first accepted frame or tick; 02, Req 09: "the wrapped difference" of each two.
    moment: u64,
    time: Option<u32>,
    latest: Option<Finding>,
    each: [Option<Finding>; FINDINGS],
}

impl Told {
    fn hear(&mut self, word: u32, time: u32) {
        self.moment += u64::from(time.wrapping_sub(self.time.unwrap_or(time)));
        self.time = Some(time);
        if word == 0 {
            return;
        }
        let finding = Finding { word, time, moment: self.moment };
        self.latest = Some(finding);
        for (bit, each) in self.each.iter_mut().enumerate() {
            if word >> bit & 1 == 1 {
                *each = Some(finding);
            }
        }
    }

    /// The latest answer with a finding.
    pub fn latest(&self) -> Option<Finding> {
        self.latest
    }

    /// The latest answer that had finding `number`, from 1 on.
    pub fn finding(&self, number: usize) -> Option<Finding> {
        self.each[number - 1]
    }

    /// How old it is as of the post's latest accepted frame or tick.
    pub fn age(&self, finding: Finding) -> u64 {
        self.moment - finding.moment
    }
}

pub struct Follower {
    pub depot: Depot,
    pub log: Log,
    pub stand: Stand,
    /// The records that were fed.
    pub records: u64,
    pub told: [Told; POSTS],
    /// The post that accepted the latest accepted record.
    pub latest: Option<usize>,
    holders: [Option<usize>; CHANNELS],
    words: Vec<u32>,
    heard: Vec<(u32, u32)>,
}

/// What a step brought.
#[derive(Clone, Copy, Debug, Default, PartialEq, Eq)]
pub struct Step {
    /// There is more to read.
    pub more: bool,
    /// A finding, or another stand of the log.
    pub news: bool,
}

impl Follower {
    /// Posts are set up before the first record.
    pub fn new(depot: Depot, log: Log) -> Follower {
        let holders = std::array::from_fn(|channel| depot.holder(channel as u32));
        Follower {
            depot,
            log,
            stand: Stand::Within,
            records: 0,
            told: [Told::default(); POSTS],
            latest: None,
            holders,
            words: vec![0; RECORDS],
            heard: Vec::with_capacity(RECORDS),
        }
    }

    pub fn is_stopped(&self) -> bool {
        matches!(self.stand, Stand::Malformed(_) | Stand::Lost(_))
    }

    /// Feeds the whole records of the next piece of the log.
    pub fn step(&mut self) -> Step {
        if self.is_stopped() {
            return Step::default();
        }
        let (fed, found, stand) = match self.log.piece() {
            Err(lost) => (0, false, Stand::Lost(lost)),
            Ok((bytes, more)) => {
                let mut feed = Feed {
                    depot: &mut self.depot,
                    told: &mut self.told,
                    latest: &mut self.latest,
                    records: &mut self.records,
                    holders: &self.holders,
                    words: &mut self.words,
                    heard: &mut self.heard,
                    found: false,
                };
                let (fed, end) = feed.piece(bytes);
                let stand = match end {
                    Err(refusal) => Stand::Malformed(refusal),
                    Ok(()) if more => Stand::Within,
                    Ok(()) => Stand::Whole { piece: (bytes.len() - fed) as u64 },
                };
                (fed, feed.found, stand)
            }
        };
        self.log.fed(fed);
        let news = found || self.stand != stand;
        self.stand = stand;
        Step { more: self.stand == Stand::Within, news }
    }

    /// Why the feeding stopped, with the byte.
    pub fn trouble(&self) -> Option<String> {
        let at = self.log.at();
        match &self.stand {
            Stand::Malformed(Refusal(n)) => Some(format!("malformed from byte {at} on, R{n}: {}", words::refusal(*n))),
            Stand::Lost(lost) => Some(lost.words(at)),
            _ => None,
        }
    }
}

/// A piece of the log on its way to the table.
struct Feed<'a> {
    depot: &'a mut Depot,
    told: &'a mut [Told; POSTS],
    latest: &'a mut Option<usize>,
    records: &'a mut u64,
    holders: &'a [Option<usize>; CHANNELS],
    words: &'a mut [u32],
    heard: &'a mut Vec<(u32, u32)>,
    found: bool,
}

impl Feed<'_> {
    /// How many bytes were whole records and are fed, and the refusal of a malformed one behind them.
    fn piece(&mut self, bytes: &[u8]) -> (usize, Result<(), Refusal>) {
        let mut from = 0;
        loop {
            let (to, end) = self.run(bytes, from);
            if to > from {
                // whole records, and room for each: what the library refuses here is told like a malformed one
                match self.depot.batch(&bytes[from..to], self.words) {
                    Ok(count) => self.answered(count),
                    Err(refusal) => return (from, Err(refusal)),
                }
            }
            match end {
                Found::Record { .. } => from = to,
                Found::End | Found::Piece => return (to, Ok(())),
                Found::Malformed(refusal) => return (to, Err(refusal)),
            }
        }
    }

    /// The end of as many whole records as a batch takes, and what stands there.
    fn run(&mut self, bytes: &[u8], from: usize) -> (usize, Found) {
        self.heard.clear();
        let mut at = from;
        loop {
            let found = library::log_record(bytes, at);
            match found {
                Found::Record { channel, time, next } if next - from <= BATCH_BYTES => {
                    self.heard.push((channel, time));
                    at = next;
                }
                _ => return (at, found),
            }
        }
    }

    fn answered(&mut self, count: usize) {
        *self.records += count as u64;
        for (word, (channel, time)) in self.words[..count].iter().zip(self.heard.iter()) {
            let Some(post) = self.holders[*channel as usize] else {
                continue;
            };
            if *word < library::REFUSED {
                self.told[post].hear(*word, *time);
                *self.latest = Some(post);
                self.found |= *word != 0;
            }
        }
    }
}

#[cfg(test)]
mod tests {
    use super::*;
    use crate::posts;
    use std::io::Write;
    use std::path::PathBuf;

    struct Room(PathBuf);

    impl Room {
        fn new(name: &str) -> Room {
            let folder = std::env::temp_dir().join(format!("panel-{}-{name}", std::process::id()));
            std::fs::create_dir_all(&folder).unwrap();
            std::fs::write(folder.join("log"), []).unwrap();
            Room(folder)
        }

        fn log(&self) -> PathBuf {
            self.0.join("log")
        }

        fn append(&self, bytes: &[u8]) {
            std::fs::OpenOptions::new().append(true).open(self.log()).unwrap().write_all(bytes).unwrap();
        }

        fn follower(&self) -> Follower {
            let mut depot = Depot::default();
            posts::set_up_all(&mut depot, b"setup 0 4 5000 1000 500 500\nsetup 5 5 5000 1000 500 500\n").unwrap();
            Follower::new(depot, Log::open(self.log().into()).unwrap())
        }
    }

    impl Drop for Room {
        fn drop(&mut self) {
            std::fs::remove_dir_all(&self.0).unwrap();
        }
    }

    const TICK: [u8; 4] = [10, 4, 0, 9];
    /// F3 and F4 at 20 ms on channel 4.
    const CLOSED: [u8; 13] = [20, 4, 0x87, 0xc0, 0x35, 7, 0xa0, 0x0f, 0, 0, 0, 0, 0x48];

    #[test]
    fn a_piece_is_waited_for() {
        let room = Room::new("piece");
        let mut follower = room.follower();
        assert_eq!(follower.step(), Step { more: false, news: true });
        assert_eq!(follower.step(), Step { more: false, news: false });
        room.append(&TICK);
        assert_eq!(follower.step(), Step { more: false, news: false });
        room.append(&CLOSED[..5]);
        assert!(follower.step().news);
        assert_eq!((follower.records, follower.log.at(), follower.stand.clone()), (1, 4, Stand::Whole { piece: 5 }));
        room.append(&CLOSED[5..]);
        assert!(follower.step().news);
        assert_eq!((follower.records, follower.stand.clone()), (2, Stand::Whole { piece: 0 }));
        let latest = follower.told[0].latest().unwrap();
        assert_eq!((latest.word, latest.time, follower.latest), (12, 20, Some(0)));
        assert_eq!(follower.told[5], Told::default());
        assert_eq!(follower.depot.counts(0).unwrap()[..5], [2, 0, 0, 1, 1]);
    }

    /// `nightlog` cuts a piece off and goes on there: nothing that was fed is gone.
    #[test]
    fn a_piece_that_is_cut_off() {
        let room = Room::new("cut");
        let mut follower = room.follower();
        room.append(&TICK);
        room.append(&CLOSED[..5]);
        follower.step();
        std::fs::OpenOptions::new().write(true).open(room.log()).unwrap().set_len(4).unwrap();
        follower.step();
        assert_eq!(follower.stand, Stand::Whole { piece: 0 });
        room.append(&[11, 4, 0, 9]);
        follower.step();
        assert_eq!((follower.records, follower.depot.look_up(0).unwrap().time), (2, 11));
    }

    #[test]
    fn a_malformed_record_stops_it() {
        let room = Room::new("malformed");
        let mut follower = room.follower();
        room.append(&TICK);
        room.append(&[10, 32, 0, 9]);
        room.append(&TICK);
        assert_eq!(follower.step(), Step { more: false, news: true });
        assert_eq!((follower.records, follower.stand.clone()), (1, Stand::Malformed(Refusal(17))));
        assert_eq!(follower.trouble().unwrap(), "malformed from byte 4 on, R17: a channel above 31 in a log record");
        room.append(&TICK);
        assert_eq!(follower.step(), Step::default());
        assert_eq!(follower.records, 1);
    }

    #[test]
    fn another_log() {
        for (name, wanted) in [("shorter", Lost::Shorter(4)), ("replaced", Lost::Replaced), ("changed", Lost::Changed)]
        {
            let room = Room::new(name);
            let mut follower = room.follower();
            room.append(&TICK);
            room.append(&TICK);
            follower.step();
            match wanted {
                Lost::Replaced => {
                    std::fs::write(room.0.join("new"), [TICK, TICK, TICK].concat()).unwrap();
                    std::fs::rename(room.0.join("new"), room.log()).unwrap();
                }
                Lost::Changed => std::fs::write(room.log(), [[9, 4, 0, 9], TICK, TICK].concat()).unwrap(),
                _ => std::fs::write(room.log(), TICK).unwrap(),
            }
            assert!(follower.step().news);
            assert_eq!(follower.stand, Stand::Lost(wanted));
            room.append(&TICK);
            follower.step();
            assert_eq!(follower.records, 2);
        }
    }

    /// Longer than a piece that is read, and than any batch.
    #[test]
    fn a_long_log() {
        let room = Room::new("long");
        let mut follower = room.follower();
        room.append(&[TICK; 50_000].concat());
        room.append(&CLOSED);
        let mut steps = 1;
        while follower.step().more {
            steps += 1;
        }
        assert_eq!((steps, follower.records, follower.stand.clone()), (4, 50_001, Stand::Whole { piece: 0 }));
        assert_eq!(follower.depot.counts(0).unwrap()[0], 50_001);
    }

    /// 02, Req 09: after 4,294,967,290 a time of 5 is 11 ms later; and a finding's age goes on beyond a round.
    #[test]
    fn ages_across_rounds() {
        let mut told = Told::default();
        told.hear(2, 4_294_967_290);
        told.hear(0, 5);
        let finding = told.latest().unwrap();
        assert_eq!((finding.time, told.age(finding)), (4_294_967_290, 11));
        for time in [2_000_000_000, 4_000_000_000, 1_000_000_000] {
            told.hear(0, time);
        }
        assert_eq!(told.age(finding), 6 + (1 << 32) + 1_000_000_000);
        assert_eq!((told.finding(2), told.finding(1)), (Some(finding), None));
    }
}
