//! Pairs of recordings: the same, one with a few records fewer, more, changed, repeated or in another place than the other,
//! cut and malformed ones, and such that have as many records as there may be and more.

use super::logs::{bad_record, good_record};
use super::Generator;
use crate::desk::MOST_PLACES;
use crate::fields::hex;
use crate::log;
use crate::posts::{Arrival, Frame};
use crate::recordings::MOST;
use crate::rng::Rng;

type Records = Vec<Vec<u8>>;

impl Generator {
    pub fn compare(&mut self) -> String {
        let rng = &mut self.rng;
        let (logs, rooms) = if rng.chance(35) { faulty(rng) } else { (pair(rng), [room(rng), room(rng)]) };
        format!("compare {} {} {} {}", hex(&logs[0]), hex(&logs[1]), rooms[0], rooms[1])
    }
}

fn pair(rng: &mut Rng) -> [Vec<u8>; 2] {
    let first = if rng.chance(16) { many(rng) } else { few(rng) };
    let mut logs = [first.clone(), other(rng, first)];
    if rng.chance(50) {
        logs.reverse();
    }
    logs.map(|records| records.concat())
}

/// With one of the faults, in the order in which they are judged: broken, too many, a short list, the first side first; and
/// each of those behind it now and then.
fn faulty(rng: &mut Rng) -> ([Vec<u8>; 2], [usize; 2]) {
    let first = rng.below(6) as usize;
    let has: Vec<bool> = (0..6).map(|fault| fault == first || fault > first && rng.chance(40)).collect();
    let logs = [0, 1].map(|side| {
        let mut records = few(rng);
        if has[2 + side] {
            let count = MOST + rng.pick(&[1, 1, 88]);
            records.resize_with(count, || tick(rng));
        }
        if has[side] {
            broken(rng, records)
        } else {
            records.concat()
        }
    });
    (logs, [0, 1].map(|side| if has[4 + side] { rng.pick(&[0, 1, MOST - 1, MOST - 1]) } else { MOST }))
}

/// Few channels and few times, so that some records are the same and many share their channel.
fn few(rng: &mut Rng) -> Records {
    let count = rng.pick(&[0, 0, 0, 1, 2, 2, 3, 4, 5, 6, 8, 12, 20]);
    (0..count).map(|_| record(rng)).collect()
}

fn record(rng: &mut Rng) -> Vec<u8> {
    if rng.chance(10) {
        return good_record(rng);
    }
    let (time, channel) = (rng.below(3) as u32, rng.pick(&[0, 4, 4, 4, 5, 31]));
    let id = rng.pick(&[1, 1, 2]);
    let frame = Frame { id, extended: rng.chance(50), bytes: rng.pick(&[&[][..], &[0], &[0], &[1], &[0, 0]]) };
    log::bytes(&Arrival { channel, time, frame: rng.chance(70).then_some(frame) })
}

/// As many records as there may be, or about so.
fn many(rng: &mut Rng) -> Records {
    let count = MOST + rng.pick(&[0, 0, 0, 0, 1, 1, 88]) - usize::from(rng.chance(10));
    let alike = rng.chance(30).then(|| tick(rng));
    (0..count).map(|_| alike.clone().unwrap_or_else(|| tick(rng))).collect()
}

fn tick(rng: &mut Rng) -> Vec<u8> {
    let (time, channel) = (rng.below(8) as u32, rng.pick(&[0, 4, 5, 31]));
    log::bytes(&Arrival { channel, time, frame: None })
}

/// The other recorder's: a few records fewer, more, changed, repeated, or in another place.
fn other(rng: &mut Rng, mut records: Records) -> Records {
    if rng.chance(10) {
        return few(rng);
    }
    if records.len() >= MOST && rng.chance(40) {
        return many(rng);
    }
    if rng.chance(12) {
        // The same of each channel, but channel by channel.
        records.sort_by_key(|bytes| log::read(bytes).records[0].channel);
        return records;
    }
    if rng.chance(25) && !records.is_empty() {
        // The same records, but the first in the place of another.
        let to = rng.below(records.len() as u64) as usize;
        records[..=to].rotate_left(1);
        return records;
    }
    for _ in 0..rng.pick(&[0, 1, 1, 1, 2, 2, 3, 5]) {
        let at = rng.below(records.len() as u64 + 1) as usize;
        if at == records.len() {
            records.push(record(rng));
            continue;
        }
        match rng.below(6) {
            0 | 1 => drop(records.remove(at)),
            2 => records.insert(at, record(rng)),
            3 => records[at] = record(rng),
            4 => {
                let to = rng.below(records.len() as u64) as usize;
                records.swap(at, to);
            }
            _ => {
                let again = records[at].clone();
                let to = rng.below(records.len() as u64 + 1) as usize;
                records.insert(to, again);
            }
        }
    }
    records
}

/// Cut, or with a malformed record among the others or behind them.
fn broken(rng: &mut Rng, mut records: Records) -> Vec<u8> {
    if rng.chance(50) {
        let at = rng.below(records.len() as u64 + 1) as usize;
        let at = if rng.chance(50) { records.len() } else { at };
        records.insert(at, bad_record(rng).0);
        return records.concat();
    }
    records.push(record(rng));
    let mut bytes = records.concat();
    bytes.truncate(bytes.len() - 1 - rng.below(3) as usize);
    bytes
}

fn room(rng: &mut Rng) -> usize {
    match rng.below(40) {
        0..=4 => MOST - 1,
        5 | 6 => 0,
        7 => rng.below(MOST as u64) as usize,
        8 => MOST + 1,
        9 => MOST_PLACES as usize,
        // one more than there can be
        10 => MOST_PLACES as usize + 1,
        _ => MOST,
    }
}
