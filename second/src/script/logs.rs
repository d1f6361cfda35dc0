//! Night logs to read: whole, cut, damaged, and with each part bad in each way; and records to write.

use super::stateless::buffer;
use super::Generator;
use crate::fields::{form, hex};
use crate::log;
use crate::posts::{Arrival, Frame};
use crate::rng::Rng;

const CHANNELS_BEYOND: [u32; 6] = [32, 32, 33, 127, 128, u32::MAX];
const STANDARD_BEYOND: [u32; 5] = [2048, 2048, 2049, 1 << 29, i32::MAX as u32];
const EXTENDED_BEYOND: [u32; 4] = [1 << 29, 1 << 29, (1 << 29) + 1, i32::MAX as u32];
const LENGTHS_BEYOND: [u64; 10] = [9, 9, 9, 9, 10, 10, 11, 127, 128, u32::MAX as u64];

/// Bytes that are often a whole part, or that many parts end or go on with.
const TELLING: [u8; 14] = [0, 0, 0, 0, 1, 2, 8, 9, 10, 31, 32, 0x7f, 0x80, 0xff];

impl Generator {
    pub fn log_read(&mut self) -> String {
        let rng = &mut self.rng;
        let log = match rng.below(20) {
            0..=9 => with_a_bad_record(rng),
            10 => noise(rng),
            11..=13 => cut(rng),
            14..=16 => damaged(rng),
            _ => several(rng),
        };
        format!("logr {}", hex(&log))
    }

    /// A record to write, with nothing wrong, one thing or several, and a buffer of any sort.
    pub fn log_write(&mut self) -> String {
        let rng = &mut self.rng;
        let flaws = rng.pick(&[0, 0, 0, 0, 0, 0, 1, 1, 2, 2, 2, 2, 4, 4, 4, 3, 5, 6, 7]);
        let (time, channel) = (time(rng), if flaws & 1 != 0 { rng.pick(&CHANNELS_BEYOND) } else { channel(rng) });
        if rng.chance(15) {
            let buffer = buffer(rng, log::bytes(&Arrival { channel, time, frame: None }).len());
            return format!("logw t {time} {channel} {}", hex(&buffer));
        }
        let extended = rng.chance(50);
        let id = match extended {
            _ if flaws & 2 == 0 => identifier(rng, extended),
            _ if rng.chance(10) => u32::MAX,
            false => rng.pick(&STANDARD_BEYOND),
            true => rng.pick(&EXTENDED_BEYOND),
        };
        let length = if flaws & 4 != 0 { rng.pick(&[9, 9, 10, 11, 64, 128, 300]) } else { rng.below(9) };
        let payload = rng.bytes(length as usize);
        let frame = Some(Frame { id, extended, bytes: &payload });
        let buffer = buffer(rng, log::bytes(&Arrival { channel, time, frame }).len());
        format!("logw f {time} {channel} {id:x} {} {} {}", form(extended), hex(&payload), hex(&buffer))
    }
}

fn several(rng: &mut Rng) -> Vec<u8> {
    let count = rng.pick(&[0, 1, 1, 2, 2, 3, 4, 6]);
    (0..count).flat_map(|_| good_record(rng)).collect()
}

fn noise(rng: &mut Rng) -> Vec<u8> {
    let length = rng.below(30);
    (0..length).map(|_| rng.pick(&TELLING)).collect()
}

fn cut(rng: &mut Rng) -> Vec<u8> {
    let mut log = several(rng);
    log.truncate(rng.below(log.len() as u64 + 1) as usize);
    log
}

/// Good records, a bad one, and behind it good ones, or a cut at the end of the bad part or close to it.
fn with_a_bad_record(rng: &mut Rng) -> Vec<u8> {
    let mut log = if rng.chance(40) { Vec::new() } else { several(rng) };
    let (record, bad) = bad_record(rng);
    let behind = log.len() + bad;
    log.extend(record);
    match rng.below(10) {
        0..=2 => log.truncate(behind),
        3 => log.truncate(behind + 1),
        4 => log.truncate(behind - 1),
        5 | 6 => log.extend(several(rng)),
        _ => {}
    }
    log
}

/// A record with a bad part or two, and the byte behind one of them.
pub fn bad_record(rng: &mut Rng) -> (Vec<u8>, usize) {
    let mut parts = parts(rng);
    let place = rng.pick(&[0, 1, 2, 2, 2, 3, 3, 3, 3]);
    parts[place] = bad_part(rng, place);
    if place == 3 && rng.chance(40) {
        // Close to a tick's 0, for length 9.
        parts[2] = vec![rng.pick(&[1, 1, 2, 3, 126])];
    }
    if rng.chance(25) {
        let other = rng.below(4) as usize;
        parts[other] = bad_part(rng, other);
    }
    (parts.concat(), parts[..=place].concat().len())
}

/// A record that the log can hold.
pub fn good_record(rng: &mut Rng) -> Vec<u8> {
    parts(rng).concat()
}

/// The five parts of a record that the log can hold.
fn parts(rng: &mut Rng) -> [Vec<u8>; 5] {
    let (time, channel) = (u64::from(time(rng)), u64::from(channel(rng)));
    if rng.chance(20) {
        return [log::groups(time), log::groups(channel), vec![0], vec![9], Vec::new()];
    }
    let extended = rng.chance(50);
    let identifier = u64::from(identifier(rng, extended)) * 2 + u64::from(extended);
    let length = rng.below(9);
    let payload = if rng.chance(30) { vec![rng.pick(&TELLING); length as usize] } else { rng.bytes(length as usize) };
    [log::groups(time), log::groups(channel), log::groups(identifier), log::groups(length), payload]
}

/// Time, channel, identifier and length as no record has them; but length 9 is only bad with an identifier other than 0.
fn bad_part(rng: &mut Rng, place: usize) -> Vec<u8> {
    if place == 0 || rng.chance(15) {
        return ill_formed(rng);
    }
    log::groups(match place {
        1 => u64::from(rng.pick(&CHANNELS_BEYOND)),
        2 if rng.chance(50) => u64::from(rng.pick(&STANDARD_BEYOND)) * 2,
        2 => u64::from(rng.pick(&EXTENDED_BEYOND)) * 2 + 1,
        _ => rng.pick(&LENGTHS_BEYOND),
    })
}

/// A number over 32 bits, of more than five groups, or longer than it need be.
fn ill_formed(rng: &mut Rng) -> Vec<u8> {
    match rng.below(4) {
        0 => log::groups(rng.pick(&[1 << 32, (1 << 32) + 1, 1 << 33, (1 << 35) - 1])),
        1 => {
            let mut groups = log::groups(rng.pick(&[1 << 35, (1 << 35) + 5, u64::MAX]));
            // The fifth group decides already, also where the sixth is cut off.
            groups.truncate(rng.pick(&[5, 5, 6, 10]));
            groups
        }
        _ => {
            let mut groups = log::groups(u64::from(time(rng)));
            let length = rng.pick(&[0, 0, 5, 5, 6]).max(groups.len() + 1);
            groups.resize(length, 0);
            groups[..length - 1].iter_mut().for_each(|group| *group |= 0x80);
            groups
        }
    }
}

/// One byte changed, put in or taken out.
fn damaged(rng: &mut Rng) -> Vec<u8> {
    let mut log = several(rng);
    let byte = if rng.chance(50) { rng.pick(&TELLING) } else { rng.next() as u8 };
    let at = rng.below(log.len() as u64 + 1) as usize;
    match rng.below(4) {
        0 => log.insert(at, byte),
        _ if at == log.len() => {}
        1 => drop(log.remove(at)),
        2 => log[at] ^= 1 << rng.below(8),
        _ => log[at] = byte,
    }
    log
}

/// Times of one group to five, and both sides of where a group begins.
fn time(rng: &mut Rng) -> u32 {
    let bits = rng.pick(&[7, 14, 21, 28, 32]);
    let above = (1_u64 << bits) - rng.pick(&[0, 1, 1, 2]);
    let time = if rng.chance(50) { above } else { rng.below(above) };
    u32::try_from(time).unwrap_or(u32::MAX)
}

fn channel(rng: &mut Rng) -> u32 {
    if rng.chance(30) {
        rng.pick(&[0, 31])
    } else {
        rng.below(32) as u32
    }
}

/// Identifier parts, which are twice these, of one group to five.
fn identifier(rng: &mut Rng, extended: bool) -> u32 {
    let (edges, most): (&[u32], u64) = if extended {
        (
            &[0, 1, 63, 64, 2047, 2048, 8191, 8192, 0x6b000, (1 << 27) - 1, 1 << 27, (1 << 29) - 1, (1 << 29) - 1],
            1 << 29,
        )
    } else {
        (&[0, 0, 1, 63, 64, 2046, 2047, 2047], 2048)
    };
    if rng.chance(60) {
        rng.pick(edges)
    } else {
        rng.below(most) as u32
    }
}
