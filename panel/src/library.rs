//! The proved library through its C interface: a depot's table and what is looked up in it.

#[path = "../../tests/rust/ffi.rs"]
#[rustfmt::skip]
mod ffi;

use ffi::*;
pub use ffi::{BATCH_BYTES, CHANNELS, COUNTS, FINDINGS, KINDS, POSTS, REFUSED, SIGNALS};

/// A refusal's number.
#[derive(Clone, Copy, Debug, PartialEq, Eq)]
pub struct Refusal(pub u32);

fn accepted(word: u32) -> Result<u32, Refusal> {
    match refusal(word) {
        0 => Ok(word),
        number => Err(Refusal(number)),
    }
}

/// A post's set-up, as a line of POSTS tells it.
#[derive(Clone, Copy, Debug, PartialEq, Eq)]
pub struct SetUp {
    pub post: u32,
    pub channel: u32,
    pub voltage: u32,
    pub charge: u32,
    pub discharge: u32,
    pub silence: u32,
    pub sensor: u32,
    pub interface: u32,
}

/// What `rokemaipu_look_up` puts, in its order.
#[derive(Clone, Copy, Debug, PartialEq, Eq)]
pub struct Numbers {
    pub channel: u32,
    pub voltage: u32,
    pub charge: u32,
    pub discharge: u32,
    pub silence: u32,
    pub sensor: u32,
    pub heard: bool,
    pub time: u32,
    pub opened: bool,
    pub since: u32,
    pub protocol: u32,
    pub plug: u32,
    pub since_age: u32,
    pub interface: u32,
}

/// A frame that a post keeps, as it came.
#[derive(Clone, Debug, PartialEq, Eq)]
pub struct Kept {
    pub kind: u32,
    pub time: u32,
    pub age: u32,
    pub bytes: Vec<u8>,
}

/// What an open session keeps.
#[derive(Clone, Copy, Debug, PartialEq, Eq)]
pub enum Part {
    Status = 0,
    Control = 1,
    Stop = 2,
}

/// Document 000's pages, or 001's.
pub const OLDER: u32 = 1;
/// The yes/no sensor.
pub const YES_NO: u32 = 1;

pub struct Depot {
    table: Box<Table>,
}

/// Whether the library that was linked has the table of these declarations; with another one no table may be lent.
pub fn is_ours() -> bool {
    unsafe { rokemaipu_layout() == LAYOUT }
}

impl Default for Depot {
    fn default() -> Depot {
        Depot { table: Box::new(Table::empty()) }
    }
}

type Look = unsafe extern "C" fn(*const Table, u32, u32, *mut u32, usize, *mut u8, usize) -> u32;

impl Depot {
    pub fn set_up(&mut self, s: SetUp) -> Result<(), Refusal> {
        let word = unsafe {
            rokemaipu_set_up(
                &mut *self.table,
                s.post,
                s.channel,
                s.voltage,
                s.charge,
                s.discharge,
                s.silence,
                s.sensor,
                s.interface,
            )
        };
        accepted(word).map(|_| ())
    }

    /// Whole records of a log, at most `BATCH_BYTES`: how many they were. The word of each goes to its place.
    pub fn batch(&mut self, records: &[u8], words: &mut [u32]) -> Result<usize, Refusal> {
        let word = unsafe {
            rokemaipu_batch(&mut *self.table, records.as_ptr(), records.len(), words.as_mut_ptr(), words.len())
        };
        accepted(word).map(|count| count as usize)
    }

    /// The post that holds a channel.
    pub fn holder(&self, channel: u32) -> Option<usize> {
        accepted(unsafe { rokemaipu_holder(&*self.table, channel) }).ok().map(|post| post as usize)
    }

    /// `None` where the post is not set up.
    pub fn look_up(&self, post: u32) -> Option<Numbers> {
        let mut n = [0; NUMBERS];
        accepted(unsafe { rokemaipu_look_up(&*self.table, post, n.as_mut_ptr(), n.len()) }).ok()?;
        Some(Numbers {
            channel: n[0],
            voltage: n[1],
            charge: n[2],
            discharge: n[3],
            silence: n[4],
            sensor: n[5],
            heard: n[6] == 1,
            time: n[7],
            opened: n[8] == 1,
            since: n[9],
            protocol: n[10],
            plug: n[11],
            since_age: n[12],
            interface: n.get(13).copied().unwrap_or(0),
        })
    }

    /// In place 0 the accepted frames and ticks, in place k those that had finding k.
    pub fn counts(&self, post: u32) -> Option<[u32; COUNTS]> {
        let mut counts = [0; COUNTS];
        accepted(unsafe { rokemaipu_counts(&*self.table, post, counts.as_mut_ptr(), COUNTS) }).ok().map(|_| counts)
    }

    /// How many frames and ticks were refused since the table was made.
    pub fn refused(&self) -> u32 {
        unsafe { rokemaipu_refused(&*self.table) }
    }

    /// The latest frame of a kind that the post accepted since set-up.
    pub fn latest(&self, post: u32, kind: u32) -> Option<Kept> {
        self.kept(rokemaipu_latest, post, kind, kind)
    }

    /// The latest of the open session.
    pub fn in_session(&self, post: u32, part: Part) -> Option<Kept> {
        let usual = match part {
            Part::Status => 0,
            Part::Control => 5,
            Part::Stop => 7,
        };
        self.kept(rokemaipu_in_session, post, part as u32, usual)
    }

    fn kept(&self, look: Look, post: u32, which: u32, usual: u32) -> Option<Kept> {
        let (mut times, mut bytes) = ([0; TIMES], vec![0; 8]);
        let word = unsafe {
            look(&*self.table, post, which, times.as_mut_ptr(), times.len(), bytes.as_mut_ptr(), bytes.len())
        };
        let size = accepted(word).ok()? as usize;
        bytes.truncate(size);
        let kind = times.get(2).copied().unwrap_or(usual);
        (size > 0).then_some(Kept { kind, time: times[0], age: times[1], bytes })
    }
}

/// What stands at a byte of a log.
#[derive(Clone, Copy, Debug, PartialEq, Eq)]
pub enum Found {
    Record { channel: u32, time: u32, next: usize },
    End,
    Piece,
    Malformed(Refusal),
}

pub fn log_record(log: &[u8], at: usize) -> Found {
    let mut entry = [0; ENTRY_NUMBERS];
    match unsafe { rokemaipu_log_record(log.as_ptr(), log.len(), at, entry.as_mut_ptr(), ENTRY_NUMBERS) } {
        0 => Found::Record { time: entry[1] as u32, channel: entry[2] as u32, next: entry[7] as usize },
        1 => Found::End,
        2 => Found::Piece,
        word => Found::Malformed(Refusal(refusal(word))),
    }
}

/// The kind of a frame and the raw numbers of its signals, by the pages of 001 where `older`, else by 000's; 004's are in both.
pub fn read(older: bool, id: u32, extended: bool, payload: &[u8]) -> Result<(u32, [i64; SIGNALS]), Refusal> {
    let mut raws = [0; SIGNALS];
    let reader = if older { rokemaipu_read_older } else { rokemaipu_read };
    let word = unsafe { reader(id, extended, payload.as_ptr(), payload.len(), raws.as_mut_ptr(), SIGNALS) };
    accepted(word).map(|kind| (kind, raws))
}

/// A probe's degrees, `None` where it is not used.
pub fn probe(raw: i16) -> Option<f32> {
    unsafe { rokemaipu_probe_used(raw).then(|| rokemaipu_probe_degrees(raw)) }
}

/// A duty's raw number, held to 1,000.
pub fn limited_duty(raw: u16) -> u16 {
    unsafe { rokemaipu_limited_duty(raw) }
}
