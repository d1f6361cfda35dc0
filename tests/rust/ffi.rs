//! include/rokemaipu.h in Rust: the table, the numbers and the functions. A slice goes to the library as a pointer and a length. Copy this file into a program
//! that links librokemaipu.a; main.rs holds it to the header.
#![allow(dead_code)]

pub const POSTS: usize = 16;
pub const KINDS: usize = 43;
pub const PLACES: usize = 25;
pub const FINDINGS: usize = 12;
pub const KEPT: usize = 3;
pub const SIGNALS: usize = 16;
pub const RECORD_BYTES: usize = 20;
pub const BATCH_BYTES: usize = 4096;
pub const LINE_BYTES: usize = 40;
pub const CHANNELS: usize = 32;
pub const COMPARE_RECORDS: usize = 512;
pub const COMPARED_NUMBERS: usize = 2;
pub const NUMBERS: usize = 14;
pub const TIMES: usize = 3;
pub const COUNTS: usize = 13;
pub const ENTRY_NUMBERS: usize = 8;
pub const REFUSED: u32 = 65536;
pub const NEWER: u32 = 0;
pub const OLDER: u32 = 1;

#[repr(C)]
#[derive(Clone, Copy, Debug, PartialEq)]
pub struct Slot {
    pub known: u32,
    pub kind: u32,
    pub time: u64,
    pub raw: u64,
}

#[repr(C)]
#[derive(Clone, Copy, Debug, PartialEq)]
pub struct Limits {
    pub voltage: u32,
    pub charge: u32,
    pub discharge: u32,
    pub silence: u32,
    pub sensor: u32,
    pub interface: u32,
}

#[repr(C)]
#[derive(Clone, Copy, Debug, PartialEq)]
pub struct Session {
    pub opened: u64,
    pub since: u64,
    pub first: u64,
    pub kept: [Slot; KEPT],
}

#[repr(C)]
#[derive(Clone, Copy, Debug, PartialEq)]
pub struct Head {
    pub used: u32,
    pub channel: u32,
    pub limits: Limits,
    pub heard: u32,
    pub counts: [u32; COUNTS],
    pub time: u64,
    pub controller: Slot,
    pub parameters: Slot,
    pub session: Session,
}

#[repr(C)]
#[derive(Clone, Copy, Debug, PartialEq)]
pub struct Post {
    pub head: Head,
    pub latest: [Slot; PLACES],
}

#[repr(C)]
#[derive(Clone, Copy, Debug, PartialEq)]
pub struct Table {
    pub posts: [Post; POSTS],
    pub index: [u32; CHANNELS],
    pub refused: u64,
}

#[repr(C)]
#[derive(Clone, Copy, Debug, PartialEq)]
pub struct Replay {
    pub table: Table,
    pub count: u64,
    pub course: u64,
}

/// What `rokemaipu_layout` answers where the library has this table.
pub const LAYOUT: u64 = std::mem::size_of::<Table>() as u64 + ((POSTS as u64) << 32) + ((PLACES as u64) << 40) + (7 << 48);

impl Table {
    /// Zeroed memory is the empty table.
    pub fn empty() -> Table {
        // every field is a number, and 0 is one
        unsafe { std::mem::zeroed() }
    }
}

/// The refusal's number of an answer, 0 where it was accepted.
pub fn refusal(answer: u32) -> u32 {
    if answer < REFUSED { 0 } else { answer % 256 }
}

#[link(name = "rokemaipu", kind = "static")]
extern "C" {
    pub fn rokemaipu_layout() -> u64;
    pub fn rokemaipu_start(t: *mut Table) -> u32;
    pub fn rokemaipu_set_up(t: *mut Table, post: u32, channel: u32, voltage: u32, charge: u32, discharge: u32, silence: u32, sensor: u32, interface: u32) -> u32;
    pub fn rokemaipu_release(t: *mut Table, post: u32) -> u32;
    pub fn rokemaipu_frame(t: *mut Table, channel: u32, time: u32, id: u32, extended: bool, payload: *const u8, length: usize) -> u32;
    pub fn rokemaipu_tick(t: *mut Table, channel: u32, time: u32) -> u32;
    pub fn rokemaipu_holder(t: *const Table, channel: u32) -> u32;
    pub fn rokemaipu_look_up(t: *const Table, post: u32, numbers: *mut u32, places: usize) -> u32;
    pub fn rokemaipu_counts(t: *const Table, post: u32, counts: *mut u32, places: usize) -> u32;
    pub fn rokemaipu_refused(t: *const Table) -> u32;
    pub fn rokemaipu_latest(t: *const Table, post: u32, kind: u32, times: *mut u32, places: usize, buffer: *mut u8, room: usize) -> u32;
    pub fn rokemaipu_in_session(t: *const Table, post: u32, part: u32, times: *mut u32, places: usize, buffer: *mut u8, room: usize) -> u32;
    pub fn rokemaipu_read(id: u32, extended: bool, payload: *const u8, length: usize, raws: *mut i64, places: usize) -> u32;
    pub fn rokemaipu_write(kind: u32, raws: *const i64, places: usize, buffer: *mut u8, room: usize) -> u32;
    pub fn rokemaipu_change(id: u32, extended: bool, payload: *mut u8, length: usize, start: u32, raw: i64) -> u32;
    pub fn rokemaipu_read_older(id: u32, extended: bool, payload: *const u8, length: usize, raws: *mut i64, places: usize) -> u32;
    pub fn rokemaipu_write_older(kind: u32, raws: *const i64, places: usize, buffer: *mut u8, room: usize) -> u32;
    pub fn rokemaipu_change_older(id: u32, extended: bool, payload: *mut u8, length: usize, start: u32, raw: i64) -> u32;
    pub fn rokemaipu_probe_used(raw: i16) -> bool;
    pub fn rokemaipu_probe_degrees(raw: i16) -> f32;
    pub fn rokemaipu_limited_duty(raw: u16) -> u16;
    pub fn rokemaipu_log_frame(time: u32, channel: u32, id: u32, extended: bool, payload: *const u8, length: usize, buffer: *mut u8, room: usize) -> u32;
    pub fn rokemaipu_log_tick(time: u32, channel: u32, buffer: *mut u8, room: usize) -> u32;
    pub fn rokemaipu_log_record(log: *const u8, size: usize, at: usize, numbers: *mut u64, places: usize) -> u32;
    pub fn rokemaipu_batch(t: *mut Table, records: *const u8, length: usize, answers: *mut u32, places: usize) -> u32;
    pub fn rokemaipu_compare(a: *const u8, size_a: usize, b: *const u8, size_b: usize, first: *mut u32, room_first: usize, second: *mut u32, room_second: usize, places: *mut u32, channels: usize, numbers: *mut u64, two: usize) -> u32;
    pub fn rokemaipu_replay_start(r: *mut Replay) -> u32;
    pub fn rokemaipu_replay_set_up(r: *mut Replay, post: u32, channel: u32, voltage: u32, charge: u32, discharge: u32, silence: u32, sensor: u32, interface: u32) -> u32;
    pub fn rokemaipu_replay_line(r: *mut Replay, log: *const u8, size: usize, at: usize, line: *mut u8, room: usize, next: *mut u64, places: usize) -> u32;
}
