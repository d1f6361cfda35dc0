//! The desk: one answer line for each step of a script.

use std::io::{self, BufRead, Write};

use crate::batch::{self, Batcher};
use crate::codec::{self, range, Changer, Heading, Reader, Refusal};
use crate::explain;
use crate::fields::{bytes, extended, hex, identifier, natural, number, values};
use crate::index::{self, Indexer};
use crate::log;
use crate::log_line;
use crate::pages::{NEWER, OLDER};
use crate::posts::{Arrival, Frame, Post, Table};
use crate::record;
use crate::recordings::{self, Comparer};
use crate::replay::{self, Line, Replayer};
use crate::replay_line;
use crate::replay_setups;
use crate::rules::{Limits, MEASURING};
use crate::safety_pages::{CHARGE_CONTROL_1, PT1000_STATE};
use crate::service::{self, Limiter, Probe, Prober};
use crate::tallies::{self, Counter, Counts, RefusedCounter};

/// A longer line is no step.
pub const LONGEST: usize = 65_535;

/// What stands in the places for a batch's answers before the call, and how many places there can be, for a comparison's numbers too.
pub const UNTOUCHED: u32 = 3_735_928_559;
pub const MOST_PLACES: u32 = 2048;

pub type Recorder = fn(&Post, &Counts) -> String;

/// What a script runs on.
pub struct Desk {
    pub table: Table,
    pub reader: Reader,
    pub changer: Changer,
    pub counter: Counter,
    pub refused_counter: RefusedCounter,
    pub indexer: Indexer,
    pub log_writer: log::Writer,
    pub log_reader: log::Reader,
    pub replayer: Replayer,
    pub replay_line: Line,
    pub batcher: Batcher,
    pub comparer: Comparer,
    pub recorder: Recorder,
    pub prober: Prober,
    pub limiter: Limiter,
}

impl Desk {
    pub fn new() -> Desk {
        Desk {
            table: Table::new(),
            reader: codec::read,
            changer: codec::change,
            counter: tallies::counts,
            refused_counter: tallies::refused,
            indexer: index::index,
            log_writer: log::write,
            log_reader: log::read,
            replayer: replay::replay,
            replay_line: replay::line,
            batcher: batch::batch,
            comparer: recordings::compare,
            recorder: record::line,
            prober: service::probe,
            limiter: service::limited_duty,
        }
    }
}

/// Blank lines and comments are no steps and get no answer.
pub fn is_step(line: &[u8]) -> bool {
    !matches!(line.first(), None | Some(b'#'))
}

/// Answers a whole script, line by line as it comes.
pub fn run(mut script: impl BufRead, mut answers: impl Write, desk: &mut Desk) -> io::Result<()> {
    let mut line = Vec::new();
    loop {
        line.clear();
        if script.read_until(b'\n', &mut line)? == 0 {
            return answers.flush();
        }
        if line.last() == Some(&b'\n') {
            line.pop();
        }
        if is_step(&line) {
            writeln!(answers, "{}", answer(desk, &line))?;
        }
    }
}

/// The answer to one step.
pub fn answer(desk: &mut Desk, line: &[u8]) -> String {
    let known = if line.len() > LONGEST { None } else { step(desk, line) };
    known.unwrap_or_else(|| "?".to_string())
}

/// `None` where the line is no step.
fn step(desk: &mut Desk, line: &[u8]) -> Option<String> {
    let fields: Vec<&[u8]> = line.split(|&byte| byte == b' ').collect();
    match fields[0] {
        b"logw" => log_write(desk.log_writer, &fields[1..]),
        b"logr" => log_read(desk.log_reader, &fields[1..]),
        b"replay" => replay(desk, &fields[1..]),
        b"batch" => batch(desk, &fields[1..]),
        b"compare" => compare(desk.comparer, &fields[1..]),
        b"read" | b"change" | b"write" => message_step(desk, NEWER, fields[0], &fields[1..]),
        b"read1" | b"change1" | b"write1" => message_step(desk, OLDER, &fields[0][..fields[0].len() - 1], &fields[1..]),
        b"explain" => explain_step(&fields[1..]),
        b"probe" | b"duty" => service_step(desk, &fields),
        b"record" => record(desk, &fields[1..]),
        b"refused" => refused(desk, &fields[1..]),
        b"index" => index(desk, &fields[1..]),
        _ => table_step(&mut desk.table, &fields),
    }
}

fn table_step(table: &mut Table, fields: &[&[u8]]) -> Option<String> {
    match *fields {
        [b"setup", ref numbers @ ..] => {
            let (post, channel, limits) = set_up(numbers)?;
            Some(said(table.set_up(post, channel, limits), |()| "A".to_string()))
        }
        [b"release", post] => Some(said(table.release(natural(post)?), |()| "A".to_string())),
        [b"frame" | b"tick", ..] => {
            let mut payload = Vec::new();
            let arrival = arrival(fields, &mut payload)?;
            Some(said(table.feed(&arrival), |findings| format!("A{findings}")))
        }
        _ => None,
    }
}

/// The frame or tick that a line tells; `payload` keeps its bytes.
pub fn arrival<'a>(fields: &[&[u8]], payload: &'a mut Vec<u8>) -> Option<Arrival<'a>> {
    let (channel, time, frame) = match *fields {
        [b"frame", channel, time, id, form, digits] => {
            *payload = bytes(digits)?;
            (channel, time, Some(Frame { id: identifier(id)?, extended: extended(form)?, bytes: payload }))
        }
        [b"tick", channel, time] => (channel, time, None),
        _ => return None,
    };
    Some(Arrival { channel: natural(channel)?, time: natural(time)?, frame })
}

fn record(desk: &Desk, fields: &[&[u8]]) -> Option<String> {
    match *fields {
        [number] => {
            let number = natural(number)?;
            let counts = |post| (desk.counter)(&desk.table, number as usize, post);
            Some(said(desk.table.post(number), |post| (desk.recorder)(post, &counts(post))))
        }
        _ => None,
    }
}

fn refused(desk: &Desk, fields: &[&[u8]]) -> Option<String> {
    fields.is_empty().then(|| format!("N {}", (desk.refused_counter)(&desk.table)))
}

fn index(desk: &Desk, fields: &[&[u8]]) -> Option<String> {
    fields.is_empty().then(|| index::line(&(desk.indexer)(&desk.table)))
}

/// Raw numbers that their signals hold; others are too large for their place.
fn service_step(desk: &Desk, fields: &[&[u8]]) -> Option<String> {
    let held = |raw: &[u8], signal| {
        let (least, most) = range(signal);
        number(raw).filter(|raw| (least..=most).contains(raw))
    };
    match *fields {
        [b"probe", raw] => Some(match (desk.prober)(held(raw, &PT1000_STATE.signals[0])?) {
            Probe::NotUsed => "N".to_string(),
            Probe::Degrees(degrees) => format!("D {:08x}", degrees.to_bits()),
        }),
        [b"duty", raw] => Some(format!("A {}", (desk.limiter)(held(raw, &CHARGE_CONTROL_1.signals[0])?))),
        _ => None,
    }
}

/// The fields of a set-up. The interface may be missing and is then the newer one; before it the sensor may, and is then a
/// measuring one.
pub fn set_up(fields: &[&[u8]]) -> Option<(u32, u32, Limits)> {
    let mut numbers = fields.iter().map(|field| natural(field)).collect::<Option<Vec<u32>>>()?;
    if numbers.len() == 6 {
        numbers.push(MEASURING);
    }
    if numbers.len() == 7 {
        numbers.push(NEWER);
    }
    let [post, channel, volt, charge, discharge, silence, sensor, interface] = numbers[..] else {
        return None;
    };
    Some((post, channel, Limits { volt, charge, discharge, silence, sensor, interface }))
}

/// Steps that need no post, by the pages of that interface.
fn message_step(desk: &Desk, interface: u32, word: &[u8], fields: &[&[u8]]) -> Option<String> {
    let (id, form, rest) = match fields {
        [id, form, rest @ ..] => (identifier(id)?, extended(form)?, rest),
        _ => return None,
    };
    let heading = Heading { interface, id, extended: form };
    match (word, rest) {
        (b"read", [payload]) => {
            let message = (desk.reader)(heading, &bytes(payload)?);
            Some(said(message, |message| format!("A {}", record::message(&message))))
        }
        (b"change", [payload, start, raw]) => {
            let (start, raw) = (natural(start)?, number(raw)?);
            let mut payload = bytes(payload)?;
            let changed = (desk.changer)(heading, &mut payload, start, raw);
            Some(format!("{} {}", said(changed, |()| "A".to_string()), hex(&payload)))
        }
        (b"write", [fields, buffer]) => write(heading, &values(fields)?, bytes(buffer)?),
        _ => None,
    }
}

fn said<T>(outcome: Result<T, Refusal>, accepted: impl FnOnce(T) -> String) -> String {
    match outcome {
        Ok(answer) => accepted(answer),
        Err(refusal) => refusal.to_string(),
    }
}

fn write(heading: Heading, values: &[i64], mut buffer: Vec<u8>) -> Option<String> {
    let Some(page) = heading.page() else {
        return Some("X".to_string());
    };
    if values.len() != page.signals.len() {
        return None;
    }
    let written = codec::write(page, values, &mut buffer);
    let outcome = said(written, |()| format!("A {:x} {}", page.id, page.len));
    Some(format!("{outcome} {}", hex(&buffer)))
}

fn log_write(writer: log::Writer, fields: &[&[u8]]) -> Option<String> {
    let (time, channel, frame, buffer) = match *fields {
        [b"t", time, channel, buffer] => (time, channel, None, buffer),
        [b"f", time, channel, id, form, payload, buffer] => {
            (time, channel, Some((identifier(id)?, extended(form)?, bytes(payload)?)), buffer)
        }
        _ => return None,
    };
    let frame = frame.as_ref().map(|(id, extended, bytes)| Frame { id: *id, extended: *extended, bytes });
    let record = Arrival { channel: natural(channel)?, time: natural(time)?, frame };
    let mut buffer = bytes(buffer)?;
    let written = writer(&record, &mut buffer);
    Some(format!("{} {}", said(written, |length| format!("A {length}")), hex(&buffer)))
}

fn log_read(reader: log::Reader, fields: &[&[u8]]) -> Option<String> {
    match *fields {
        [log] => Some(log_line::line(&reader(&bytes(log)?))),
        _ => None,
    }
}

fn replay(desk: &mut Desk, fields: &[&[u8]]) -> Option<String> {
    match *fields {
        [log, set_ups] => {
            let (log, set_ups) = (bytes(log)?, replay_setups::field(set_ups)?);
            let replay = (desk.replayer)(&mut desk.table, &set_ups, &log, desk.replay_line);
            Some(replay_line::answer(replay))
        }
        _ => None,
    }
}

fn batch(desk: &mut Desk, fields: &[&[u8]]) -> Option<String> {
    match *fields {
        [records, places] => {
            let (records, places) = (bytes(records)?, room(places)?);
            let mut answers = vec![UNTOUCHED; places];
            let outcome = (desk.batcher)(&mut desk.table, &records, &mut answers);
            let words: String = answers.iter().map(|word| format!(" {word}")).collect();
            Some(said(outcome, |_| "A".to_string()) + &words)
        }
        _ => None,
    }
}

fn compare(comparer: Comparer, fields: &[&[u8]]) -> Option<String> {
    match *fields {
        [first, second, room1, room2] => {
            let (first, second, rooms) = (bytes(first)?, bytes(second)?, [room(room1)?, room(room2)?]);
            Some(recordings::line(comparer([&first, &second], rooms)))
        }
        _ => None,
    }
}

/// So many places, if there can be.
fn room(field: &[u8]) -> Option<usize> {
    natural(field).filter(|places| *places <= MOST_PLACES).map(|places| places as usize)
}

fn explain_step(fields: &[&[u8]]) -> Option<String> {
    let [field] = fields else {
        return None;
    };
    let words = match field.strip_prefix(b"R") {
        Some(refusal) => match refusal.strip_prefix(b"5:") {
            Some(start) => explain::no_label(natural(start)?),
            None => explain::refusal(natural(refusal)?),
        },
        None => explain::findings(natural(field)?),
    };
    words.map(|words| format!("E {words}"))
}
