//! Reading, writing and changing messages, bit by bit, over the pages' table.

use std::cmp::Ordering;
use std::fmt;

use crate::pages::{self, Kind, Order, Page, Signal, Unit};

/// Why nothing was done: a number of 01's table "Numbers given back" or of 02.
#[derive(Clone, Copy, Debug, PartialEq, Eq)]
pub enum Refusal {
    Number(u8),
    /// 5, with the start bit of the signal that has no such label.
    NoLabel {
        start: u32,
    },
}

impl fmt::Display for Refusal {
    fn fmt(&self, out: &mut fmt::Formatter) -> fmt::Result {
        match self {
            Refusal::Number(number) => write!(out, "R{number}"),
            Refusal::NoLabel { start } => write!(out, "R5:{start}"),
        }
    }
}

/// A frame's identifier and form, and the interface by whose pages it is read.
#[derive(Clone, Copy, Debug)]
pub struct Heading {
    pub interface: u32,
    pub id: u32,
    pub extended: bool,
}

impl Heading {
    pub fn page(self) -> Option<&'static Page> {
        pages::find(self.interface, self.id, self.extended)
    }
}

pub type Reader = fn(Heading, &[u8]) -> Result<Message, Refusal>;
pub type Changer = fn(Heading, &mut [u8], u32, i64) -> Result<(), Refusal>;

/// The largest count of signals on a page.
const MOST: usize = 15;

/// A message as received: its raw numbers, in the order of its page.
#[derive(Clone, Copy, Debug, PartialEq, Eq)]
pub struct Message {
    pub kind: Kind,
    raws: [i64; MOST],
}

impl Message {
    pub fn new(kind: Kind, raws: &[i64]) -> Message {
        assert_eq!(raws.len(), kind.page().signals.len());
        let mut all = [0; MOST];
        all[..raws.len()].copy_from_slice(raws);
        Message { kind, raws: all }
    }

    pub fn raws(&self) -> &[i64] {
        &self.raws[..self.kind.page().signals.len()]
    }

    pub fn signals(&self) -> impl Iterator<Item = (&'static Signal, i64)> + '_ {
        self.kind.page().signals.iter().zip(self.raws.iter().copied())
    }

    /// The raw number of the signal with that name on the message's page.
    pub fn raw(&self, name: &str) -> i64 {
        let found = self.signals().find(|(signal, _)| signal.name == name);
        found.unwrap_or_else(|| panic!("{} has no {name}", self.kind.page().name)).1
    }

    /// The label's name of the signal with that name.
    pub fn label(&self, name: &str) -> &'static str {
        let (signal, raw) = self.signals().find(|(signal, _)| signal.name == name).expect("a signal of the page");
        label_name(signal, raw).expect("a message holds labelled numbers only")
    }

    /// The fields as the desk shows them: whole tenths, °C, kOhm, kWh, label numbers.
    pub fn values(&self) -> Vec<i64> {
        self.signals().map(|(signal, raw)| value_of(signal, raw)).collect()
    }

    pub fn bytes(&self) -> Vec<u8> {
        let mut bytes = vec![0; self.kind.page().len];
        self.put_into(&mut bytes);
        bytes
    }

    fn put_into(&self, bytes: &mut [u8]) {
        for (signal, raw) in self.signals() {
            put(places(self.kind.page(), signal), raw, bytes);
        }
    }
}

pub fn label_name(signal: &Signal, raw: i64) -> Option<&'static str> {
    signal.labels?.iter().find(|(number, _)| *number == raw).map(|(_, name)| *name)
}

fn lacks_label(signal: &Signal, raw: i64) -> bool {
    signal.labels.is_some() && label_name(signal, raw).is_none()
}

fn value_of(signal: &Signal, raw: i64) -> i64 {
    match signal.unit {
        Unit::Celsius => raw - 40,
        Unit::KiloOhms | Unit::KiloWattHours => raw * 2,
        Unit::None | Unit::Volts | Unit::Amps | Unit::Tenths => raw,
    }
}

/// The raw number that stands for a value, if there is one that its signal holds.
fn raw_of(signal: &Signal, value: i64) -> Option<i64> {
    let raw = match signal.unit {
        Unit::Celsius => value.checked_add(40)?,
        Unit::KiloOhms | Unit::KiloWattHours if value % 2 != 0 => return None,
        Unit::KiloOhms | Unit::KiloWattHours => value / 2,
        Unit::None | Unit::Volts | Unit::Amps | Unit::Tenths => value,
    };
    (fits(signal, raw) && !lacks_label(signal, raw)).then_some(raw)
}

/// The smallest and the largest raw number that a signal holds.
pub fn range(signal: &Signal) -> (i64, i64) {
    if signal.signed {
        (-(1 << (signal.width - 1)), (1 << (signal.width - 1)) - 1)
    } else {
        (0, (1 << signal.width) - 1)
    }
}

fn fits(signal: &Signal, raw: i64) -> bool {
    let (least, most) = range(signal);
    least <= raw && raw <= most
}

/// 01: "Bit n of a payload is bit n mod 8 of byte n / 8, bit 0 lowest".
fn bit(bytes: &[u8], n: u32) -> bool {
    bytes[(n / 8) as usize] >> (n % 8) & 1 == 1
}

fn set_bit(bytes: &mut [u8], n: u32, on: bool) {
    let place = 1 << (n % 8);
    let byte = &mut bytes[(n / 8) as usize];
    if on {
        *byte |= place;
    } else {
        *byte &= !place;
    }
}

/// The bits of the payload that a signal has, its lowest first.
pub type Places = fn(&Page, &Signal) -> Vec<u32>;

pub fn places(page: &Page, signal: &Signal) -> Vec<u32> {
    match page.order {
        Order::Little => (signal.start..signal.start + signal.width).collect(),
        Order::Big => {
            let mut walked = walk(signal);
            walked.reverse();
            walked
        }
    }
}

/// 02: "There the start names the highest bit, and the signal runs down to bit 0 of that byte and on at bit 7 of the
/// next".
fn walk(signal: &Signal) -> Vec<u32> {
    let (mut byte, mut bit) = (signal.start / 8, signal.start % 8);
    let mut walked = Vec::new();
    while walked.len() < signal.width as usize {
        walked.push(byte * 8 + bit);
        (byte, bit) = if bit == 0 { (byte + 1, 7) } else { (byte, bit - 1) };
    }
    walked
}

fn get(signal: &Signal, places: Vec<u32>, bytes: &[u8]) -> i64 {
    let mut raw = 0;
    for (i, place) in places.into_iter().enumerate() {
        if bit(bytes, place) {
            // The highest bit of a two's complement number counts negative.
            let negative = signal.signed && i as u32 == signal.width - 1;
            raw += if negative { -(1 << i) } else { 1 << i };
        }
    }
    raw
}

fn put(places: Vec<u32>, raw: i64, bytes: &mut [u8]) {
    for (i, place) in places.into_iter().enumerate() {
        set_bit(bytes, place, raw >> i & 1 == 1);
    }
}

fn covered(page: &Page, n: u32) -> bool {
    page.signals.iter().any(|signal| places(page, signal).contains(&n))
}

/// The bits that are 1 and that no signal covers.
pub fn uncovered(page: &Page, bytes: &[u8]) -> Vec<u32> {
    (0..page.len as u32 * 8).filter(|&n| bit(bytes, n) && !covered(page, n)).collect()
}

/// 02: "4 when too short, 15 when too long".
fn judge_length(page: &Page, bytes: &[u8]) -> Result<(), Refusal> {
    match bytes.len().cmp(&page.len) {
        Ordering::Less => Err(Refusal::Number(4)),
        Ordering::Equal => Ok(()),
        Ordering::Greater => Err(Refusal::Number(15)),
    }
}

/// The start bits of all signals with a number that is no label of theirs.
pub fn offenders(page: &Page, bytes: &[u8]) -> Vec<u32> {
    let offending = page.signals.iter().filter(|signal| lacks_label(signal, get(signal, places(page, signal), bytes)));
    offending.map(|signal| signal.start).collect()
}

/// 02: "the first offending signal, lowest start first".
fn judge_labels(page: &Page, bytes: &[u8]) -> Result<(), Refusal> {
    match offenders(page, bytes).into_iter().min() {
        Some(start) => Err(Refusal::NoLabel { start }),
        None => Ok(()),
    }
}

/// Gives 3 to 6, the lowest that applies, with 15 in 4's place.
pub fn read(heading: Heading, bytes: &[u8]) -> Result<Message, Refusal> {
    let page = heading.page().ok_or(Refusal::Number(3))?;
    judge_length(page, bytes)?;
    judge_labels(page, bytes)?;
    if !uncovered(page, bytes).is_empty() {
        return Err(Refusal::Number(6));
    }
    Ok(taken(places, page, bytes))
}

/// The message in a payload that nothing is wrong with.
pub fn taken(places: Places, page: &Page, bytes: &[u8]) -> Message {
    let raws: Vec<i64> = page.signals.iter().map(|signal| get(signal, places(page, signal), bytes)).collect();
    Message::new(page.kind, &raws)
}

/// Gives 7 before 8; a longer buffer keeps its bytes behind the message.
pub fn write(page: &Page, values: &[i64], buffer: &mut [u8]) -> Result<(), Refusal> {
    let raws: Option<Vec<i64>> =
        page.signals.iter().zip(values).map(|(signal, &value)| raw_of(signal, value)).collect();
    let raws = raws.ok_or(Refusal::Number(7))?;
    let place = buffer.get_mut(..page.len).ok_or(Refusal::Number(8))?;
    place.fill(0);
    Message::new(page.kind, &raws).put_into(place);
    Ok(())
}

/// 01: "first the frame's own 3 to 6, then 13, then 7, then 5 for the new label".
pub fn change(heading: Heading, bytes: &mut [u8], start: u32, raw: i64) -> Result<(), Refusal> {
    let page = read(heading, bytes)?.kind.page();
    let signal = page.signals.iter().find(|signal| signal.start == start).ok_or(Refusal::Number(13))?;
    if !fits(signal, raw) {
        return Err(Refusal::Number(7));
    }
    if lacks_label(signal, raw) {
        return Err(Refusal::NoLabel { start });
    }
    put(places(page, signal), raw, bytes);
    Ok(())
}
