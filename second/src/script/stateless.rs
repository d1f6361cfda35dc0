//! Steps that need no post: read, change and write, and those of the service screen.

use std::fmt;

use super::kinds::status;
use super::messages::{
    able_to_offend, any, number_around_labels, number_without_label, some_page, uncovered, unlabelled, wrong_length,
};
use super::Generator;
use crate::codec::range;
use crate::fields::{form, hex};
use crate::pages::{other, Page, Signal, Unit, NEWER, OLDER};
use crate::rng::Rng;

impl Generator {
    pub fn read(&mut self) -> String {
        let word = self.pages_word("read");
        let (id, extended, bytes) = self.lent(word.interface);
        format!("{word} {id:x} {} {}", form(extended), hex(&bytes))
    }

    pub fn change(&mut self) -> String {
        let word = self.pages_word("change");
        if self.rng.chance(25) {
            let (id, extended, bytes) = self.lent(word.interface);
            let (start, raw) = (self.rng.below(70), self.rng.between(-2, 300));
            return format!("{word} {id:x} {} {} {start} {raw}", form(extended), hex(&bytes));
        }
        let rng = &mut self.rng;
        if rng.chance(20) {
            let (page, signal) = able_to_offend(rng, word.interface);
            let (bytes, raw) = (any(rng, page).bytes(), number_without_label(rng, signal));
            return format!("{word} {:x} {} {} {} {raw}", page.id, form(page.extended), hex(&bytes), signal.start);
        }
        let page = some_page(rng, word.interface);
        let bytes = any(rng, page).bytes();
        let signal = &page.signals[rng.below(page.signals.len() as u64) as usize];
        let start = match rng.below(8) {
            0 => rng.pick(&[u64::from(signal.start) + 1, u64::from(signal.start + signal.width), 64, 4_294_967_295]),
            1 => rng.below(64),
            _ => u64::from(signal.start),
        };
        format!("{word} {:x} {} {} {start} {}", page.id, form(page.extended), hex(&bytes), raw(rng, signal))
    }

    pub fn write(&mut self) -> String {
        let word = self.pages_word("write");
        let rng = &mut self.rng;
        let other = rng.chance(8);
        let page = varied_page(rng, if other { word.other() } else { word.interface });
        let mut values = any(rng, page).values();
        if rng.chance(50) {
            let place = rng.below(values.len() as u64) as usize;
            values[place] = value(rng, &page.signals[place]);
        }
        match rng.below(30) {
            0 => values.push(0),
            1 if values.len() > 1 => values.truncate(values.len() - 1),
            _ => {}
        }
        let (id, extended) = match rng.below(20) {
            0 => (page.id ^ 1 << rng.below(32), page.extended),
            1 | 2 => (page.id, !page.extended),
            _ => (page.id, page.extended),
        };
        let values: Vec<String> = values.iter().map(i64::to_string).collect();
        format!("{word} {id:x} {} {} {}", form(extended), values.join(","), hex(&buffer(rng, page.len)))
    }

    /// By the pages of one interface or of the other.
    fn pages_word(&mut self, word: &'static str) -> PagesWord {
        PagesWord { word, interface: self.rng.pick(&[NEWER, OLDER]) }
    }

    /// Raw numbers of a probe and of a duty, those on both sides of what their signals hold among them.
    pub fn service(&mut self) -> String {
        let rng = &mut self.rng;
        let (word, edges, (least, most)) = rng.pick(&[
            ("probe", [8190, 8191, 8191, 8192, -8192, -8193, -1, -1, 0, 0x3fff], (-8192, 8191)),
            ("duty", [999, 1000, 1001, 1023, 1024, -1, 0, 65_535, 65_536, i64::MAX], (0, 1023)),
        ]);
        let raw = if rng.chance(50) { rng.pick(&edges) } else { rng.between(least, most) };
        format!("{word} {raw}")
    }

    /// A lent frame: mostly one to be read, else one with something wrong.
    fn lent(&mut self, interface: u32) -> (u32, bool, Vec<u8>) {
        let rng = &mut self.rng;
        let page = some_page(rng, interface);
        let mut bytes = any(rng, page).bytes();
        match rng.below(28) {
            0 => return (page.id ^ 1 << rng.below(32), page.extended, bytes),
            1 | 15 => return (page.id, !page.extended, bytes),
            2 => bytes.clear(),
            3 | 4 => bytes = rng.bytes(page.len),
            wrong @ 5..=12 => {
                let (page, bytes) = match wrong {
                    5..=7 => wrong_length(rng, interface),
                    8..=10 => unlabelled(rng, interface),
                    _ => uncovered(rng, interface),
                };
                return (page.id, page.extended, bytes);
            }
            13 | 14 => {
                let page = some_page(rng, other(interface));
                return (page.id, page.extended, any(rng, page).bytes());
            }
            _ => {}
        }
        (page.id, page.extended, bytes)
    }
}

/// A step's word, with the interface that it names.
struct PagesWord {
    word: &'static str,
    interface: u32,
}

impl PagesWord {
    fn other(&self) -> u32 {
        other(self.interface)
    }
}

impl fmt::Display for PagesWord {
    fn fmt(&self, out: &mut fmt::Formatter) -> fmt::Result {
        let interface = if self.interface == OLDER { "1" } else { "" };
        write!(out, "{}{interface}", self.word)
    }
}

/// Power_Modules_Status more often than the others: its fields have the most edges.
fn varied_page(rng: &mut Rng, interface: u32) -> &'static Page {
    if rng.chance(25) {
        status(interface).page()
    } else {
        some_page(rng, interface)
    }
}

/// Raw numbers on both sides of the signal's ends, label numbers and such that are none.
fn raw(rng: &mut Rng, signal: &Signal) -> i64 {
    let (least, most) = range(signal);
    match rng.below(10) {
        0..=5 => rng.pick(&[least - 1, least, least + 1, -1, 0, 1, most - 1, most, most + 1]),
        6 => rng.pick(&[i64::MIN, i64::MAX, 65_535, 65_411, 1 << 32, -(1 << 32)]),
        7 | 8 => number_around_labels(rng, signal),
        _ => rng.between(least, most),
    }
}

/// Values on both sides of what has a raw number.
fn value(rng: &mut Rng, signal: &Signal) -> i64 {
    match signal.unit {
        Unit::Celsius => rng.pick(&[-41, -40, -39, 0, 214, 215, 216, 32_767, 32_768, -32_768, -32_769, i64::MAX]),
        Unit::KiloOhms | Unit::KiloWattHours => {
            rng.pick(&[-2, -1, 0, 1, 2, 201, 508, 509, 510, 511, 512, 65_535, 65_536, i64::MIN])
        }
        Unit::None | Unit::Volts | Unit::Amps | Unit::Tenths => raw(rng, signal),
    }
}

/// Short, exact and longer buffers with something in them.
pub fn buffer(rng: &mut Rng, exact: usize) -> Vec<u8> {
    let length = match rng.below(8) {
        0 => 0,
        1 => exact - 1,
        2 => rng.below(exact as u64) as usize,
        3 => exact + 1,
        4 => exact + 57,
        _ => exact,
    };
    if rng.chance(30) {
        vec![0xff; length]
    } else {
        rng.bytes(length)
    }
}
