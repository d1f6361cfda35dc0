//! Batches of records for the script's own posts: of all sizes up to the largest and beyond, whole, cut and malformed, with
//! places enough and too few.

use super::logs::bad_record;
use super::Generator;
use crate::batch::MOST_BYTES;
use crate::desk::MOST_PLACES;
use crate::fields::hex;
use crate::log;
use crate::posts::Arrival;

/// A tick at a time below 128 takes four bytes, and one more for each further group of its time.
const SHORTEST: usize = 4;

impl Generator {
    pub fn batch(&mut self) -> String {
        let count = self.rng.pick(&[0, 1, 1, 2, 3, 5, 8, 13]);
        let mut records: Vec<Vec<u8>> = (0..count).filter_map(|_| self.night_record()).collect();
        let fate = self.rng.below(20);
        if fate < 2 {
            let at = self.rng.below(records.len() as u64 + 1) as usize;
            records.insert(at, bad_record(&mut self.rng).0);
        }
        let mut bytes = records.concat();
        match fate {
            2..=4 => bytes.truncate(self.rng.below(bytes.len() as u64 + 1) as usize),
            5 | 6 => {
                let size = MOST_BYTES + self.rng.pick(&[0, 0, 0, 1, 13]);
                self.fill(&mut bytes, size);
            }
            7 => bytes.resize(MOST_BYTES + 1, 0x80),
            _ => {}
        }
        let records = log::read(&bytes).records.len();
        let places = match self.rng.below(20) {
            // one more than there can be
            0 => MOST_PLACES as usize + 1,
            1..=4 => records.saturating_sub(1 + self.rng.below(3) as usize),
            5..=9 => records + 1 + self.rng.below(4) as usize,
            _ => records,
        };
        format!("batch {} {places}", hex(&bytes))
    }

    /// Ticks behind the records, up to that size.
    fn fill(&mut self, bytes: &mut Vec<u8>, size: usize) {
        let channel = self.rng.below(32) as u32;
        while bytes.len() + SHORTEST <= size {
            let left = size - bytes.len();
            let groups = if left < 2 * SHORTEST { left - SHORTEST } else { 0 };
            let time = if groups == 0 { self.rng.below(128) as u32 } else { 1 << (7 * groups) };
            bytes.extend(log::bytes(&Arrival { channel, time, frame: None }));
        }
    }
}
