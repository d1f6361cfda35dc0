//! Req 13's index from channel to post. No table here keeps one: it is searched for wherever it is asked for.

use crate::posts::{searched, Table, CHANNELS};

/// The place of the post that holds each channel.
pub type Index = [Option<usize>; CHANNELS as usize];

pub type Indexer = fn(&Table) -> Index;

/// 02: "found equal to a search over the posts".
pub fn index(table: &Table) -> Index {
    std::array::from_fn(|channel| searched(table, channel as u32))
}

pub fn line(index: &Index) -> String {
    let places = index.iter().map(|place| place.map_or("-".to_string(), |place| place.to_string()));
    format!("I {}", places.collect::<Vec<String>>().join(" "))
}
