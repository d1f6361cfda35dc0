//! Wrong readings of Req 13: tables of another number of posts, and indexes that are not kept true.

use crate::desk::Desk;
use crate::index::{index, Index, Indexer};
use crate::log;
use crate::posts::{Seating, Table, CHANNELS};
use crate::replay::{answer, played, Fed, Line, Replayer};

/// Refusal 9 that begins at 8 still, or at 17.
const WRONG_NUMBERS: [(&str, usize); 2] = [("index-eight", 8), ("index-seventeen", 17)];

const WRONG_INDEXERS: [(&str, Indexer); 5] = [
    ("index-moved", left_by_a_second_set_up),
    ("index-released", left_by_a_release),
    ("index-own", dropped_by_a_set_up_on_its_own_channel),
    ("index-refused", put_by_a_refused_set_up),
    ("index-one", |table| index(table).map(|place| place.map(|place| place + 1))),
];

const BELIEVED: &str = "index-believed";

const WRONG_REPLAYER: (&str, Replayer) =
    ("index-replay", |_, set_ups, bytes, line| played(&mut Table::of(8), set_ups, &log::read(bytes), line));

/// A post's number in one place, as where there were 8.
const WRONG_LINE: (&str, Line) = ("index-digit", one_digit);

pub fn names() -> impl Iterator<Item = &'static str> {
    let tables = WRONG_NUMBERS.map(|(name, _)| name).into_iter().chain(WRONG_INDEXERS.map(|(name, _)| name));
    tables.chain([BELIEVED, WRONG_REPLAYER.0, WRONG_LINE.0])
}

/// `None` where there is no slip of that name.
pub fn put_into(desk: &mut Desk, name: &str) -> Option<()> {
    if let Some((_, posts)) = WRONG_NUMBERS.iter().find(|(known, _)| *known == name) {
        desk.table = Table::of(*posts);
    } else if let Some((_, indexer)) = WRONG_INDEXERS.iter().find(|(known, _)| *known == name) {
        desk.indexer = *indexer;
    } else if name == BELIEVED {
        desk.table.finder = named_by_what_a_second_set_up_left;
    } else if name == WRONG_REPLAYER.0 {
        desk.replayer = WRONG_REPLAYER.1;
    } else if name == WRONG_LINE.0 {
        desk.replay_line = WRONG_LINE.1;
    } else {
        return None;
    }
    Some(())
}

/// Where a post goes from and to: `to` is none where it is released.
struct Move {
    place: usize,
    from: Option<usize>,
    to: Option<usize>,
}

/// The index that comes of the accepted set-ups and releases, each put into it in that way.
fn kept(table: &Table, put: fn(&mut Index, &Move)) -> Index {
    let (mut index, mut held) = ([None; CHANNELS as usize], std::collections::BTreeMap::new());
    for Seating { post, channel, .. } in table.seatings.iter().filter(|seating| seating.accepted) {
        let to = channel.map(|channel| channel as usize);
        put(&mut index, &Move { place: *post as usize, from: held.remove(post), to });
        held.extend(to.map(|to| (*post, to)));
    }
    index
}

fn clear(index: &mut Index, channel: Option<usize>) {
    channel.into_iter().for_each(|channel| index[channel] = None);
}

fn name(index: &mut Index, moved: &Move) {
    moved.to.into_iter().for_each(|channel| index[channel] = Some(moved.place));
}

fn left_by_a_second_set_up(table: &Table) -> Index {
    kept(table, |index, moved| {
        clear(index, moved.from.filter(|_| moved.to.is_none()));
        name(index, moved);
    })
}

fn left_by_a_release(table: &Table) -> Index {
    kept(table, |index, moved| {
        clear(index, moved.from.filter(|_| moved.to.is_some()));
        name(index, moved);
    })
}

/// The old channel's entry goes after the new one's has come.
fn dropped_by_a_set_up_on_its_own_channel(table: &Table) -> Index {
    kept(table, |index, moved| {
        name(index, moved);
        clear(index, moved.from);
    })
}

/// Before the limits are judged, say.
fn put_by_a_refused_set_up(table: &Table) -> Index {
    let mut index = index(table);
    if let Some(Seating { post, channel: Some(channel), accepted: false }) = table.seatings.last() {
        if table.post(*post).is_ok() {
            index.get_mut(*channel as usize).into_iter().for_each(|entry| *entry = Some(*post as usize));
        }
    }
    index
}

/// Without asking the post whether it holds the channel.
fn named_by_what_a_second_set_up_left(table: &Table, channel: u32) -> Option<usize> {
    let named = left_by_a_second_set_up(table).get(channel as usize).copied().flatten();
    named.filter(|place| table.post(*place as u32).is_ok())
}

fn one_digit(fed: &Fed) -> String {
    let holder = fed.holder.map(|place| place % 10);
    let post = crate::replay::post(&Fed { holder, ..*fed });
    format!("{} {post} {}", fed.count, answer(fed))
}
