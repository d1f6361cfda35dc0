//! Wrong readings of Req 10. That a refused comparison leaves the lists and the places as they were, and an accepted one
//! what stands behind its numbers, shows in no answer of the desk, which prints neither: the tests from C hold that.

use crate::desk::Desk;
use crate::log;
use crate::posts::{Arrival, Frame};
use crate::recordings::{
    compare, compared, judged, malformed, many, on, short, surplus, Compared, Comparer, Fault, MOST,
};

const WRONG_COMPARERS: [(&str, Comparer); 17] = [
    ("compare-earlier", earlier_repeats_listed),
    ("compare-over-all", places_over_all_channels),
    ("compare-many", many_before_malformed),
    ("compare-last-equal", place_of_the_last_equal),
    ("compare-sides", second_log_first),
    ("compare-steps", all_steps_of_a_log_first),
    ("compare-once", repeats_not_counted),
    ("compare-edge", refused_at_512_itself),
    ("compare-more", let_pass_at_513),
    ("compare-room", room_of_511_taken),
    ("compare-needed", room_for_what_is_listed),
    ("compare-cut", cut_piece_let_pass),
    ("compare-byte", byte_of_the_end),
    ("compare-time", times_not_looked_at),
    ("compare-form", forms_not_looked_at),
    ("compare-ends", shorter_one_does_not_differ),
    ("compare-swapped", lists_swapped),
];

pub fn names() -> impl Iterator<Item = &'static str> {
    WRONG_COMPARERS.map(|(name, _)| name).into_iter()
}

/// `None` where there is no slip of that name.
pub fn put_into(desk: &mut Desk, name: &str) -> Option<()> {
    desk.comparer = WRONG_COMPARERS.iter().find(|(known, _)| *known == name)?.1;
    Some(())
}

type Logs<'a> = [&'a [u8]; 2];
type Outcome = Result<Compared, Fault>;

/// An accepted comparison, and the records of both logs.
fn taken<'a>(logs: Logs<'a>, rooms: [usize; 2]) -> Result<(Compared, [Vec<Arrival<'a>>; 2]), Fault> {
    Ok((compare(logs, rooms)?, logs.map(|bytes| log::read(bytes).records)))
}

fn earlier_repeats_listed(logs: Logs, rooms: [usize; 2]) -> Outcome {
    let (right, [first, second]) = taken(logs, rooms)?;
    let earlier = |own: &[Arrival], other: &[Arrival]| {
        let back: Vec<Arrival> = own.iter().rev().cloned().collect();
        surplus(&back, other).into_iter().rev().map(|number| own.len() + 1 - number).collect()
    };
    Ok(Compared { first: earlier(&first, &second), second: earlier(&second, &first), ..right })
}

/// The number of the record in its whole log, or the one behind the log where it has none.
fn places_over_all_channels(logs: Logs, rooms: [usize; 2]) -> Outcome {
    let (right, [first, _]) = taken(logs, rooms)?;
    let number = |(channel, place): (u32, usize)| {
        let numbers = (1..).zip(&first).filter(|(_, record)| record.channel == channel).map(|(number, _)| number);
        (channel, numbers.collect::<Vec<usize>>().get(place - 1).copied().unwrap_or(first.len() + 1))
    };
    Ok(Compared { channels: right.channels.iter().copied().map(number).collect(), ..right })
}

fn many_before_malformed(logs: Logs, rooms: [usize; 2]) -> Outcome {
    first_of([many(logs), malformed(logs)])?;
    compare(logs, rooms)
}

fn place_of_the_last_equal(logs: Logs, rooms: [usize; 2]) -> Outcome {
    let right = compare(logs, rooms)?;
    let channels = right.channels.iter().map(|(channel, place)| (*channel, place - 1)).collect();
    Ok(Compared { channels, ..right })
}

fn second_log_first(logs: Logs, rooms: [usize; 2]) -> Outcome {
    for [first, second] in [malformed(logs), many(logs), short(rooms)] {
        first_of([[second, first]])?;
    }
    compare(logs, rooms)
}

fn all_steps_of_a_log_first(logs: Logs, rooms: [usize; 2]) -> Outcome {
    let steps = [malformed(logs), many(logs), short(rooms)];
    first_of([0, 1].map(|side| steps.map(|step| step[side])))?;
    compare(logs, rooms)
}

fn first_of<const N: usize, const M: usize>(steps: [[Option<Fault>; N]; M]) -> Result<(), Fault> {
    steps.into_iter().flatten().flatten().next().map_or(Ok(()), Err)
}

fn repeats_not_counted(logs: Logs, rooms: [usize; 2]) -> Outcome {
    let (right, [first, second]) = taken(logs, rooms)?;
    let missing = |own: &[Arrival], other: &[Arrival]| {
        (1..).zip(own).filter(|(_, record)| !other.contains(record)).map(|(number, _)| number).collect()
    };
    Ok(Compared { first: missing(&first, &second), second: missing(&second, &first), ..right })
}

fn refused_at_512_itself(logs: Logs, rooms: [usize; 2]) -> Outcome {
    let full = |side: usize| log::read(logs[side - 1]).records.len() == MOST;
    match judged(logs, rooms) {
        Ok(()) | Err(Fault::Room { .. }) if full(1) => Err(Fault::Many { side: 1 }),
        Ok(()) | Err(Fault::Room { .. }) if full(2) => Err(Fault::Many { side: 2 }),
        _ => compare(logs, rooms),
    }
}

fn let_pass_at_513(logs: Logs, rooms: [usize; 2]) -> Outcome {
    match judged(logs, rooms) {
        Err(Fault::Many { .. }) if logs.iter().all(|bytes| log::read(bytes).records.len() <= MOST + 1) => {
            let [first, second] = logs.map(|bytes| log::read(bytes).records);
            Ok(compared(&first, &second))
        }
        _ => compare(logs, rooms),
    }
}

fn room_of_511_taken(logs: Logs, rooms: [usize; 2]) -> Outcome {
    compare(logs, rooms.map(|room| if room == MOST - 1 { MOST } else { room }))
}

fn room_for_what_is_listed(logs: Logs, rooms: [usize; 2]) -> Outcome {
    match compare(logs, rooms) {
        Err(Fault::Room { .. }) => {
            let right = compare(logs, [MOST, MOST])?;
            let enough = right.first.len() <= rooms[0] && right.second.len() <= rooms[1];
            if enough {
                Ok(right)
            } else {
                compare(logs, rooms)
            }
        }
        outcome => outcome,
    }
}

fn cut_piece_let_pass(logs: Logs, rooms: [usize; 2]) -> Outcome {
    let whole = logs.map(|bytes| match log::read(bytes) {
        read if read.ending == log::Ending::Cut => &bytes[..read.at],
        _ => bytes,
    });
    compare(whole, rooms)
}

/// Where the log ends, and not where its bad record begins.
fn byte_of_the_end(logs: Logs, rooms: [usize; 2]) -> Outcome {
    compare(logs, rooms).map_err(|fault| match fault {
        Fault::Log { side, .. } => Fault::Log { side, at: logs[side - 1].len() },
        other => other,
    })
}

fn times_not_looked_at(logs: Logs, rooms: [usize; 2]) -> Outcome {
    alike(logs, rooms, |record| Arrival { time: 0, ..record })
}

fn forms_not_looked_at(logs: Logs, rooms: [usize; 2]) -> Outcome {
    alike(logs, rooms, |record| {
        let frame = record.frame.clone().map(|frame| Frame { extended: false, ..frame });
        Arrival { frame, ..record }
    })
}

/// Records taken for the same where this makes them so.
fn alike(logs: Logs, rooms: [usize; 2], blurred: fn(Arrival) -> Arrival) -> Outcome {
    let (_, records) = taken(logs, rooms)?;
    let [first, second] = records.map(|records| records.into_iter().map(blurred).collect::<Vec<Arrival>>());
    Ok(compared(&first, &second))
}

fn shorter_one_does_not_differ(logs: Logs, rooms: [usize; 2]) -> Outcome {
    let (right, [first, second]) = taken(logs, rooms)?;
    let both = |channel: u32| on(channel, &first).len().min(on(channel, &second).len());
    let channels = right.channels.iter().copied().filter(|(channel, place)| *place <= both(*channel)).collect();
    Ok(Compared { channels, ..right })
}

fn lists_swapped(logs: Logs, rooms: [usize; 2]) -> Outcome {
    let Compared { first, second, channels } = compare(logs, rooms)?;
    Ok(Compared { first: second, second: first, channels })
}
