//! Wrong readings of Req 05.

use crate::desk::Desk;
use crate::label_slips::dropped;
use crate::log::{self, Ending, Log};
use crate::log_slips::cut_one_record_late;
use crate::posts::Table;
use crate::replay::{self, answer, lines, played, post, prepare, Closing, Fed, Line, Replay, Replayer, SetUp};
use crate::rules::{MEASURING, YES_NO};

const WRONG_LINES: [(&str, Line); 8] = [
    ("replay-count", |fed| replay::line(&Fed { count: fed.count - 1, ..*fed })),
    ("replay-dash", dash_for_every_refusal),
    ("replay-channel", |fed| format!("{} {} {}", fed.count, fed.record.channel, answer(fed))),
    ("replay-hex", findings_in_hexadecimal),
    ("replay-start", |fed| replay::line(&Fed { answer: dropped(fed.answer), ..*fed })),
    ("replay-colon", start_bit_as_at_the_desk),
    ("replay-leading", |fed| format!("{} {}", fed.record.time, replay::line(fed))),
    ("replay-trailing", |fed| format!("{} {}", replay::line(fed), fed.record.time)),
];

const WRONG_REPLAYERS: [(&str, Replayer); 11] = [
    ("replay-cut", line_for_a_cut_piece),
    ("replay-byte", byte_where_the_log_ends),
    ("replay-bad", no_line_before_a_malformed_record),
    ("replay-accepted", refused_records_do_not_count),
    ("replay-passed", refused_set_ups_passed_over),
    ("replay-last", last_refused_set_up_told),
    ("replay-lines", lines_behind_a_refused_set_up),
    ("replay-order", malformed_record_before_a_refused_set_up),
    ("replay-again", first_set_up_of_a_post_stays),
    ("replay-sensor", every_sensor_measures),
    ("replay-table", |table, set_ups, bytes, line| played(table, set_ups, &log::read(bytes), line)),
];

pub fn names() -> impl Iterator<Item = &'static str> {
    WRONG_LINES.map(|(name, _)| name).into_iter().chain(WRONG_REPLAYERS.map(|(name, _)| name))
}

/// `None` where there is no slip of that name.
pub fn put_into(desk: &mut Desk, name: &str) -> Option<()> {
    if let Some((_, line)) = WRONG_LINES.iter().find(|(known, _)| *known == name) {
        desk.replay_line = *line;
    } else {
        desk.replayer = WRONG_REPLAYERS.iter().find(|(known, _)| *known == name)?.1;
    }
    Some(())
}

fn dash_for_every_refusal(fed: &Fed) -> String {
    let post = if fed.answer.is_err() { "-".to_string() } else { post(fed) };
    format!("{} {post} {}", fed.count, answer(fed))
}

fn findings_in_hexadecimal(fed: &Fed) -> String {
    match fed.answer {
        Ok(findings) => format!("{} {} A{findings:x}", fed.count, post(fed)),
        Err(_) => replay::line(fed),
    }
}

fn start_bit_as_at_the_desk(fed: &Fed) -> String {
    match fed.answer {
        Err(refusal) => format!("{} {} {refusal}", fed.count, post(fed)),
        Ok(_) => replay::line(fed),
    }
}

fn line_for_a_cut_piece(_: &mut Table, set_ups: &[SetUp], bytes: &[u8], line: Line) -> Replay {
    let log = Log { records: cut_one_record_late(bytes).records, ..log::read(bytes) };
    played(&mut Table::new(), set_ups, &log, line)
}

fn byte_where_the_log_ends(_: &mut Table, set_ups: &[SetUp], bytes: &[u8], line: Line) -> Replay {
    played(&mut Table::new(), set_ups, &Log { at: bytes.len(), ..log::read(bytes) }, line)
}

fn no_line_before_a_malformed_record(table: &mut Table, set_ups: &[SetUp], bytes: &[u8], line: Line) -> Replay {
    let right = replay::replay(table, set_ups, bytes, line);
    match right.closing {
        Closing::Log(Ending::Bad(_), _) => Replay { lines: Vec::new(), ..right },
        _ => right,
    }
}

fn refused_records_do_not_count(table: &mut Table, set_ups: &[SetUp], bytes: &[u8], line: Line) -> Replay {
    let right = replay::replay(table, set_ups, bytes, line);
    let mut accepted = 0;
    let recounted = right.lines.iter().map(|line| {
        let (_, rest) = line.split_once(' ').expect("a count");
        accepted += usize::from(rest.contains('A'));
        format!("{accepted} {rest}")
    });
    Replay { lines: recounted.collect(), ..right }
}

fn refused_set_ups_passed_over(_: &mut Table, set_ups: &[SetUp], bytes: &[u8], line: Line) -> Replay {
    let mut table = Table::new();
    for each in set_ups.chunks(1) {
        let _ = prepare(&mut table, each);
    }
    played(&mut table, &[], &log::read(bytes), line)
}

/// The set-ups behind a refused one are taken all the same.
fn last_refused_set_up_told(table: &mut Table, set_ups: &[SetUp], bytes: &[u8], line: Line) -> Replay {
    let mut prepared = Table::new();
    match set_ups.chunks(1).filter_map(|each| prepare(&mut prepared, each).err()).last() {
        Some(refusal) => Replay { lines: Vec::new(), closing: Closing::SetUp(refusal) },
        None => replay::replay(table, set_ups, bytes, line),
    }
}

fn lines_behind_a_refused_set_up(_: &mut Table, set_ups: &[SetUp], bytes: &[u8], line: Line) -> Replay {
    let (mut table, log) = (Table::new(), log::read(bytes));
    let closing = prepare(&mut table, set_ups).map_or_else(Closing::SetUp, |()| Closing::Log(log.ending, log.at));
    Replay { lines: lines(&mut table, &log.records, line), closing }
}

fn malformed_record_before_a_refused_set_up(table: &mut Table, set_ups: &[SetUp], bytes: &[u8], line: Line) -> Replay {
    let log = log::read(bytes);
    let right = replay::replay(table, set_ups, bytes, line);
    match log.ending {
        Ending::Bad(_) => Replay { closing: Closing::Log(log.ending, log.at), ..right },
        _ => right,
    }
}

fn first_set_up_of_a_post_stays(table: &mut Table, set_ups: &[SetUp], bytes: &[u8], line: Line) -> Replay {
    let first = |&(place, _): &(usize, &SetUp)| !set_ups[..place].iter().any(|(post, ..)| *post == set_ups[place].0);
    let kept: Vec<SetUp> = set_ups.iter().enumerate().filter(first).map(|(_, each)| *each).collect();
    replay::replay(table, &kept, bytes, line)
}

/// Only an unknown one is refused.
fn every_sensor_measures(table: &mut Table, set_ups: &[SetUp], bytes: &[u8], line: Line) -> Replay {
    let mut measuring = set_ups.to_vec();
    for (.., limits) in measuring.iter_mut().filter(|(.., limits)| limits.sensor == YES_NO) {
        limits.sensor = MEASURING;
    }
    replay::replay(table, &measuring, bytes, line)
}
