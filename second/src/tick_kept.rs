//! Req 12: "put in or take out ticks such that both lists are accepted whole, with the same unrolled gaps between kept
//! events. Every other event keeps its findings, and the record differs only in its latest time, ages and tallies".

use crate::clock::{as_received, EARLIER, ROUND};
use crate::history::Event;
use crate::pages::{NEWER, OLDER};
use crate::posts::{Post, Table};
use crate::record::{line_in, Form, FORM};
use crate::rng::Rng;
use crate::rules::{Limits, RULES};
use crate::tallies::{counts, tallied};
use crate::tick_histories::{heard, histories, with_wrong, Rules};
use crate::tick_slips::WRONG_KEPT;

/// An event, and whether the other list has it too; only ticks are in one list alone.
#[derive(Clone, Copy)]
struct Marked {
    event: Event,
    kept: bool,
}

/// A tick stays where the events around it would be too far apart without it to be accepted one after the other.
fn some_ticks_out(rng: &mut Rng, history: &[Event]) -> Vec<Marked> {
    let mut marks: Vec<Marked> = Vec::new();
    for (place, &event) in history.iter().enumerate() {
        let before = marks.iter().rfind(|mark| mark.kept).map(|mark| mark.event.time);
        let behind = history.get(place + 1).map(|next| next.time);
        let bridges = before.zip(behind).is_some_and(|(before, behind)| behind - before >= EARLIER);
        marks.push(Marked { event, kept: event.message.is_some() || bridges || rng.chance(50) });
    }
    marks
}

/// The kept events, all as much later, with other ticks before, between and behind them.
fn other_ticks_in(rng: &mut Rng, one: &[Marked], later: u64) -> Vec<Marked> {
    let mut other: Vec<Marked> = Vec::new();
    for mark in one.iter().filter(|mark| mark.kept) {
        let time = mark.event.time + later;
        let before = other.iter().rfind(|mark| mark.kept).map_or(time - NEAR, |mark| mark.event.time);
        other.extend(ticks(rng, before, time));
        other.push(Marked { event: Event { time, ..mark.event }, kept: true });
    }
    let last = other.last().map(|mark| mark.event.time);
    other.extend(last.into_iter().flat_map(|last| ticks(rng, last, last + NEAR)));
    other
}

/// How long before the first kept event, and behind the last one, ticks are put in.
const NEAR: u64 = 3000;

fn ticks(rng: &mut Rng, from: u64, to: u64) -> Vec<Marked> {
    let mut times: Vec<u64> = (0..rng.below(4)).map(|_| from + rng.below(to - from + 1)).collect();
    times.sort();
    times.into_iter().map(|time| Marked { event: Event { time, message: None }, kept: false }).collect()
}

/// Of a list as long as the marks, what stands at the places that are kept, or at the others.
fn at<T: Copy>(kept: bool, marks: &[Marked], of: &[T]) -> Vec<T> {
    marks.iter().zip(of).filter(|(mark, _)| mark.kept == kept).map(|(_, of)| *of).collect()
}

/// The unrolled ms between the kept events.
fn gaps(marks: &[Marked], post: &Post) -> Vec<u64> {
    at(true, marks, &post.history).windows(2).map(|pair| pair[1].time - pair[0].time).collect()
}

fn received(marks: &[Marked]) -> Vec<u32> {
    at(true, marks, marks).iter().map(|mark| as_received(mark.event.time)).collect()
}

/// A record without its latest time, its counts and, as it is shown here, its ages.
fn unticked(form: &Form, post: &Post) -> String {
    let line = line_in(form, post, &counts(&Table::new(), 0, post));
    let stays = |part: &&str| !["last=", "n=", "tally="].iter().any(|name| part.starts_with(name));
    line.split(' ').filter(stays).collect::<Vec<_>>().join(" ")
}

const AGELESS: Form = Form { kept: |_, kept| as_received(kept).to_string(), ..FORM };

#[derive(Debug, PartialEq, Eq)]
enum Told {
    /// The two lists are not as the law asks.
    NotAsked,
    Holds,
    Findings,
    Accepted,
    Tallies,
    Record,
}

fn told(rules: Rules, form: &Form, limits: Limits, one: &[Marked], other: &[Marked]) -> Told {
    let listed = |marks: &[Marked]| heard(rules, limits, marks.iter().map(|mark| mark.event));
    let (Some(mine), Some(its)) = (listed(one), listed(other)) else {
        return Told::NotAsked;
    };
    if gaps(one, mine.post()) != gaps(other, its.post()) {
        return Told::NotAsked;
    }
    if at(true, one, &mine.answers) != at(true, other, &its.answers) {
        return Told::Findings;
    }
    let (put_in, taken_out) = (at(false, other, &its.answers), at(false, one, &mine.answers));
    let (mine_counts, its_counts) = (counts(&mine.table, 0, mine.post()), counts(&its.table, 0, its.post()));
    if mine_counts.accepted + put_in.len() as u32 != its_counts.accepted + taken_out.len() as u32 {
        return Told::Accepted;
    }
    let (put_in, taken_out) = (tallied(put_in.into_iter()), tallied(taken_out.into_iter()));
    if (0..RULES.len()).any(|k| mine_counts.tallies[k] + put_in[k] != its_counts.tallies[k] + taken_out[k]) {
        return Told::Tallies;
    }
    if received(one) == received(other) && unticked(form, mine.post()) != unticked(form, its.post()) {
        return Told::Record;
    }
    Told::Holds
}

/// What is told of each pair of lists of posts of that interface, over a few seeds.
fn over_histories(rules: Rules, form: &Form, interface: u32) -> Vec<Told> {
    let mut all = Vec::new();
    for seed in 1..6 {
        let mut rng = Rng::new(seed);
        for (limits, history) in histories(seed, interface) {
            let one = some_ticks_out(&mut rng, &history);
            let later = ROUND + rng.pick(&[0, 0, 1, 500, ROUND / 2]);
            let other = other_ticks_in(&mut rng, &one, later);
            all.push(told(rules, form, limits, &one, &other));
        }
    }
    all
}

#[test]
fn ticks_hide_and_invent_nothing() {
    for interface in [NEWER, OLDER] {
        let all = over_histories(RULES, &AGELESS, interface);
        let holds = all.iter().filter(|told| **told == Told::Holds).count();
        assert!(all.iter().all(|told| matches!(told, Told::Holds | Told::NotAsked)), "{all:?}");
        assert!(holds > 100 && holds * 10 > all.len() * 9, "{holds} of {} of interface {interface}", all.len());
    }
}

/// The law asks for the same gaps for a reason.
#[test]
fn a_gap_1_ms_longer_changes_findings() {
    for interface in [NEWER, OLDER] {
        let mut rng = Rng::new(1);
        let changed = (1..4).flat_map(|seed| histories(seed, interface)).filter(|(limits, history)| {
            let from = rng.below(history.len() as u64 + 1) as usize;
            let later =
                |(place, event): (usize, &Event)| Event { time: event.time + u64::from(place >= from), ..*event };
            let mine = heard(RULES, *limits, history.iter().copied()).map(|heard| heard.answers);
            let its = heard(RULES, *limits, history.iter().enumerate().map(later)).map(|heard| heard.answers);
            mine.zip(its).is_some_and(|(mine, its)| mine != its)
        });
        assert!(changed.count() > 0, "interface {interface}");
    }
}

#[test]
fn each_rule_that_asks_of_ticks_is_found() {
    for (wrong, interface) in WRONG_KEPT.iter().flat_map(|wrong| [(wrong, NEWER), (wrong, OLDER)]) {
        let all = over_histories(with_wrong(wrong), &AGELESS, interface);
        assert!(all.contains(&Told::Findings), "F{} of interface {interface}", wrong.0);
    }
}

/// A record that shows the latest time for each kept one, and one with its ages.
#[test]
fn a_record_that_ticks_move_is_found() {
    let latest = Form { kept: |latest, _| as_received(latest).to_string(), ..FORM };
    for wrong in [latest, FORM] {
        for interface in [NEWER, OLDER] {
            assert!(over_histories(RULES, &wrong, interface).contains(&Told::Record));
        }
    }
}
