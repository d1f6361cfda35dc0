//! Req 12: "while a session stays open and ticks come at most 100 ms apart .. any silence of the power modules, counted
//! as F1 counts it, longer than W + 100 has F1 on some event no more than 100 ms after the silence passed W".

use crate::asked::{OPENING, STATUS};
use crate::clock::ROUND;
use crate::history::{latest, session, Event};
use crate::pages::{NEWER, OLDER};
use crate::rng::Rng;
use crate::rules::{Limits, RULES};
use crate::tick_histories::{heard, histories, with_wrong, Rules};
use crate::tick_slips::WRONG_SILENCE;

/// 02: "at most 100 ms apart", and "no more than 100 ms after".
const APART: u64 = 100;

/// The history with ticks at most `most` ms apart since each opening, and on behind its last event; long pauses are cut
/// short, and the first time is the one given.
fn ticked(rng: &mut Rng, history: &[Event], first: u64, most: u64) -> Vec<Event> {
    let mut events: Vec<Event> = Vec::new();
    let (mut now, mut next) = (first, None);
    for (place, event) in history.iter().enumerate() {
        let before = place.checked_sub(1).map_or(event.time, |place| history[place].time);
        now += (event.time - before) % 3000;
        tick_until(rng, &mut events, &mut next, now, most);
        events.push(Event { time: now, ..*event });
        let opens = event.is(OPENING) && session(&history[..place]).is_none();
        if opens {
            next = Some(now + rng.pick(&[1, most - 1, most]));
        }
    }
    tick_until(rng, &mut events, &mut next, now + 1500, most);
    events
}

fn tick_until(rng: &mut Rng, events: &mut Vec<Event>, next: &mut Option<u64>, until: u64, most: u64) {
    while let Some(time) = next.filter(|time| *time <= until) {
        events.push(Event { time, message: None });
        let some = 1 + rng.below(most);
        *next = Some(time + rng.pick(&[most, most, most, some]));
    }
}

/// How many events came in a silence longer than W + 100 or ended it, and how many found it untold: F1 came late or not
/// at all.
#[derive(Default)]
struct Silences {
    long: usize,
    untold: usize,
}

fn silences(rules: Rules, limits: Limits, events: Vec<Event>) -> Silences {
    let heard = heard(rules, limits, events.into_iter()).expect("times that do not run back");
    let history = &heard.post().history;
    let mut silences = Silences::default();
    for (place, event) in history.iter().enumerate() {
        let Some(session) = session(&history[..place]) else {
            continue;
        };
        let status = latest(session, STATUS).map_or(0, |status| status.time);
        let passed = status.max(session[0].time) + u64::from(limits.silence);
        if event.time > passed {
            let tells =
                |at: usize| (passed + 1..=passed + APART).contains(&history[at].time) && heard.answers[at] & 1 == 1;
            silences.long += usize::from(event.time > passed + APART);
            silences.untold += usize::from(!(place - session.len()..=place).any(tells));
        }
    }
    silences
}

/// Of posts of that interface.
fn over_histories(rules: Rules, most: u64, interface: u32) -> Silences {
    let mut all = Silences::default();
    for seed in 1..3 {
        let mut rng = Rng::new(seed);
        for (limits, history) in histories(seed, interface) {
            let limits = Limits { silence: rng.pick(&[100, 250, 500]), ..limits };
            let first = rng.pick(&[0, ROUND - 1000]);
            let Silences { long, untold } = silences(rules, limits, ticked(&mut rng, &history, first, most));
            all.long += long;
            all.untold += untold;
        }
    }
    all
}

#[test]
fn each_silence_is_told_within_100_ms() {
    for interface in [NEWER, OLDER] {
        let all = over_histories(RULES, APART, interface);
        assert_eq!(all.untold, 0);
        assert!(all.long > 1000, "{} of interface {interface}", all.long);
    }
}

#[test]
fn ticks_101_ms_apart_are_too_few() {
    for interface in [NEWER, OLDER] {
        assert!(over_histories(RULES, APART + 1, interface).untold > 0);
    }
}

#[test]
fn each_late_or_missing_f1_is_found() {
    for (place, wrong) in WRONG_SILENCE.iter().enumerate() {
        for interface in [NEWER, OLDER] {
            assert!(over_histories(with_wrong(wrong), APART, interface).untold > 0, "{place} of interface {interface}");
        }
    }
}
