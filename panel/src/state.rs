//! The state of the page as JSON: what is looked up of each post, and how fresh it is.

use std::time::{Duration, SystemTime};

use crate::clock::{self, lasting, told};
use crate::follow::{Finding, Follower, Stand, Told};
use crate::json::Json;
use crate::library::{Depot, Numbers, Part, FINDINGS, OLDER, POSTS, YES_NO};
use crate::pages::{self, tenths};
use crate::readings::{self, Look, Reading};
use crate::words;

/// What the log is as fresh as.
struct Fresh {
    /// The latest accepted time of the post that accepted last: the recorder's clock.
    recorder: Option<u32>,
    /// When the file was last written, by the wall clock, and how long ago that is.
    written: Option<SystemTime>,
    ago: Duration,
}

impl Fresh {
    fn of(follower: &Follower, now: SystemTime) -> Fresh {
        let recorder = follower.latest.and_then(|post| follower.depot.look_up(post as u32)).map(|numbers| numbers.time);
        let written = follower.log.written().ok().map(|(_, time)| time);
        let ago = written.and_then(|time| now.duration_since(time).ok()).unwrap_or_default();
        Fresh { recorder, written, ago }
    }

    fn json(&self) -> Json {
        let ms =
            |time: SystemTime| time.duration_since(SystemTime::UNIX_EPOCH).map_or(0, |since| since.as_millis() as u64);
        Json::Object(vec![
            ("recorder", self.recorder.map_or(Json::None, |time| Json::text(told(time)))),
            ("written", self.written.map_or(Json::None, |time| Json::Number(ms(time)))),
            ("ago", Json::text(seconds(self.ago))),
        ])
    }
}

/// Wall clocks are told to the second.
fn seconds(span: Duration) -> String {
    match span.as_secs() {
        whole @ 0..60 => format!("{whole} s"),
        whole => lasting(whole * 1000),
    }
}

/// The whole page at this moment.
pub fn state(follower: &Follower, now: SystemTime) -> String {
    let fresh = Fresh::of(follower, now);
    let posts = (0..POSTS).map(|post| one(follower, &fresh, post)).collect();
    Json::Object(vec![
        ("posts", Json::List(posts)),
        ("fresh", fresh.json()),
        ("refused", Json::Number(follower.depot.refused().into())),
        ("log", log(follower)),
    ])
    .written()
}

fn log(follower: &Follower) -> Json {
    let size = follower.log.written().map_or(0, |(size, _)| size);
    let piece = match follower.stand {
        Stand::Whole { piece } => piece,
        _ => 0,
    };
    Json::Object(vec![
        ("name", Json::text(follower.log.name())),
        ("records", Json::Number(follower.records)),
        ("read", Json::Number(follower.log.at())),
        ("size", Json::Number(size)),
        ("piece", Json::Number(piece)),
        ("trouble", follower.trouble().map_or(Json::None, Json::Text)),
    ])
}

fn one(follower: &Follower, fresh: &Fresh, post: usize) -> Json {
    let number = post as u32;
    let Some(numbers) = follower.depot.look_up(number) else {
        return Json::Object(vec![("post", Json::Number(number.into())), ("channel", Json::None)]);
    };
    let looks = readings::looks(&follower.depot, number);
    let told_of = &follower.told[post];
    Json::Object(vec![
        ("post", Json::Number(number.into())),
        ("channel", Json::Number(numbers.channel.into())),
        ("heard", heard(&numbers, fresh, &looks)),
        ("last", if numbers.heard { Json::text(told(numbers.time)) } else { Json::None }),
        ("limits", limits(&numbers)),
        ("session", session(&follower.depot, number, &numbers)),
        ("readings", rows(readings::readings(&follower.depot, number, &numbers, &looks))),
        ("safety", rows(readings::safety(&looks))),
        ("finding", told_of.latest().map_or(Json::None, |found| finding(told_of, found))),
        ("accepted", Json::Number(follower.depot.counts(number).map_or(0, |counts| counts[0]).into())),
        ("tallies", tallies(&follower.depot, number, told_of)),
        ("messages", messages(&looks, numbers.sensor)),
    ])
}

/// How long ago the post's latest frame came: its age as of the post's latest accepted time, how far the log has gone on since then by the recorder's
/// clock, and how long nothing was written to the log by the wall clock. A tick is no frame that was heard.
fn heard(numbers: &Numbers, fresh: &Fresh, looks: &[Look]) -> Json {
    let latest = looks.iter().min_by_key(|look| look.kept.age);
    let Some(latest) = latest else {
        return Json::Object(vec![("ticks", Json::Bool(numbers.heard))]);
    };
    let behind = fresh.recorder.map_or(0, |time| clock::later(time, numbers.time));
    let ago = u64::from(latest.kept.age) + u64::from(behind) + fresh.ago.as_millis() as u64;
    Json::Object(vec![
        ("time", Json::text(told(latest.kept.time))),
        ("age", Json::text(lasting(latest.kept.age.into()))),
        ("behind", Json::text(lasting(behind.into()))),
        ("ago", Json::text(lasting(ago))),
        ("silent", Json::Bool(ago >= numbers.silence.into())),
    ])
}

fn pair(name: &'static str, value: String) -> Json {
    Json::List(vec![Json::text(name), Json::Text(value)])
}

fn limits(numbers: &Numbers) -> Json {
    let amperes = |tenths_of: u32| format!("{} A", tenths(tenths_of.into()));
    Json::List(vec![
        pair("Voltage limit", format!("{} V", tenths(numbers.voltage.into()))),
        pair("Charge limit", amperes(numbers.charge)),
        pair("Discharge limit", amperes(numbers.discharge)),
        pair("W", format!("{} ms", numbers.silence)),
        pair("Sensor", if numbers.sensor == YES_NO { "yes/no" } else { "measuring" }.to_string()),
        pair(
            "Controller",
            if numbers.interface == OLDER { "older, document 001" } else { "newer, document 000" }.to_string(),
        ),
    ])
}

/// The first protocol and plug, by their labels.
fn session(depot: &Depot, post: u32, numbers: &Numbers) -> Json {
    if !numbers.opened {
        return Json::None;
    }
    let page = pages::named(numbers.interface == OLDER, "New_Charge_Session").and_then(pages::message);
    let label = |signal: &str, number: u32| {
        let known = page.and_then(|page| page.signals[page.place(signal)?].label(number.into()));
        Json::text(known.map_or_else(|| number.to_string(), str::to_string))
    };
    let kept = |part: Part| {
        readings::in_session(depot, post, part).map_or(Json::None, |look| {
            Json::List(vec![
                Json::text(look.message.name),
                Json::text(told(look.kept.time)),
                Json::text(lasting(look.kept.age.into())),
            ])
        })
    };
    Json::Object(vec![
        ("since", Json::text(told(numbers.since))),
        ("age", Json::text(lasting(numbers.since_age.into()))),
        ("protocol", label("Communication_Protocol", numbers.protocol)),
        ("plug", label("Plug_and_pins", numbers.plug)),
        ("status", kept(Part::Status)),
        ("control", kept(Part::Control)),
        ("stop", kept(Part::Stop)),
    ])
}

fn rows(readings: Vec<Reading>) -> Json {
    let row = |reading: Reading| {
        Json::Object(vec![
            ("name", Json::text(reading.name)),
            ("value", Json::Text(reading.value)),
            ("note", Json::Text(reading.note)),
            ("marked", Json::Bool(reading.marked)),
            ("age", Json::text(lasting(reading.age.into()))),
        ])
    };
    Json::List(readings.into_iter().map(row).collect())
}

fn has(word: u32, number: usize) -> bool {
    word >> (number - 1) & 1 == 1
}

fn finding(told_of: &Told, found: Finding) -> Json {
    let each = (1..=FINDINGS).filter(|number| has(found.word, *number));
    let named = each.map(|number| Json::Text(format!("F{number} {}", words::finding(number)))).collect();
    Json::Object(vec![
        ("words", Json::List(named)),
        ("time", Json::text(told(found.time))),
        ("age", Json::text(lasting(told_of.age(found)))),
    ])
}

/// Of each finding how many accepted frames and ticks had it, and when the latest of them was.
fn tallies(depot: &Depot, post: u32, told_of: &Told) -> Json {
    let counts = depot.counts(post).unwrap_or_default();
    let row = |number: usize| {
        Json::Object(vec![
            ("name", Json::Text(format!("F{number}"))),
            ("words", Json::text(words::finding(number))),
            ("count", Json::Number(counts[number].into())),
            ("time", told_of.finding(number).map_or(Json::None, |found| Json::text(told(found.time)))),
        ])
    };
    Json::List((1..=FINDINGS).map(row).collect())
}

fn messages(looks: &[Look], sensor: u32) -> Json {
    let message = |look: &Look| {
        let form = if look.message.is_extended() { "extended" } else { "standard" };
        Json::Object(vec![
            ("name", Json::text(look.message.name)),
            ("id", Json::Text(format!("{form} {:x}", look.message.id))),
            ("time", Json::text(told(look.kept.time))),
            ("age", Json::text(lasting(look.kept.age.into()))),
            ("signals", Json::List(look.signals(sensor).into_iter().map(|(name, value)| pair(name, value)).collect())),
        ])
    };
    Json::List(looks.iter().map(message).collect())
}

#[cfg(test)]
mod tests {
    use super::*;
    use crate::posts;

    /// Of a post with W 500 whose controller spoke at 100, and was ticked at another time.
    fn said(tick: u8, recorder: Option<u32>, ago: u64) -> String {
        let mut depot = Depot::default();
        posts::set_up_all(&mut depot, b"setup 0 4 5000 1000 500 500").unwrap();
        let mut words = [0; 2];
        depot.batch(&[100, 4, 0x81, 0xc0, 0x35, 1, 1], &mut words).unwrap();
        depot.batch(&[0x80 | (tick % 128), tick / 128, 4, 0, 9], &mut words).unwrap();
        let fresh = Fresh { recorder, written: None, ago: Duration::from_millis(ago) };
        heard(&depot.look_up(0).unwrap(), &fresh, &readings::looks(&depot, 0)).written()
    }

    /// The mark stands from W on, whichever clock has gone on since the latest frame.
    #[test]
    fn silent_from_w_on() {
        for (tick, recorder, ago, words, silent) in [
            (200, Some(200), 399, "499 ms", false),
            (200, Some(200), 400, "500 ms", true),
            (200, Some(599), 0, "499 ms", false),
            (200, Some(600), 0, "500 ms", true),
            (150, Some(400), 199, "499 ms", false),
            (150, Some(400), 200, "500 ms", true),
            // the log's latest time is another clock's
            (200, Some(4_000_000_000), 0, "100 ms", false),
        ] {
            let told = said(tick, recorder, ago);
            assert!(told.contains(&format!(r#""ago":"{words}","silent":{silent}"#)), "{told}");
        }
    }

    #[test]
    fn never_heard() {
        let mut depot = Depot::default();
        posts::set_up_all(&mut depot, b"setup 0 4 5000 1000 500 500").unwrap();
        let fresh = Fresh { recorder: None, written: None, ago: Duration::ZERO };
        let told = |depot: &Depot| heard(&depot.look_up(0).unwrap(), &fresh, &readings::looks(depot, 0)).written();
        assert_eq!(told(&depot), r#"{"ticks":false}"#);
        depot.batch(&[10, 4, 0, 9], &mut [0]).unwrap();
        assert_eq!(told(&depot), r#"{"ticks":true}"#);
    }
}
