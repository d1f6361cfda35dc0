//! A post's record as one line: 01's "A post's record is", each part looked up in the list of its events.

use crate::asked::{protocol_and_plug, CONTROL, STATUS, STOP};
use crate::clock::{age, as_received};
use crate::codec::Message;
use crate::fields::form;
use crate::history::{latest, latest_time, session, Event};
use crate::pages::{self, Kind, Page};
use crate::posts::Post;
use crate::tallies::Counts;

/// How a record is shown.
pub struct Form {
    /// The order of the latest messages.
    pub order: fn(&Page) -> (bool, u32),
    /// What stands for DC_Power_Control in the session's part.
    pub control: &'static [Kind],
    /// The stop in the session's part, by the post's events; none where no session is open.
    pub stop: fn(&[Event]) -> Option<&Event>,
    /// What is told of the session's opening.
    pub first: fn(&Message) -> Vec<i64>,
    /// `T`, for the latest accepted time and the kept one, both unrolled.
    pub kept: fn(u64, u64) -> String,
}

/// Standard identifiers first, then extended ones, each ascending; 02: "the record keeps times as received and ages beside
/// them".
pub const FORM: Form = Form {
    order: |page| (page.extended, page.id),
    control: CONTROL,
    stop: |past| latest(session(past)?, STOP),
    first: |opening| protocol_and_plug(opening).to_vec(),
    kept: |latest, kept| format!("{}+{}", as_received(kept), age(latest, kept)),
};

pub fn line(post: &Post, counts: &Counts) -> String {
    line_in(&FORM, post, counts)
}

pub fn line_in(form: &Form, post: &Post, counts: &Counts) -> String {
    let past = &post.history;
    let session = session(past);
    let kept = |event: &Event| (form.kept)(latest_time(past).unwrap_or(event.time), event.time);
    let stamped = |event: &Event| event.message.map(|known| format!("{}@{}", message(&known), kept(event)));
    let in_session = |kinds| session.and_then(|session| latest(session, kinds)).and_then(stamped);
    let first = session.and_then(|session| session[0].message);
    let limits = &post.limits;
    let parts = [
        format!("K ch={}", post.channel),
        format!("volt={}", limits.volt),
        format!("chg={}", limits.charge),
        format!("dis={}", limits.discharge),
        format!("w={}", limits.silence),
        format!("sensor={}", limits.sensor),
        format!("iface={}", limits.interface),
        format!("last={}", or_none(latest_time(past).map(|time| as_received(time).to_string()))),
        format!("open={}", u8::from(session.is_some())),
        format!("since={}", or_none(session.map(|session| kept(&session[0])))),
        format!("first={}", or_none(first.map(|first| joined(&(form.first)(&first))))),
        format!("spms={}", or_none(in_session(STATUS))),
        format!("sdpc={}", or_none(in_session(form.control))),
        format!("sstop={}", or_none((form.stop)(past).and_then(stamped))),
        format!("n={}", counts.accepted),
        format!("tally={}", counts.tallies.map(|tally| tally.to_string()).join(",")),
        format!("latest={}", or_none(each_latest(past, form.order, stamped))),
    ];
    parts.join(" ")
}

/// `MSG`: `ID` `x`|`s` `:` `VALUES`.
pub fn message(message: &Message) -> String {
    let page = message.kind.page();
    format!("{:x}{}:{}", page.id, form(page.extended), joined(&message.values()))
}

fn joined(values: &[i64]) -> String {
    let values: Vec<String> = values.iter().map(i64::to_string).collect();
    values.join(",")
}

fn each_latest(
    past: &[Event],
    order: fn(&Page) -> (bool, u32),
    stamped: impl Fn(&Event) -> Option<String>,
) -> Option<String> {
    let mut pages: Vec<&Page> = pages::all().collect();
    pages.sort_by_key(|page| order(page));
    let all: Vec<String> = pages.iter().filter_map(|page| latest(past, &[page.kind])).filter_map(stamped).collect();
    (!all.is_empty()).then(|| all.join(";"))
}

fn or_none(part: Option<String>) -> String {
    part.unwrap_or_else(|| "-".to_string())
}
