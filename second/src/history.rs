//! A post's accepted events since its set-up, and what is seen by looking back over them.
//!
//! Nothing here is carried along from event to event: each question scans the list.

use crate::asked::{FINISHED, OPENING};
use crate::codec::Message;
use crate::pages::Kind;

/// An accepted frame, or an accepted tick where there is no message. Its time is the unrolled one.
#[derive(Clone, Copy, Debug)]
pub struct Event {
    pub time: u64,
    pub message: Option<Message>,
}

impl Event {
    pub fn is(&self, kinds: &[Kind]) -> bool {
        self.of(kinds).is_some()
    }

    /// The event's message, if it is of one of these kinds.
    pub fn of(&self, kinds: &[Kind]) -> Option<&Message> {
        self.message.as_ref().filter(|message| kinds.contains(&message.kind))
    }
}

/// The latest event of these kinds.
pub fn latest<'a>(past: &'a [Event], kinds: &[Kind]) -> Option<&'a Event> {
    past.iter().rev().find(|event| event.is(kinds))
}

/// The latest message of these kinds.
pub fn latest_message<'a>(past: &'a [Event], kinds: &[Kind]) -> Option<&'a Message> {
    latest(past, kinds)?.of(kinds)
}

/// The events from the opening of the open session on, the opening first; none where no session is open.
///
/// Open means: behind the last Charge_Session_Finished there is a New_Charge_Session. The first such one opened the
/// session; the others are repeats.
pub fn session(past: &[Event]) -> Option<&[Event]> {
    let finished = past.iter().rposition(|event| event.is(FINISHED));
    let since = &past[finished.map_or(0, |place| place + 1)..];
    let opening = since.iter().position(|event| event.is(OPENING))?;
    Some(&since[opening..])
}

/// 01: "its latest accepted time"; unrolled times never run back, so the last event has it.
pub fn latest_time(past: &[Event]) -> Option<u64> {
    past.last().map(|event| event.time)
}
