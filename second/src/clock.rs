//! Req 09's clock: a 32-bit count of milliseconds that comes round, and the unrolled times, which never do.

/// After so many milliseconds the count starts over.
pub const ROUND: u64 = 1 << 32;

/// 02: "a time is earlier than the latest when the wrapped difference is 2^31 or more".
pub const EARLIER: u64 = 1 << 31;

/// 02: "an age stops growing at 4,294,967,295".
pub const OLDEST: u32 = u32::MAX;

/// When something received at that time came, behind that latest unrolled time; none where it is earlier. The first may have
/// any time.
pub fn unrolled(latest: Option<u64>, received: u32) -> Option<u64> {
    let Some(latest) = latest else {
        return Some(u64::from(received));
    };
    let later = difference(latest, received);
    (later < EARLIER).then(|| latest + later)
}

/// How long until a clock that stands at the latest time shows that one.
pub fn difference(latest: u64, received: u32) -> u64 {
    (u64::from(received) + ROUND - latest % ROUND) % ROUND
}

/// What the clock showed.
pub fn as_received(time: u64) -> u32 {
    (time % ROUND) as u32
}

/// Of what was kept at that time, when the latest time came.
pub fn age(latest: u64, kept: u64) -> u32 {
    u32::try_from(latest - kept).unwrap_or(OLDEST)
}
