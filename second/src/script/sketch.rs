//! The generator's idea of a post, good enough to aim by. It judges nothing.

use crate::rules::Limits;

pub struct Sketch {
    pub channel: u32,
    pub limits: Limits,
    /// Unrolled, as the other times are.
    pub now: u64,
    /// Whether its clock runs: the first time may be any.
    pub begun: bool,
    pub status_at: Option<u64>,
    /// The later of the opening and the latest Power_Modules_Status of the session.
    pub heard_at: u64,
    pub open: bool,
    pub first: [i64; 2],
    /// The voltage, charge and discharge limits as last told; 0 where there is none.
    pub received: [i64; 3],
}

impl Sketch {
    pub fn new(channel: u32, limits: Limits, now: u32) -> Sketch {
        let now = u64::from(now);
        let (status_at, heard_at) = (None, now);
        Sketch { channel, limits, now, begun: false, status_at, heard_at, open: false, first: [0, 0], received: [0; 3] }
    }

    /// Numbers at which a limit could stand, rightly or by a slip.
    pub fn marks(&self, which: usize) -> [i64; 5] {
        let default = [self.limits.volt, self.limits.charge, self.limits.discharge][which];
        let (default, received) = (i64::from(default), self.received[which]);
        let applied = if received <= 0 { default } else { default.min(received) };
        [applied, applied, default, received, self.received[1]]
    }
}
