//! A record's stamp out of the log's time, 32 bits of milliseconds: the other way of clock.rs.

pub enum Stamps {
    /// Time 0 has that stamp.
    First(u64),
    /// Times are what a clock of 32 bits showed, which comes round: the first record's stamp is the next one of its time from
    /// there on, each other one's is counted from the record before.
    Wrap { from: u64, begun: bool },
}

impl Stamps {
    /// By the clock's name on the command line.
    pub fn named(name: &str, start: u64) -> Option<Stamps> {
        match name {
            "first" => Some(Stamps::First(start)),
            "wrap" => Some(Stamps::Wrap { from: start, begun: false }),
            _ => None,
        }
    }

    /// None where a stamp would be below 0 or too large. A wrapped difference of half a round or more goes back, as the watch
    /// has it (02, Req 09).
    pub fn of(&mut self, time: u32) -> Option<u64> {
        match self {
            Stamps::First(start) => start.checked_add(u64::from(time)),
            Stamps::Wrap { from, begun } => {
                let later = time.wrapping_sub(*from as u32);
                let by = if *begun { i64::from(later as i32) } else { i64::from(later) };
                let stamp = from.checked_add_signed(by)?;
                (*from, *begun) = (stamp, true);
                Some(stamp)
            }
        }
    }
}

#[cfg(test)]
mod tests {
    use super::*;
    use crate::clock::Clock;

    const ROUND: u64 = 1 << 32;

    #[test]
    fn from_time_0() {
        let mut stamps = Stamps::named("first", 1000).unwrap();
        assert_eq!([7, u32::MAX, 0].map(|time| stamps.of(time)), [Some(1007), Some(1000 + ROUND - 1), Some(1000)]);
        assert_eq!(Stamps::named("first", u64::MAX).unwrap().of(1), None);
    }

    #[test]
    fn on_across_the_round() {
        let mut stamps = Stamps::named("wrap", 0).unwrap();
        let times = [4_294_967_290, 5, 4_294_967_295, 0, 1 << 31, (1 << 31) - 1, u32::MAX - 1, 1];
        let half = ROUND / 2;
        let want = [ROUND - 6, ROUND + 5, ROUND - 1, ROUND, half, half - 1, ROUND - 2, ROUND + 1];
        assert_eq!(times.map(|time| stamps.of(time)), want.map(Some));
        // Half a round is earlier, one ms less is later.
        assert_eq!(
            [0, (1 << 31) - 1, u32::MAX - 1].map(|time| stamps.of(time)),
            [ROUND, ROUND + half - 1, 2 * ROUND - 2].map(Some)
        );
    }

    #[test]
    fn nothing_before_0() {
        let mut stamps = Stamps::named("wrap", 3).unwrap();
        assert_eq!([5, u32::MAX, 6].map(|time| stamps.of(time)), [Some(5), None, Some(6)]);
        assert_eq!(Stamps::named("wrap", u64::MAX).unwrap().of(0), None);
    }

    /// Stamps of any turn come back where they are less than half a round apart, and the first less than a round behind the start.
    #[test]
    fn the_clock_goes_back() {
        let start = 1_700_000_000_123;
        let stamps =
            [0, 1, 500, 2_000_000_000, 4_000_000_000, ROUND, ROUND - 1, 6_000_000_000, 8_000_000_000, 2 * ROUND + 7];
        let mut back = Stamps::named("wrap", start - 100).unwrap();
        let mut clock = Clock::named("wrap").unwrap();
        for stamp in stamps.map(|later| start + later) {
            assert_eq!(clock.time(stamp).map(|time| back.of(time)), Ok(Some(stamp)));
        }
    }

    #[test]
    fn no_other() {
        assert!(Stamps::named("last", 0).is_none());
    }
}
