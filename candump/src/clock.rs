//! The log's time, 32 bits of milliseconds, out of a line's stamp.

pub enum Clock {
    /// From the first line that has a stamp, whether the line is left out or not: so the map changes no time.
    First(Option<u64>),
    /// What a clock of 32 bits shows, which comes round: modulo 2^32.
    Wrap,
}

impl Clock {
    /// By its name on the command line.
    pub fn named(name: &str) -> Option<Clock> {
        match name {
            "first" => Some(Clock::First(None)),
            "wrap" => Some(Clock::Wrap),
            _ => None,
        }
    }

    /// `Err` says why the log has no time for the stamp.
    pub fn time(&mut self, stamp: u64) -> Result<u32, &'static str> {
        match self {
            Clock::Wrap => Ok(stamp as u32),
            Clock::First(first) => {
                let since = stamp.checked_sub(*first.get_or_insert(stamp)).ok_or("a stamp before the first line's")?;
                u32::try_from(since).map_err(|_| "a stamp more than 4294967295 ms after the first line's")
            }
        }
    }
}

pub fn no_clock(name: &str) -> String {
    format!("--clock {name}: neither first nor wrap")
}

#[cfg(test)]
mod tests {
    use super::*;

    #[test]
    fn from_the_first_line() {
        let mut clock = Clock::named("first").unwrap();
        let first = 1_700_000_000_123;
        assert_eq!(clock.time(first), Ok(0));
        assert_eq!(clock.time(first + 7), Ok(7));
        assert_eq!(clock.time(first + 3), Ok(3));
        assert_eq!(clock.time(first - 1), Err("a stamp before the first line's"));
        assert_eq!(clock.time(first + 0xffff_ffff), Ok(u32::MAX));
        assert_eq!(clock.time(first + 0x1_0000_0000), Err("a stamp more than 4294967295 ms after the first line's"));
    }

    #[test]
    fn modulo() {
        let mut clock = Clock::named("wrap").unwrap();
        let stamps = [0xffff_ffff, 0x1_0000_0000, 0x1_0000_0001, 0, u64::MAX];
        assert_eq!(stamps.map(|stamp| clock.time(stamp)), [Ok(u32::MAX), Ok(0), Ok(1), Ok(0), Ok(u32::MAX)]);
    }

    #[test]
    fn no_other() {
        assert!(Clock::named("last").is_none());
    }
}
