//! Times of the recorder's clock and lengths of time in words, as the page of a night has them (report/clock.py).

/// As the clock showed it: `0:00:12.345`.
pub fn told(time: u32) -> String {
    format!("{}:{:02}:{:02}.{:03}", time / 3_600_000, time / 60_000 % 60, time / 1000 % 60, time % 1000)
}

/// A length of time: 340 ms, 11.470 s, 4 min 5 s, 8 h 20 min.
pub fn lasting(span: u64) -> String {
    match span {
        0..1000 => format!("{span} ms"),
        1000..60_000 => format!("{}.{:03} s", span / 1000, span % 1000),
        60_000..3_600_000 => format!("{} min {} s", span / 60_000, span / 1000 % 60),
        _ => format!("{} h {} min", span / 3_600_000, span / 60_000 % 60),
    }
}

/// How much later a time is than another, by a clock that comes round: 0 where it is earlier (02, Req 09).
pub fn later(time: u32, than: u32) -> u32 {
    let difference = time.wrapping_sub(than);
    if difference < 1 << 31 {
        difference
    } else {
        0
    }
}

#[cfg(test)]
mod tests {
    use super::*;

    #[test]
    fn words() {
        assert_eq!(told(12_345), "0:00:12.345");
        assert_eq!(told(u32::MAX), "1193:02:47.295");
        let spans = [340, 11_470, 245_000, 30_000_000].map(lasting);
        assert_eq!(spans, ["340 ms", "11.470 s", "4 min 5 s", "8 h 20 min"]);
    }

    #[test]
    fn across_the_round() {
        assert_eq!(later(5, 4_294_967_290), 11);
        assert_eq!(later(100, 100), 0);
        assert_eq!(later(99, 100), 0);
    }
}
