//! For the service screen, and no part of a message: a probe's degrees, and a duty within 100.0 %.

#[derive(Clone, Copy, Debug, PartialEq)]
pub enum Probe {
    NotUsed,
    Degrees(f32),
}

pub type Prober = fn(i64) -> Probe;
pub type Limiter = fn(i64) -> i64;

const NOT_USED: i64 = 0x1fff;
const WHOLE: i64 = 1000;

/// 02: "either degrees as a float or not used, which is raw 0x1FFF. The float is the raw whole number divided by ten,
/// rounded once"; both numbers are floats as they stand, so that the division alone rounds.
pub fn probe(raw: i64) -> Probe {
    match raw {
        NOT_USED => Probe::NotUsed,
        _ => Probe::Degrees(raw as f32 / 10.0),
    }
}

/// 004: "Values above 100.0% are set as 100%".
pub fn limited_duty(raw: i64) -> i64 {
    raw.min(WHOLE)
}

#[cfg(test)]
mod tests {
    use super::*;

    /// How far ten times a float is from a number, in units of 2^-40, exactly.
    fn off(float: f32, number: i64) -> i128 {
        let bits = float.to_bits();
        let (exponent, fraction) = ((bits >> 23 & 0xff) as i32, i128::from(bits & 0x7f_ffff));
        let size = if exponent == 0 { 0 } else { (fraction + (1 << 23)) << (exponent - 150 + 40) };
        let signed = if bits >> 31 == 1 { -size } else { size };
        (signed * 10 - (i128::from(number) << 40)).abs()
    }

    /// No float beside the answer is as near, so that it is the one that rounding once gives.
    #[test]
    fn degrees_are_the_nearest_float() {
        for raw in (-8192..8191).filter(|&raw| raw != 0) {
            let Probe::Degrees(degrees) = probe(raw) else {
                panic!("{raw} is a reading");
            };
            assert!(off(degrees, raw) < off(degrees.next_up(), raw), "{raw}");
            assert!(off(degrees, raw) < off(degrees.next_down(), raw), "{raw}");
        }
        assert_eq!(probe(0), Probe::Degrees(0.0));
        assert_eq!(probe(8191), Probe::NotUsed);
    }
}
