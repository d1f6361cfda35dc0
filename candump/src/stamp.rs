//! Stamps in milliseconds. What a stamp says below a millisecond is cut off: 0.000999 s is 0 ms.

use crate::numbers::decimal;

/// `(SECONDS.MICROSECONDS)`. A stamp of nine decimals is one in nanoseconds; with another number of them nobody can tell.
pub fn read(field: &[u8]) -> Option<u64> {
    let stamp = field.strip_prefix(b"(")?.strip_suffix(b")")?;
    let decimals = stamp.len() - stamp.iter().position(|&byte| byte == b'.')? - 1;
    milliseconds(stamp).filter(|_| decimals == 6 || decimals == 9)
}

/// Seconds with decimals or without.
pub fn milliseconds(seconds: &[u8]) -> Option<u64> {
    let mut parts = seconds.splitn(2, |&byte| byte == b'.');
    let whole = decimal(parts.next()?)?;
    let part = parts.next().unwrap_or(b"0");
    decimal(part)?;
    let thousandths = decimal(&[part, b"00"].concat()[..3])?;
    whole.checked_mul(1000)?.checked_add(thousandths)
}

/// As candump writes it: ten places for the seconds.
pub fn write(milliseconds: u64) -> String {
    format!("({:010}.{:03}000)", milliseconds / 1000, milliseconds % 1000)
}

#[cfg(test)]
mod tests {
    use super::*;

    #[test]
    fn cut_to_the_millisecond() {
        assert_eq!(read(b"(1700000000.123456)"), Some(1_700_000_000_123));
        assert_eq!(read(b"(0000000000.000999)"), Some(0));
        assert_eq!(read(b"(1.999999)"), Some(1999));
        assert_eq!(read(b"(1.999999999)"), Some(1999));
        assert_eq!(read(b"(18446744073709551.615999)"), Some(u64::MAX));
    }

    #[test]
    fn no_stamps() {
        let others = [
            "",
            "()",
            "(.)",
            "(1)",
            "(1.)",
            "(.000001)",
            "(1.5)",
            "(1.00000)",
            "(1.0000000)",
            "1.000001",
            "(1.000001",
            "1.000001)",
            "(-1.000001)",
            "(1.00000a)",
            "(1.000.01)",
            "((1.000001))",
            "(18446744073709551.616000)",
            "(18446744073709551616.000000)",
        ];
        for other in others {
            assert_eq!(read(other.as_bytes()), None, "{other}");
        }
    }

    #[test]
    fn seconds() {
        assert_eq!(milliseconds(b"17"), Some(17_000));
        assert_eq!(milliseconds(b"17.5"), Some(17_500));
        assert_eq!(milliseconds(b"17.0625"), Some(17_062));
        for other in [&b""[..], b".5", b"17.", b"17.5.", b"17,5", b"-1", b"1e3"] {
            assert_eq!(milliseconds(other), None, "{}", other.escape_ascii());
        }
    }

    #[test]
    fn written_as_candump_does() {
        assert_eq!(write(0), "(0000000000.000000)");
        assert_eq!(write(1_700_000_000_123), "(1700000000.123000)");
        assert_eq!(read(write(u64::MAX).as_bytes()), Some(u64::MAX));
    }
}
