//! Decimal and hexadecimal digits, and nothing else: no sign, no blank.

/// `None` where a byte is no digit, where there is none, or where the number has more than 64 bits.
pub fn decimal(digits: &[u8]) -> Option<u64> {
    let all = !digits.is_empty() && digits.iter().all(u8::is_ascii_digit);
    std::str::from_utf8(digits).ok().filter(|_| all)?.parse().ok()
}

/// Both cases: candump writes capitals.
pub fn hexadecimal(digit: u8) -> Option<u8> {
    char::from(digit).to_digit(16).map(|value| value as u8)
}

#[cfg(test)]
mod tests {
    use super::*;

    #[test]
    fn decimals() {
        assert_eq!(decimal(b"007"), Some(7));
        assert_eq!(decimal(b"18446744073709551615"), Some(u64::MAX));
        for other in [&b""[..], b"+7", b"-7", b" 7", b"7\xff", b"18446744073709551616"] {
            assert_eq!(decimal(other), None, "{}", other.escape_ascii());
        }
    }

    #[test]
    fn hexadecimals() {
        assert_eq!(b"0aF".map(hexadecimal), [Some(0), Some(10), Some(15)]);
        assert_eq!(b"g+\xc1".map(hexadecimal), [None; 3]);
    }
}
