//! The fields of the desk's text format. `None` means ill-formed or too large for its place.

/// `N` as i64: no leading zeros, no plus sign, no `-0`.
pub fn number(field: &[u8]) -> Option<i64> {
    let digits = field.strip_prefix(b"-").unwrap_or(field);
    let zero = digits == b"0" && digits.len() == field.len();
    let plain = digits.iter().all(u8::is_ascii_digit) && matches!(digits.first(), Some(b'1'..=b'9'));
    if !zero && !plain {
        return None;
    }
    std::str::from_utf8(field).ok()?.parse().ok()
}

/// `N` as u32.
pub fn natural(field: &[u8]) -> Option<u32> {
    u32::try_from(number(field)?).ok()
}

/// `VALUES`: numbers joined by commas, at least one.
pub fn values(field: &[u8]) -> Option<Vec<i64>> {
    field.split(|&byte| byte == b',').map(number).collect()
}

/// `ID`: lower-case hexadecimal of 32 bits without leading zeros.
pub fn identifier(field: &[u8]) -> Option<u32> {
    if field != b"0" && field.first() == Some(&b'0') || field.is_empty() || field.len() > 8 {
        return None;
    }
    field.iter().try_fold(0, |id, &byte| Some(id << 4 | u32::from(hex_digit(byte)?)))
}

/// `x` is an extended frame, `s` a standard one.
pub fn extended(field: &[u8]) -> Option<bool> {
    match field {
        b"x" => Some(true),
        b"s" => Some(false),
        _ => None,
    }
}

pub fn form(extended: bool) -> &'static str {
    if extended {
        "x"
    } else {
        "s"
    }
}

/// `HEX`: two lower-case digits a byte, `-` when empty.
pub fn bytes(field: &[u8]) -> Option<Vec<u8>> {
    if field == b"-" {
        return Some(Vec::new());
    }
    if field.is_empty() || !field.len().is_multiple_of(2) {
        return None;
    }
    field.chunks(2).map(|pair| Some(hex_digit(pair[0])? << 4 | hex_digit(pair[1])?)).collect()
}

pub fn hex(bytes: &[u8]) -> String {
    if bytes.is_empty() {
        return "-".to_string();
    }
    bytes.iter().map(|byte| format!("{byte:02x}")).collect()
}

fn hex_digit(byte: u8) -> Option<u8> {
    match byte {
        b'0'..=b'9' => Some(byte - b'0'),
        b'a'..=b'f' => Some(byte - b'a' + 10),
        _ => None,
    }
}

#[cfg(test)]
mod tests {
    use super::*;

    #[test]
    fn numbers() {
        assert_eq!(number(b"0"), Some(0));
        assert_eq!(number(b"-7"), Some(-7));
        assert_eq!(number(b"9223372036854775807"), Some(i64::MAX));
        assert_eq!(number(b"-9223372036854775808"), Some(i64::MIN));
        let ill: [&[u8]; 10] =
            [b"", b"-", b"-0", b"00", b"07", b"+1", b"1 ", b"1\r", b"9223372036854775808", b"-9223372036854775809"];
        for field in ill {
            assert_eq!(number(field), None, "{}", field.escape_ascii());
        }
        assert_eq!(natural(b"4294967295"), Some(u32::MAX));
        assert_eq!(natural(b"4294967296"), None);
        assert_eq!(natural(b"-1"), None);
    }

    #[test]
    fn identifiers_and_bytes() {
        assert_eq!(identifier(b"0"), Some(0));
        assert_eq!(identifier(b"6b000"), Some(0x6b000));
        assert_eq!(identifier(b"ffffffff"), Some(u32::MAX));
        let ill: [&[u8]; 6] = [b"", b"00", b"06b000", b"6B000", b"100000000", b"0x1"];
        for field in ill {
            assert_eq!(identifier(field), None, "{}", field.escape_ascii());
        }
        assert_eq!(bytes(b"-"), Some(vec![]));
        assert_eq!(bytes(b"00ff"), Some(vec![0, 255]));
        for field in [&b""[..], b"0", b"0F", b"--", b"\xff\xff"] {
            assert_eq!(bytes(field), None, "{}", field.escape_ascii());
        }
    }
}
