//! A frame as candump writes it: `ID#BYTES`, three digits for a standard identifier and eight for an extended one.

use crate::fields::{Fault, Field};
use crate::log::Frame;
use crate::numbers::hexadecimal;

/// linux/can.h's bit for a message of the controller about an error; it is the first above an identifier's 29.
const ERROR: u32 = 1 << 29;

/// A frame that no log holds (remote, error, FD) is a fault too; that its numbers are not too large for one is the log's to judge.
pub fn read(field: Field) -> Result<Frame, Fault> {
    let cross = field
        .bytes
        .iter()
        .position(|&byte| byte == b'#')
        .ok_or_else(|| field.fault("no frame ID#BYTES as candump -L writes it"))?;
    let identifier = digits(field, 0, cross)?;
    let extended = match identifier.len() {
        3 => false,
        8 => true,
        other => return Err(field.fault(format!("an identifier of {other} digits, neither 3 nor 8"))),
    };
    let id = identifier.iter().fold(0, |id, &digit| id << 4 | u32::from(digit));
    if extended && (ERROR..2 * ERROR).contains(&id) {
        return Err(field.fault("an error frame"));
    }
    match field.bytes.get(cross + 1) {
        Some(b'#') => return Err(field.fault_at(cross, "an FD frame")),
        Some(b'R') => return Err(field.fault_at(cross, "a remote frame")),
        _ => (),
    }
    let halves = digits(field, cross + 1, field.bytes.len())?;
    if halves.len() % 2 == 1 {
        return Err(field.fault_at(field.bytes.len() - 1, "half a byte"));
    }
    Ok(Frame { id, extended, bytes: halves.chunks(2).map(|pair| pair[0] << 4 | pair[1]).collect() })
}

fn digits(field: Field, from: usize, to: usize) -> Result<Vec<u8>, Fault> {
    let digit = |at| {
        let byte = field.bytes[at];
        let fault = || field.fault_at(at, format!("{} is no hexadecimal digit", byte.escape_ascii()));
        hexadecimal(byte).ok_or_else(fault)
    };
    (from..to).map(digit).collect()
}

pub fn write(frame: &Frame) -> String {
    let bytes: String = frame.bytes.iter().map(|byte| format!("{byte:02X}")).collect();
    let places = if frame.extended { 8 } else { 3 };
    format!("{:0places$X}#{bytes}", frame.id)
}

#[cfg(test)]
mod tests {
    use super::*;

    fn read_at_30(text: &str) -> Result<Frame, Fault> {
        read(Field { column: 30, bytes: text.as_bytes() })
    }

    fn refused(text: &str) -> String {
        read_at_30(text).expect_err(text).to_string()
    }

    #[test]
    fn there_and_back() {
        for (text, id, extended, bytes) in [
            ("000#", 0, false, &[][..]),
            ("7FF#00", 0x7ff, false, &[0]),
            ("00000000#", 0, true, &[]),
            ("0006B000#01", 0x6b000, true, &[1]),
            ("1FFFFFFF#0123456789ABCDEF", 0x1fff_ffff, true, &[1, 0x23, 0x45, 0x67, 0x89, 0xab, 0xcd, 0xef]),
        ] {
            assert_eq!(read_at_30(text), Ok(Frame { id, extended, bytes: bytes.to_vec() }));
            assert_eq!(write(&Frame { id, extended, bytes: bytes.to_vec() }), text);
            assert_eq!(read_at_30(&text.to_lowercase()), read_at_30(text));
        }
    }

    #[test]
    fn too_large_for_a_log() {
        assert_eq!(read_at_30("FFF#").map(|frame| frame.id), Ok(0xfff));
        assert_eq!(read_at_30("40000000#").map(|frame| frame.id), Ok(0x4000_0000));
        assert_eq!(read_at_30("123#000102030405060708").map(|frame| frame.bytes.len()), Ok(9));
    }

    #[test]
    fn frames_that_no_log_holds() {
        for text in ["123#R", "123#R8", "0006B000#R0", "123#R8_9"] {
            assert!(refused(text).ends_with(": a remote frame"), "{text}");
        }
        for text in ["123##0", "0006B000##101020304"] {
            assert!(refused(text).ends_with(": an FD frame"), "{text}");
        }
        for text in ["20000000#", "20000004#0000000000000000", "3FFFFFFF#R"] {
            assert_eq!(refused(text), "column 30: an error frame");
        }
    }

    #[test]
    fn no_frames() {
        assert_eq!(refused("123"), "column 30: no frame ID#BYTES as candump -L writes it");
        assert_eq!(refused("#00"), "column 30: an identifier of 0 digits, neither 3 nor 8");
        assert_eq!(refused("6B000#01"), "column 30: an identifier of 5 digits, neither 3 nor 8");
        assert_eq!(refused("12G#01"), "column 32: G is no hexadecimal digit");
        assert_eq!(refused("123#0102_9"), "column 38: _ is no hexadecimal digit");
        assert_eq!(refused("123#01\u{e9}"), "column 36: \\xc3 is no hexadecimal digit");
        assert_eq!(refused("123#010"), "column 36: half a byte");
    }
}
