//! Req 01 from both sides of each bound, and the decided reading of it (R1).

use crate::log::{self, Ending};
use crate::posts::{Arrival, Frame};
use crate::readings::holds;

#[test]
fn the_example() {
    holds(
        "logw f 300 2 6b000 x 01 0000000000000000 => A 8 ac020281c0350101
         logr ac020281c0350101 => L 1 f,300,2,6b000,x,01 END
         logw t 300 2 0000000000 => A 5 ac02020009
         logr ac02020009ac020281c0350101 => L 2 t,300,2 f,300,2,6b000,x,01 END
         logr ac02020009ac020281c03501 => L 1 t,300,2 CUT@5
         logr - => L 0 END",
    );
}

#[test]
fn writer_each_bound() {
    holds(
        "logw t 0 31 00000000 => A 4 001f0009
         logw t 0 32 00000000 => R17 00000000
         logw t 0 4294967295 - => R17 -
         logw f 0 0 7ff s - 0000000000 => A 5 0000fe1f00
         logw f 0 0 800 s - 0000000000 => R18 0000000000
         logw f 0 0 ffffffff s - - => R18 -
         logw f 0 0 1fffffff x - 0000000000000000 => A 8 0000ffffffff0300
         logw f 0 0 20000000 x - 0000000000000000 => R19 0000000000000000
         logw f 0 0 ffffffff x - - => R19 -
         logw f 0 0 0 s 0102030405060708 000000000000000000000000 => A 12 000000080102030405060708
         logw f 0 0 0 s 010203040506070809 00000000000000000000000000 => R20 00000000000000000000000000",
    );
}

#[test]
fn writer_order_and_buffers() {
    holds(
        "logw f 0 32 800 s 000000000000000000 ff => R17 ff
         logw f 0 32 20000000 x 000000000000000000 ff => R17 ff
         logw f 0 31 800 s 000000000000000000 ff => R18 ff
         logw f 0 31 20000000 x 000000000000000000 ff => R19 ff
         logw f 0 31 7ff s 000000000000000000 ff => R20 ff
         logw f 0 31 7ff s 0000000000000000 ff => R8 ff
         logw f 0 0 0 s 07 ffffffff => R8 ffffffff
         logw f 0 0 0 s 07 ffffffffff => A 5 0000000107
         logw f 0 0 0 s 07 ffffffffffffff => A 5 0000000107ffff
         logw t 4294967295 31 ffffffffffffff => R8 ffffffffffffff
         logw t 4294967295 31 ffffffffffffffff => A 8 ffffffff0f1f0009
         logw t 0 0 - => R8 -",
    );
}

#[test]
fn reader_each_bound() {
    holds(
        "logr 001f0009 => L 1 t,0,31 END
         logr 00200009 => L 0 BAD R17@0
         logr 0000fe1f00 => L 1 f,0,0,7ff,s,- END
         logr 0000802000 => L 0 BAD R18@0
         logr 0000feffffff0f00 => L 0 BAD R18@0
         logr 0000812000 => L 1 f,0,0,800,x,- END
         logr 0000ffffffff0300 => L 1 f,0,0,1fffffff,x,- END
         logr 0000818080800400 => L 0 BAD R19@0
         logr 0000ffffffff0f00 => L 0 BAD R19@0
         logr 000000080102030405060708 => L 1 f,0,0,0,s,0102030405060708 END
         logr 0000000a00000000000000000000 => L 0 BAD R20@0
         logr 00000009 => L 1 t,0,0 END
         logr 00000109 => L 0 BAD R21@0
         logr 00000209 => L 0 BAD R21@0
         logr 0000010a => L 0 BAD R20@0
         logr 0000000900000209 => L 1 t,0,0 BAD R21@4",
    );
}

#[test]
fn numbers_of_every_length() {
    for (number, groups) in [
        (0, "00"),
        (127, "7f"),
        (128, "8001"),
        (16_383, "ff7f"),
        (16_384, "808001"),
        (2_097_151, "ffff7f"),
        (2_097_152, "80808001"),
        (268_435_455, "ffffff7f"),
        (268_435_456, "8080808001"),
        (4_294_967_295_u32, "ffffffff0f"),
    ] {
        holds(&format!("logr {groups}000009 => L 1 t,{number},0 END"));
    }
}

#[test]
fn ill_formed_numbers_in_each_part() {
    for groups in ["8000", "ff00", "808000", "80808000", "8080808000", "ffffffff10", "ffffffff7f", "808080808001"] {
        for before in ["", "00", "0000", "000000"] {
            holds(&format!(
                "logr {before}{groups} => L 0 BAD R16@0
                 logr 00000009{before}{groups}00000009 => L 1 t,0,0 BAD R16@4"
            ));
        }
    }
}

/// R1: a number that runs out of bytes is a cut, but one of five groups is judged by the fifth.
#[test]
fn numbers_cut() {
    for before in ["", "00", "0000", "000000"] {
        holds(&format!(
            "logr {before}80 => L 0 CUT@0
             logr {before}ffffffff => L 0 CUT@0
             logr {before}8080808080 => L 0 BAD R16@0
             logr {before}8080808010 => L 0 BAD R16@0"
        ));
    }
}

/// R1: "A part that is bad decides even where the log is cut after it", and a bad part before it decides first.
#[test]
fn the_earliest_bad_part_goes_before_a_cut() {
    holds(
        "logr 0020 => L 0 BAD R17@0
         logr 00208000 => L 0 BAD R17@0
         logr 800020 => L 0 BAD R16@0
         logr 00208020 => L 0 BAD R17@0
         logr 00008020 => L 0 BAD R18@0
         logr 000080208000 => L 0 BAD R18@0
         logr 00008180808004 => L 0 BAD R19@0
         logr 000081808080040a => L 0 BAD R19@0
         logr 0000000a => L 0 BAD R20@0
         logr 0000000801 => L 0 CUT@0
         logr 00000109 => L 0 BAD R21@0
         logr 00ff => L 0 CUT@0",
    );
}

/// R1: "Identifier part 0 with length 0 to 8 is a standard frame with identifier 0".
#[test]
fn identifier_0() {
    holds(
        "logr 00000000 => L 1 f,0,0,0,s,- END
         logr 00000100 => L 1 f,0,0,0,x,- END
         logr 000000080000000000000009 => L 1 f,0,0,0,s,0000000000000009 END",
    );
}

#[test]
fn lines_that_are_no_log_steps() {
    holds(
        "logr => ?
         logr 0 => ?
         logr 0A => ?
         logr - - => ?
         logw t 0 0 => ?
         logw t 0 0 - - => ?
         logw t 4294967296 0 - => ?
         logw t 0 4294967296 - => ?
         logw t -1 0 - => ?
         logw f 0 0 0 s - => ?
         logw f 0 0 0 y - - => ?
         logw f 0 0 00 s - - => ?
         logw f 0 0 100000000 x - - => ?
         logw f 0 0 0 s 0 - => ?
         logw x 0 0 - => ?
         logw 0 0 - => ?",
    );
}

/// Frames of each length and form and ticks, with times and identifiers of one group to five.
fn night() -> Vec<Arrival<'static>> {
    let times = [0, 127, 128, 16_384, 2_097_152, 268_435_456, u32::MAX];
    let ids = [0, 63, 64, 2047, 8192, 1 << 20, (1 << 27) - 1, (1 << 29) - 1];
    let payload = &[0x80, 9, 0, 0xff, 1, 0x20, 0, 0x80];
    let mut night = Vec::new();
    for (place, time) in times.into_iter().enumerate() {
        let channel = 31 - place as u32;
        night.push(Arrival { channel, time, frame: None });
        for (length, id) in (place % 2..=8).zip(ids) {
            let frame = Frame { id, extended: id > 2047 || place % 3 == 0, bytes: &payload[..length] };
            night.push(Arrival { channel, time, frame: Some(frame) });
        }
    }
    night
}

#[test]
fn a_log_cut_after_every_byte() {
    let night = night();
    let mut bytes = vec![0; 10_000];
    let mut ends = vec![0];
    for record in &night {
        let at = ends[ends.len() - 1];
        ends.push(at + log::write(record, &mut bytes[at..]).unwrap());
    }
    for cut in 0..=ends[night.len()] {
        let log = log::read(&bytes[..cut]);
        let whole = ends.iter().filter(|&&end| end <= cut).count() - 1;
        assert_eq!(log.records, night[..whole], "{cut}");
        assert_eq!(log.at, ends[whole], "{cut}");
        assert_eq!(log.ending, if ends[whole] == cut { Ending::End } else { Ending::Cut }, "{cut}");
    }
}
