//! Req 02 from both sides of each edge, and the decided reading of it (R2).

use crate::fields::form;
use crate::pages::{self, NEWER, OLDER};
use crate::readings::holds;

/// 02: "E2 and E16 keep 4".
#[test]
fn e2_e3_e16() {
    holds(
        "read 63000 x a00f83ff410001 => R4
         read 63000 x a00f83ff41000164 => A 63000x:4000,-125,25,-40,1,200
         read 63000 x a00f83ff4100016400 => R15
         read 63000 x a00f83ff41000264 => R5:48
         read 6b001 x - => R4",
    );
}

#[test]
fn one_byte_too_few_and_one_too_many_for_every_message() {
    let older = pages::of(OLDER).map(|page| (page, " 0 1", "1"));
    for (page, interface, one) in pages::of(NEWER).map(|page| (page, "", "")).chain(older) {
        let payload = |length: usize| "01".repeat(length);
        let short = if page.len == 1 { "-".to_string() } else { payload(page.len - 1) };
        let long = payload(page.len + 1);
        holds(&format!(
            "setup 0 4 5000 1000 500 500{interface} => A
             read{one} {id:x} {form} {short} => R4
             read{one} {id:x} {form} {long} => R15
             read{one} {id:x} {form} {far} => R15
             frame 4 0 {id:x} {form} - => R4
             frame 4 0 {id:x} {form} {short} => R4
             frame 4 0 {id:x} {form} {long} => R15
             change{one} {id:x} {form} {short} 0 1 => R4 {short}
             change{one} {id:x} {form} {long} 0 1 => R15 {long}",
            id = page.id,
            form = form(page.extended),
            far = payload(300),
        ));
    }
}

/// 02: "The order stays, with 15 in 4's place".
#[test]
fn the_order() {
    holds(
        "frame 4 99 6b001 x 080500 => R1
         setup 0 4 5000 1000 500 500 => A
         tick 4 100 => A0
         frame 4 99 6b001 x 080500 => R2
         frame 4 100 6b006 x 080500 => R3
         frame 4 100 6b001 s 080500 => R3
         frame 4 100 6b001 x 080500 => R15
         frame 4 100 6b001 x 08 => R4
         frame 4 100 6b001 x 0805 => R5:0
         frame 4 100 6b001 x 0704 => A0
         change 6b001 x 080500 1 999 => R15 080500
         change 6b001 x 08 1 999 => R4 08
         change 6b001 x 0805 1 999 => R5:0 0805
         change 6b001 x 0704 1 999 => R13 0704
         change 6b001 x 0704 8 999 => R7 0704
         change 6b001 x 0704 8 5 => R5:8 0704",
    );
}

#[test]
fn two_offenders_carry_the_lower_start() {
    for (payload, answer) in [("0704", "A0"), ("0804", "R5:0"), ("0705", "R5:8"), ("0805", "R5:0"), ("ffff", "R5:0")] {
        holds(&format!("setup 0 4 5000 1000 500 500 => A\nframe 4 0 6b001 x {payload} => {answer}"));
        let read = if answer == "A0" { "A 6b001x:7,4" } else { answer };
        holds(&format!("read 6b001 x {payload} => {read}"));
    }
    holds(
        "change 6b001 x 0805 8 0 => R5:0 0805
         change 6b001 x 0705 8 0 => R5:8 0705
         change 6b001 x 0705 0 0 => R5:8 0705",
    );
}

/// R2: "Change's own 5, for the new label, carries the start of the changed signal".
#[test]
fn change_to_a_number_without_label() {
    holds(
        "change 6b001 x 0201 0 8 => R5:0 0201
         change 6b001 x 0201 0 7 => A 0701
         change 6b001 x 0201 8 5 => R5:8 0201
         change 6b001 x 0201 8 4 => A 0204
         change 63000 x a00f83ff41000164 48 2 => R5:48 a00f83ff41000164
         change 6b003 x 00000000000008 48 3 => R5:48 00000000000008
         change 6b005 x 01 0 2 => R5:0 01
         change 6b005 x 01 0 3 => A 03",
    );
}

#[test]
fn explaining() {
    holds(
        "explain R5 => E R5 a label signal holds a number without a label
         explain R5:48 => E R5 a label signal holds a number without a label (the signal that starts at bit 48)
         explain R5:0 => E R5 a label signal holds a number without a label (the signal that starts at bit 0)
         explain R5:255 => E R5 a label signal holds a number without a label (the signal that starts at bit 255)
         explain R5:256 => ?
         explain R5:4294967295 => ?
         explain R5:4294967296 => ?
         explain R5: => ?
         explain R5:048 => ?
         explain R5:00 => ?
         explain R5:-1 => ?
         explain R5:+8 => ?
         explain R5:x => ?
         explain R5:48: => ?
         explain R5:48:0 => ?
         explain R05:48 => ?
         explain R4:1 => ?
         explain R15:0 => ?
         explain 5:48 => ?",
    );
}
