//! Req 10 from both sides of each edge, and the decided readings of it (R6, R8).

use crate::readings::holds;

/// Ticks of channel 4 at 0 and 1 ms, a tick of channel 5.
const A: &str = "00040009";
const B: &str = "01040009";
const C: &str = "00050009";

#[test]
fn records_in_one_and_not_the_other() {
    holds(&format!(
        "compare - - 512 512 => A first=- second=- chan=-
         compare {A} {A} 512 512 => A first=- second=- chan=-
         compare {A} - 512 512 => A first=1 second=- chan=4:1
         compare - {A}{C} 512 512 => A first=- second=1,2 chan=4:1,5:1
         compare {A} {B} 512 512 => A first=1 second=1 chan=4:1
         compare {A}{C}{B} {A}{B} 512 512 => A first=2 second=- chan=5:1
         compare {A}{B} {A}{C}{B} 512 512 => A first=- second=2 chan=5:1"
    ));
}

/// R8: "of repeats the later ones are the surplus (three against one: 2 and 3)".
#[test]
fn repeats() {
    holds(&format!(
        "compare {A}{A}{A} {A} 512 512 => A first=2,3 second=- chan=4:2
         compare {A} {A}{A}{A} 512 512 => A first=- second=2,3 chan=4:2
         compare {A}{B}{A}{C}{A} {C}{A}{A} 512 512 => A first=2,5 second=- chan=4:2
         compare {A}{A}{B}{B} {B}{A} 512 512 => A first=2,4 second=- chan=4:1"
    ));
}

/// R8: "Places count within the channel"; 02: "the place after the shorter, if that one only ends".
#[test]
fn places_within_the_channel() {
    holds(&format!(
        "compare {C}{A}{C}{A} {C}{A}{C}{B} 512 512 => A first=4 second=4 chan=4:2
         compare {C}{A} {A}{C} 512 512 => A first=- second=- chan=-
         compare {A}{B}{C} {C}{B}{A} 512 512 => A first=- second=- chan=4:1
         compare {A}{B} {A}{B}{B} 512 512 => A first=- second=3 chan=4:3
         compare {A}{B}{B} {A}{B} 512 512 => A first=3 second=- chan=4:3
         compare 00000009001f0009 - 512 512 => A first=1,2 second=- chan=0:1,31:1"
    ));
}

/// Records are equal only in all parts: time, channel, identifier, form, length and bytes; a tick is no frame.
#[test]
fn records_that_differ_in_one_part() {
    let frame = "0004020100";
    for other in ["0104020100", "0005020100", "0004040100", "0004030100", "00040200", "000402020000", "0004020101"] {
        let channels = if other.starts_with("0005") { "4:1,5:1" } else { "4:1" };
        holds(&format!("compare {frame} {other} 512 512 => A first=1 second=1 chan={channels}"));
    }
    holds("compare 00040000 00040009 512 512 => A first=1 second=1 chan=4:1");
}

/// "a malformed or cut log, with side and byte, then more records, then lent lists of under 512 places. At each step the
/// first log comes first".
#[test]
fn refused_in_this_order() {
    let (most, more) = (A.repeat(512), A.repeat(513));
    let many = A.repeat(600);
    holds(&format!(
        "compare {A}00 - 512 512 => R26:1:4
         compare - {A}{B}00 512 512 => R26:2:8
         compare {A}0020 0020 0 0 => R26:1:4
         compare {A} 0020 0 0 => R26:2:0
         compare {many}00 - 512 512 => R26:1:2400
         compare {many}0020 {more} 0 0 => R26:1:2400
         compare {more} {A}8000 512 512 => R26:2:4
         compare {more} {more} 0 0 => R27:1
         compare {most} {more} 0 0 => R27:2
         compare {more} - 512 512 => R27:1
         compare - - 511 511 => R28:1
         compare {most} {most} 512 511 => R28:2
         compare {most} {most} 511 512 => R28:1
         compare {most} {most} 512 512 => A first=- second=- chan=-
         compare {most} {most} 513 2048 => A first=- second=- chan=-
         compare - - 0 0 => R28:1
         compare - - 2049 512 => ?
         compare - - 512 2049 => ?
         compare - - 512 => ?
         compare - - 512 512 512 => ?
         compare 0 - 512 512 => ?
         compare - 0 512 512 => ?"
    ));
}

#[test]
fn a_full_list() {
    let (own, other) = (A.repeat(512), B.repeat(512));
    let all = (1..=512).map(|number: u32| number.to_string()).collect::<Vec<_>>().join(",");
    holds(&format!("compare {own} {other} 512 512 => A first={all} second={all} chan=4:1"));
}
