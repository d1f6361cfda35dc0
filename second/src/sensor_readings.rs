//! Req 03 from both sides of each edge, and the decided reading of it (R3).

use crate::readings::holds;

/// A session under precharge on channel 4, on a post that was set up with these words behind its W, if any.
fn under_precharge(sensor: &str, rest: &str) {
    holds(&format!(
        "setup 0 4 5000 1000 500 500{sensor} => A
         frame 4 0 6b001 x 0201 => A0
         frame 4 0 63000 x 00000000410001ff => A0
         frame 4 0 6b003 x 00000000000004 => A0
         {rest}"
    ));
}

/// 02: "One site's sensor gave 0 for invalid at 0 V and F9 stayed silent, because 0 times 200 is not below 0".
#[test]
fn invalid_at_0_volt() {
    under_precharge(" 1", "frame 4 0 63000 x 0000000041000100 => A256\nframe 4 0 63000 x 00000000410001ff => A0");
    for measuring in ["", " 0"] {
        under_precharge(measuring, "frame 4 0 63000 x 0000000041000100 => A0");
        under_precharge(measuring, "frame 4 0 63000 x 0100000041000100 => A256");
    }
}

/// 02: "For a yes/no sensor F9's insulation test is raw 0 and nothing else; for a measuring one F9 stays".
#[test]
fn raw_0_and_nothing_else() {
    under_precharge(
        " 1",
        "frame 4 0 63000 x ffff000041000101 => A0
         frame 4 0 63000 x ffff0000410001fe => A0
         frame 4 0 63000 x ffff000041000100 => A256
         frame 4 0 63000 x 8813000041000118 => A0",
    );
    under_precharge(
        " 0",
        "frame 4 0 63000 x c900000041000101 => A256
         frame 4 0 63000 x c800000041000101 => A0
         frame 4 0 63000 x 8813000041000118 => A256
         frame 4 0 63000 x 8813000041000119 => A0",
    );
}

/// R3: "session and function are asked as before".
#[test]
fn session_and_function() {
    holds(
        "setup 0 4 5000 1000 500 500 1 => A
         frame 4 0 63000 x 0000000041000100 => A0
         frame 4 0 6b003 x 00000000000008 => A8
         frame 4 0 6b001 x 0201 => A0
         frame 4 0 63000 x 0000000041000100 => A0
         frame 4 0 6b003 x 00000000000002 => A0
         frame 4 0 63000 x 0000000041000100 => A0
         frame 4 0 6b003 x 00000000000008 => A0
         frame 4 0 63000 x 0000000041000100 => A256
         frame 4 0 6b003 x 00000000000001 => A0
         frame 4 0 63000 x 0000000041000100 => A0
         frame 4 0 6b003 x 00000000000004 => A0
         frame 4 0 63000 x 0000000041000100 => A256
         frame 4 0 6b004 x 00 => A0
         frame 4 0 63000 x 0000000041000100 => A0",
    );
}

#[test]
fn an_unknown_kind_gets_12_in_its_place() {
    let empty = "volt=5000 chg=1000 dis=500 w=500 sensor=1 iface=0 last=7 open=0 since=- first=- spms=- sdpc=- sstop=- n=1 tally=0,0,0,0,0,0,0,0,0,0,0,0 latest=-";
    holds(&format!(
        "setup 0 4 5000 1000 500 500 2 => R12
         record 0 => R14
         setup 0 4 5000 1000 500 500 1 => A
         tick 4 7 => A0
         setup 0 4 5000 1000 500 500 2 => R12
         setup 0 4 5000 1000 500 500 256 => R12
         setup 0 4 5000 1000 500 500 4294967295 => R12
         setup 0 4 5000 1000 500 500 4294967296 => ?
         setup 0 4 5000 1000 500 500 -1 => ?
         setup 0 4 5000 1000 500 500 1 1 1 => ?
         record 0 => K ch=4 {empty}
         setup 16 32 5000 1000 500 500 2 => R9
         setup 1 32 5000 1000 500 500 2 => R10
         setup 1 4 5000 1000 500 500 2 => R11
         setup 1 5 0 1000 500 500 2 => R12
         setup 1 5 0 1000 500 500 1 => R12"
    ));
}

#[test]
fn a_second_set_up_names_the_kind_anew() {
    let record = |sensor: u32| {
        format!("record 0 => K ch=4 volt=5000 chg=1000 dis=500 w=500 sensor={sensor} iface=0 last=- open=0 since=- first=- spms=- sdpc=- sstop=- n=0 tally=0,0,0,0,0,0,0,0,0,0,0,0 latest=-")
    };
    let (measuring, yes_no) = (record(0), record(1));
    holds(&format!(
        "setup 0 4 5000 1000 500 500 => A
         {measuring}
         setup 0 4 5000 1000 500 500 1 => A
         {yes_no}
         setup 0 4 5000 1000 500 500 1 => A
         {yes_no}
         setup 0 4 5000 1000 500 500 0 => A
         {measuring}
         setup 0 4 5000 1000 500 500 1 => A
         {yes_no}
         setup 0 4 5000 1000 500 500 => A
         {measuring}"
    ));
}

#[test]
fn explaining() {
    holds(
        "explain 256 => E F9 insulation under 100 Ohm per volt, or Invalid by a yes/no sensor, in precharge or power transfer",
    );
}
