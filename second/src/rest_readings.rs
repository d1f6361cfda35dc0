//! Req 14's messages from both sides of each edge, and the decided reading of them (R10).

use crate::newer_pages::rest;
use crate::readings::holds;

/// "reader, writer and signal change".
#[test]
fn read_and_written_and_changed() {
    holds(
        "read 63002 x 030701 => A 63002x:1,1,1,1,1,1
         write 63002 x 1,0,1,0,1,0 ffffff => A 63002 3 010500
         write 63002 x 2,0,0,0,0,0 ffffff => R7 ffffff
         change 63002 x 030701 10 0 => A 030301
         change 63002 x 030701 2 0 => R13 030701
         read 6b100 x ffff64006464 => A 6b100x:65535,100,0,100,100
         write 6b100 x 65536,0,0,0,0 000000000000 => R7 000000000000
         write 6b100 x 1,101,255,255,255 000000000000 => A 6b100 6 010065ffffff
         read 6b101 x 0000ffff8813 => A 6b101x:0,65535,5000
         read 6b102 x 01000200030004ff => A 6b102x:1,2,3,65284
         read 6b103 x 01000200030004ff => A 6b103x:1,2,3,65284
         read 6b300 x 83ff => A 6b300x:-125
         write 6b300 x -32769 0000 => R7 0000
         read 6b203 x 0cffff0000000000 => A 6b203x:12,65535,0
         read 6b203 x 0100000000000000 => R5:0
         read 6b204 x 0903000000000000 => A 6b204x:9,3,0
         read 6b204 x 0a04000000000000 => R5:0
         read 6b204 x 0004000000000000 => R5:8",
    );
}

/// The page has the energy requests "Signed".
#[test]
fn energy_may_be_negative() {
    holds(
        "read 6b104 x ffff0080ff7f => A 6b104x:-1,-32768,32767
         write 6b104 x -1,-32768,32767 000000000000 => A 6b104 6 ffff0080ff7f
         write 6b104 x 0,0,32768 000000000000 => R7 000000000000
         change 6b104 x 000000000000 16 -1 => A 0000ffff0000
         change 6b104 x 000000000000 16 65535 => R7 000000000000",
    );
}

/// "Reserved signals are carried, not dropped".
#[test]
fn reserved_signals_are_carried() {
    holds(
        "read 63201 x f0ffffffffffffff => A 63201x:0,0,0,0,1152921504606846975
         write 63201 x 0,0,0,1,1152921504606846975 0000000000000000 => A 63201 8 f8ffffffffffffff
         write 63201 x 0,0,0,1,1152921504606846976 0000000000000000 => R7 0000000000000000
         change 63201 x 0f00000000000000 4 1152921504606846975 => A ffffffffffffffff
         read 6b200 x c0ffffff28282828 => A 6b200x:0,0,0,0,0,0,67108863,0,0,0,0
         read 6b201 x f0ffffffff282828 => A 6b201x:0,0,0,0,68719476735,0,0,0
         read 6b202 x f028282828002828 => A 6b202x:0,0,0,0,15,0,0,0,0,0,0
         read 6b203 x 000000ffffffffff => A 6b203x:0,0,1099511627775
         read 6b204 x 0000ffffffffffff => A 6b204x:0,0,281474976710655",
    );
}

/// "the watch now accepts them where it gave 3", and R10: "raise only F1 and F2"; on an older post their identifiers are
/// the other interface's.
#[test]
fn on_posts_of_both_interfaces() {
    for page in rest() {
        let (id, payload) = (page.id, "00".repeat(page.len));
        holds(&format!(
            "setup 0 4 5000 1000 500 500 => A
             setup 1 5 5000 1000 500 500 0 1 => A
             frame 4 0 6b001 x 0201 => A0
             frame 4 0 6b000 x 01 => A0
             frame 4 200 {id:x} x {payload} => A0
             frame 4 201 {id:x} x {payload} => A2
             frame 4 500 {id:x} x {payload} => A2
             frame 4 501 {id:x} x {payload} => A3
             frame 4 501 {id:x} s {payload} => R3
             frame 4 501 {id:x} x {payload}00 => R15
             frame 4 501 {id:x} x - => R4
             frame 5 0 {id:x} x {payload} => R29
             frame 5 0 {id:x} x - => R29
             frame 5 0 {id:x} s {payload} => R3
             read {id:x} s {payload} => R3
             read1 {id:x} x {payload} => R3"
        ));
    }
}

/// R10: 6 for "Sequence_Control 2-7, 11-15, 17-23; ADM_CS_SPCC_Inputs 40-47"; and nothing is changed by it.
#[test]
fn uncovered_bits_on_a_post() {
    holds(
        "setup 0 4 5000 1000 500 500 => A
         setup 1 5 5000 1000 500 500 0 1 => A
         frame 4 0 63002 x 040000 => R6
         frame 4 0 63002 x 000800 => R6
         frame 4 0 63002 x 000002 => R6
         frame 4 0 6b202 x 0000000000010000 => R6
         frame 4 0 6b202 x 0000000001000000 => A0
         frame 5 0 63002 x 040000 => R29
         refused => N 5",
    );
}

/// What a vehicle tells opens no session and is no limit of the post's, and a user's stop is no Emergency_Stop.
#[test]
fn they_ask_nothing_of_the_other_rules() {
    holds(
        "setup 0 4 5000 1000 500 500 => A
         frame 4 0 6b100 x 6400140a5064 => A0
         frame 4 0 6b003 x 00000000000008 => A8
         frame 4 0 6b001 x 0201 => A0
         frame 4 0 63000 x 0000000041000164 => A0
         frame 4 0 6b101 x 010001000100 => A0
         frame 4 0 6b102 x 0000010000000000 => A0
         frame 4 0 6b103 x 0000010000000000 => A0
         frame 4 0 6b300 x ff7f => A0
         frame 4 0 63002 x 000001 => A0
         frame 4 0 6b003 x 88130000000008 => A0
         frame 4 0 63000 x 0000e80341000164 => A0
         frame 4 0 63000 x 00000cfe41000164 => A0
         frame 4 0 63000 x 0000e90341000164 => A128",
    );
}

/// "into the same kinds and the same record": each once, the latest.
#[test]
fn the_record() {
    holds(
        "setup 0 4 5000 1000 500 500 => A
         frame 4 1 6b104 x ffff00000000 => A0
         frame 4 2 63201 x f0ffffffffffffff => A0
         frame 4 3 6b300 x 83ff => A0
         frame 4 4 6b104 x feff00000000 => A0
         frame 4 5 6 s 8215000000000000 => A0
         record 0 => K ch=4 volt=5000 chg=1000 dis=500 w=500 sensor=0 iface=0 last=5 open=0 since=- first=- spms=- sdpc=- sstop=- n=5 tally=0,0,0,0,0,0,0,0,0,0,0,0 latest=6s:533,1,0,0@5+0;63201x:0,0,0,0,1152921504606846975@2+3;6b104x:-2,0,0@4+1;6b300x:-125@3+2",
    );
}
