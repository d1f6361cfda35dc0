//! Req 04 from both sides of each edge, and the decided reading of it (R4).

use crate::fields::hex;
use crate::readings::holds;

/// 02: "Duty 53.3 % with PWM active begins 82 15; -10.0 °C in the first probe is FE 70".
#[test]
fn the_two_examples() {
    holds(
        "read 6 s 8215000000000000 => A 6s:533,1,0,0
         write 6 s 533,1,0,0 ffffffffffffffff => A 6 8 8215000000000000
         read 7 s 8215000000000000 => A 7s:533,1,0,0,0,0,0,0,0,0,0,0,0,0,0
         read 8 s fe70000000000000 => A 8s:-100,0,0,0,0,0,0,0,0,0,0,0
         write 8 s -100,0,0,0,0,0,0,0,0,0,0,0 ffffffffffffffff => A 8 8 fe70000000000000",
    );
}

/// Each message with the bit of each flag, or the ends of each number, at the place that 004 names.
#[test]
fn every_signal_in_its_place() {
    holds(
        "read 6 s 0001000000000000 => A 6s:1,0,0,0
         read 6 s 0200000000000000 => A 6s:512,0,0,0
         read 6 s 03ff000000000000 => A 6s:1023,0,0,0
         read 6 s 0000010000000000 => A 6s:0,0,1,0
         read 6 s 0000020000000000 => A 6s:0,0,0,1
         read 7 s 0000010000000000 => A 7s:0,0,1,0,0,0,0,0,0,0,0,0,0,0,0
         read 7 s 0000040000000000 => A 7s:0,0,4,0,0,0,0,0,0,0,0,0,0,0,0
         read 7 s 0000080000000000 => A 7s:0,0,0,1,0,0,0,0,0,0,0,0,0,0,0
         read 7 s 0000100000000000 => A 7s:0,0,0,0,1,0,0,0,0,0,0,0,0,0,0
         read 7 s 0000000700000000 => A 7s:0,0,0,0,0,7,0,0,0,0,0,0,0,0,0
         read 7 s 0000000005000000 => A 7s:0,0,0,0,0,0,1,0,1,0,0,0,0,0,0
         read 7 s 000000000a000000 => A 7s:0,0,0,0,0,0,0,1,0,1,0,0,0,0,0
         read 7 s 0000000000150000 => A 7s:0,0,0,0,0,0,0,0,0,0,1,0,1,0,1
         read 7 s 00000000000a0000 => A 7s:0,0,0,0,0,0,0,0,0,0,0,1,0,1,0
         read 8 s 0004000000000000 => A 8s:1,0,0,0,0,0,0,0,0,0,0,0
         read 8 s 8000000000000000 => A 8s:-8192,0,0,0,0,0,0,0,0,0,0,0
         read 8 s 7ffc000000000000 => A 8s:8191,0,0,0,0,0,0,0,0,0,0,0
         read 8 s 0001000000000000 => A 8s:0,1,0,0,0,0,0,0,0,0,0,0
         read 8 s 0002000000000000 => A 8s:0,0,1,0,0,0,0,0,0,0,0,0
         read 8 s 0000fffc00010002 => A 8s:0,0,0,-1,0,0,0,1,0,0,0,1
         read 8 s 0000000100028004 => A 8s:0,0,0,0,1,0,0,0,1,-8191,0,0",
    );
}

/// Refusal 3 "over the wider table".
#[test]
fn identifiers_and_forms() {
    for id in [6, 7, 8] {
        holds(&format!(
            "setup 0 4 5000 1000 500 500 => A
             read {id} s 0000000000000000 => A {id}s:{zeros}
             read {id} x 0000000000000000 => R3
             frame 4 0 {id} s 0000000000000000 => A0
             frame 4 0 {id} x 0000000000000000 => R3
             change {id} x 0000000000000000 0 0 => R3 0000000000000000
             write {id} x {zeros} 0000000000000000 => X
             read {id} s 00000000000000 => R4
             read {id} s 000000000000000000 => R15
             read 8000000{id} s 0000000000000000 => R3",
            zeros = vec!["0"; [4, 15, 12][id - 6]].join(","),
        ));
    }
    holds(
        "read 5 s 0000000000000000 => R3
         read 9 s 0000000000000000 => R3
         read 806 s 0000000000000000 => R3
         read 63000 s a00f83ff41000164 => R3
         read 63003 x a00f83ff41000164 => R3",
    );
}

/// R4: "Uncovered bits of 004's frames give 6". Each bit alone, in each message.
#[test]
fn each_bit_is_covered_or_gives_6() {
    let control = [vec![0, 1, 7], (8..18).collect()].concat();
    let state = [vec![0, 1, 7], (8..21).collect(), (24..27).collect(), (32..36).collect(), (40..45).collect()].concat();
    for (id, covered) in [(6, control), (7, state), (8, (0..64).collect())] {
        for bit in 0..64 {
            let mut payload = [0; 8];
            payload[bit / 8] = 1 << (bit % 8);
            let payload = hex(&payload);
            let (frame, lent) = if covered.contains(&bit) { ("A0", "R13") } else { ("R6", "R6") };
            holds(&format!(
                "setup 0 4 5000 1000 500 500 => A
                 frame 4 0 {id} s {payload} => {frame}
                 change {id} s {payload} 64 0 => {lent} {payload}"
            ));
        }
    }
}

/// 02: "A duty above 100.0 % keeps its raw number, so that writing returns the bytes; the limited number is worked out
/// apart".
#[test]
fn duty() {
    holds(
        "read 6 s 03e8000000000000 => A 6s:1000,0,0,0
         read 6 s 03e9000000000000 => A 6s:1001,0,0,0
         write 6 s 1001,0,0,0 0000000000000000 => A 6 8 03e9000000000000
         write 6 s 1023,0,0,0 0000000000000000 => A 6 8 03ff000000000000
         write 6 s 1024,0,0,0 0000000000000000 => R7 0000000000000000
         write 6 s -1,0,0,0 0000000000000000 => R7 0000000000000000
         write 6 s 0,2,0,0 0000000000000000 => R7 0000000000000000
         write 6 s 1024,0,0,0 - => R7 -
         write 6 s 1023,0,0,0 00 => R8 00
         write 6 s 0,0,0 00 => ?
         duty 0 => A 0
         duty 533 => A 533
         duty 999 => A 999
         duty 1000 => A 1000
         duty 1001 => A 1000
         duty 1023 => A 1000
         duty 1024 => ?
         duty -1 => ?
         duty => ?
         duty 1 1 => ?",
    );
}

/// R4: "Only raw 8191 is "not used"; raw -1 is -0.1 °C".
#[test]
fn probes() {
    holds(
        "probe 8191 => N
         probe 8190 => D 444cc000
         probe -1 => D bdcccccd
         probe 0 => D 00000000
         probe 1 => D 3dcccccd
         probe -100 => D c1200000
         probe 215 => D 41ac0000
         probe -8191 => D c44cc666
         probe -8192 => D c44ccccd
         probe -8193 => ?
         probe 8192 => ?
         probe 16383 => ?
         probe => ?
         probe 1 1 => ?
         write 8 s 8191,0,0,-1,0,0,-8192,0,0,0,1,1 0000000000000000 => A 8 8 7ffcfffc80000003
         read 8 s 7ffcfffc80000003 => A 8s:8191,0,0,-1,0,0,-8192,0,0,0,1,1
         write 8 s 8192,0,0,0,0,0,0,0,0,0,0,0 00 => R7 00
         write 8 s -8193,0,0,0,0,0,0,0,0,0,0,0 00 => R7 00",
    );
}

/// R4: "Changing a signal covers these messages too, by the page's own start bits".
#[test]
fn changing() {
    holds(
        "change 6 s 8000030000000000 1 533 => A 8215030000000000
         change 6 s 8215030000000000 1 0 => A 8000030000000000
         change 6 s 8215030000000000 7 0 => A 0215030000000000
         change 6 s 8215030000000000 17 0 => A 8215010000000000
         change 6 s 8215030000000000 0 0 => R13 8215030000000000
         change 6 s 8215030000000000 8 0 => R13 8215030000000000
         change 6 s 8215030000000000 1 1024 => R7 8215030000000000
         change 6 s 8215030000000000 1 -1 => R7 8215030000000000
         change 6 s 8215070000000000 0 0 => R6 8215070000000000
         change 7 s 0000000000000000 18 7 => A 0000070000000000
         change 7 s 0000000000000000 18 8 => R7 0000000000000000
         change 7 s 00001f0700000000 26 0 => A 00001f0000000000
         change 7 s 00001f0700000000 18 0 => A 0000180700000000
         change 8 s ffffffffffffffff 7 -100 => A fe73ffffffffffff
         change 8 s ffffffffffffffff 55 8191 => A ffffffffffff7fff
         change 8 s 0000000000000000 39 -8192 => A 0000000080000000
         change 8 s 0000000000000000 39 8192 => R7 0000000000000000
         change 8 s 0000000000000000 39 -8193 => R7 0000000000000000
         change 8 s 0000000000000000 57 1 => A 0000000000000002",
    );
}

/// 02: "accepted and recorded as three more kinds, and raise only F1 and F2".
#[test]
fn on_a_post() {
    let post = "K ch=4 volt=5000 chg=1000 dis=500 w=500 sensor=0 iface=0";
    holds(&format!(
        "setup 0 4 5000 1000 500 500 => A
         frame 4 5 8 s fe70000000000000 => A0
         frame 4 10 6 s 8215030000000000 => A0
         frame 4 9 7 s 03ff1f070f1f0000 => R2
         frame 4 10 7 s 03ff1f070f1f0000 => A0
         frame 4 10 6b000 x 07 => A0
         record 0 => {post} last=10 open=0 since=- first=- spms=- sdpc=- sstop=- n=4 tally=0,0,0,0,0,0,0,0,0,0,0,0 latest=6s:533,1,1,1@10+0;7s:1023,0,7,1,1,7,1,1,1,1,1,1,1,1,1@10+0;8s:-100,0,0,0,0,0,0,0,0,0,0,0@5+5;6b000x:7@10+0
         frame 4 20 6b001 x 0201 => A0
         frame 4 210 8 s 7ffc000000000000 => A0
         frame 4 211 6 s 0000000000000000 => A2
         frame 4 520 7 s 0000000000000000 => A2
         frame 4 521 7 s 0000000000000000 => A3
         frame 4 521 6b004 x 00 => A3
         record 0 => {post} last=521 open=0 since=- first=- spms=- sdpc=- sstop=- n=10 tally=2,4,0,0,0,0,0,0,0,0,0,0 latest=6s:0,0,0,0@211+310;7s:0,0,0,0,0,0,0,0,0,0,0,0,0,0,0@521+0;8s:8191,0,0,0,0,0,0,0,0,0,0,0@210+311;6b000x:7@10+511;6b001x:2,1@20+501;6b004x:0@521+0"
    ));
}

#[test]
fn explaining() {
    holds(
        "explain R3 => E R3 identifier not in the table, standard and extended ones told apart
         explain R6 => E R6 a bit that no signal covers is 1",
    );
}
