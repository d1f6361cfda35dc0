//! Req 11 from both sides of each edge, and the decided reading of it (R9).

use crate::fields::hex;
use crate::newer_pages::NEWER_PAGES;
use crate::older_pages::OLDER_PAGES;
use crate::readings::holds;

/// A story with an older post on channel 4 and a newer one on channel 5.
fn holds_side_by_side(story: &str) {
    holds(&format!("setup 0 4 5000 1000 500 500 0 1 => A\nsetup 1 5 5000 1000 500 500 0 0 => A\n{story}"));
}

/// A story in a session that was opened at 0 on the older post, with Allowed.
fn holds_in_a_session(story: &str) {
    holds_side_by_side(&format!(
        "frame 4 0 68001 x 0201000000000000 => A0
         frame 4 0 60010 x 0000000041000164 => A0
         {story}"
    ));
}

const EMPTY: &str = "last=- open=0 since=- first=- spms=- sdpc=- sstop=- n=0 tally=0,0,0,0,0,0,0,0,0,0,0,0 latest=-";

/// "Set-up names a post's interface"; another number gets 12, in 12's place.
#[test]
fn a_set_up_names_the_interface() {
    let post = "volt=5000 chg=1000 dis=500 w=500";
    holds(&format!(
        "setup 0 4 5000 1000 500 500 => A
         record 0 => K ch=4 {post} sensor=0 iface=0 {EMPTY}
         setup 0 4 5000 1000 500 500 1 => A
         record 0 => K ch=4 {post} sensor=1 iface=0 {EMPTY}
         setup 0 4 5000 1000 500 500 1 0 => A
         record 0 => K ch=4 {post} sensor=1 iface=0 {EMPTY}
         setup 0 4 5000 1000 500 500 0 1 => A
         record 0 => K ch=4 {post} sensor=0 iface=1 {EMPTY}
         setup 0 4 5000 1000 500 500 0 2 => R12
         setup 0 4 5000 1000 500 500 0 256 => R12
         setup 0 4 5000 1000 500 500 0 4294967295 => R12
         setup 0 4 5000 1000 500 500 0 4294967296 => ?
         setup 0 4 5000 1000 500 500 0 -1 => ?
         setup 0 4 5000 1000 500 500 0 01 => ?
         setup 0 4 5000 1000 500 500 0 1 0 => ?
         record 0 => K ch=4 {post} sensor=0 iface=1 {EMPTY}
         setup 16 32 5000 1000 500 500 0 2 => R9
         setup 1 32 5000 1000 500 500 0 2 => R10
         setup 1 4 5000 1000 500 500 0 2 => R11
         setup 1 5 5000 1000 500 500 2 2 => R12
         setup 1 5 0 1000 500 500 0 1 => R12
         record 1 => R14"
    ));
}

/// A second set-up may name another one, and empties the history as ever.
#[test]
fn a_second_set_up_names_it_anew() {
    let record = |interface: u32| {
        format!("record 0 => K ch=4 volt=5000 chg=1000 dis=500 w=500 sensor=0 iface={interface} {EMPTY}")
    };
    let (newer, older) = (record(0), record(1));
    holds(&format!(
        "setup 0 4 5000 1000 500 500 => A
         frame 4 9 6b000 x 07 => A0
         setup 0 4 5000 1000 500 500 0 1 => A
         {older}
         frame 4 0 6b000 x 07 => R29
         frame 4 0 68009 x 07 => A0
         setup 0 4 5000 1000 500 500 0 2 => R12
         frame 4 0 68009 x 07 => A0
         setup 0 4 5000 1000 500 500 => A
         {newer}
         frame 4 0 68009 x 07 => R29
         frame 4 0 6b000 x 07 => A0"
    ));
}

/// "a refusal number of its own in 3's place, never a message": behind 1 and 2, before 4, 5, 6 and 15.
#[test]
fn the_order() {
    holds_side_by_side(
        "tick 4 100 => A0
         tick 5 100 => A0
         frame 6 99 60012 x 04 => R1
         frame 5 99 60012 x 04 => R2
         frame 5 100 60012 x - => R29
         frame 5 100 60012 x 0000 => R29
         frame 5 100 60012 x 00000000 => R29
         frame 5 100 60012 x 040000 => R29
         frame 5 100 60012 x 000000 => R29
         frame 5 100 68001 x 0805000000000000 => R29
         frame 4 100 60012 x 0000 => R4
         frame 4 100 60012 x 00000000 => R15
         frame 4 100 60012 x 040000 => R6
         frame 4 100 60012 x 000000 => A0
         frame 4 100 68001 x 0805000000000000 => R5:0
         frame 6 99 6b001 x 08 => R1
         frame 4 99 6b001 x 08 => R2
         frame 4 100 6b001 x 02 => R29
         frame 4 100 6b001 x 020100 => R29
         frame 4 100 6b001 x 0805 => R29
         frame 4 100 6b001 x 0201 => R29
         frame 5 100 6b001 x 02 => R4
         frame 5 100 6b001 x 020100 => R15
         frame 5 100 6b001 x 0805 => R5:0
         frame 5 100 6b001 x 0201 => A0",
    );
}

/// The exact identifier and form count.
#[test]
fn identifiers_and_forms() {
    holds_side_by_side(
        "frame 5 0 60010 x 0000000041000164 => R29
         frame 5 0 60010 s 0000000041000164 => R3
         frame 5 0 80060010 x 0000000041000164 => R3
         frame 5 0 60014 x 0000000041000164 => R3
         frame 5 0 68008 x 00 => R3
         frame 4 0 60010 s 0000000041000164 => R3
         frame 4 0 63000 x 0000000041000164 => R29
         frame 4 0 63000 s 0000000041000164 => R3
         frame 4 0 63003 x 0000000041000164 => R3
         frame 4 0 68008 x 00 => R3
         frame 4 0 6 x 0000000000000000 => R3
         frame 4 0 5 s 0000000000000000 => R3",
    );
}

/// A refused one is part of no history, moves no clock and is counted as refused.
#[test]
fn a_frame_of_the_other_interface_leaves_nothing() {
    holds_side_by_side(
        "tick 4 100 => A0
         frame 4 9000 6b001 x 0201 => R29
         refused => N 1
         tick 4 100 => A0
         frame 4 100 68007 x 00 => A1024
         record 0 => K ch=4 volt=5000 chg=1000 dis=500 w=500 sensor=0 iface=1 last=100 open=0 since=- first=- spms=- sdpc=- sstop=- n=3 tally=0,0,0,0,0,0,0,0,0,0,1,0 latest=68007x:0@100+0",
    );
}

/// R9: "004's frames are accepted on posts of either interface".
#[test]
fn the_safety_controller_on_either() {
    for channel in [4, 5] {
        holds_side_by_side(&format!(
            "frame {channel} 0 6 s 8215000000000000 => A0
             frame {channel} 0 7 s 8215000000000000 => A0
             frame {channel} 0 8 s fe70000000000000 => A0
             frame {channel} 0 6 s 82150400000000 => R4
             frame {channel} 0 6 s 8215040000000000 => R6"
        ));
    }
    holds(
        "read1 6 s 8215000000000000 => A 6s:533,1,0,0
         change1 8 s 0000000000000000 7 -100 => A fe70000000000000
         write1 6 s 533,1,0,0 ffffffffffffffff => A 6 8 8215000000000000",
    );
}

/// R9: "A reader without a post gives 3".
#[test]
fn without_a_post() {
    holds(
        "read 60010 x a00f83ff41000164 => R3
         read1 60010 x a00f83ff41000164 => A 60010x:4000,-125,25,-40,1,200
         read 63000 x a00f83ff41000164 => A 63000x:4000,-125,25,-40,1,200
         read1 63000 x a00f83ff41000164 => R3
         change 68009 x 07 0 8 => R3 07
         change1 68009 x 07 0 8 => A 08
         change1 6b000 x 07 0 8 => R3 07
         write 68009 x 7 00 => X
         write1 68009 x 7 00 => A 68009 1 07
         write1 6b000 x 7 00 => X
         read1 68009 s 07 => R3
         write1 68009 s 7 00 => X
         read1 => ?
         read1 68009 x => ?
         read2 68009 x 07 => ?",
    );
}

/// Each message read, and written back to the same bytes: label numbers, whole tenths, raw - 40, 2 * raw, Reserved carried.
#[test]
fn every_message() {
    for (id, payload, values) in [
        ("60010", "a00f83ff41000164", "4000,-125,25,-40,1,200"),
        ("60011", "a00f9cff01000080", "4000,-100,2147483649"),
        ("60012", "010200", "1,0,0,1,0,0"),
        ("60012", "020501", "0,1,1,0,1,1"),
        ("60013", "f5ffffffffffffff", "1,0,1,0,1152921504606846975"),
        ("60013", "0a00000000000080", "0,1,0,1,576460752303423488"),
        ("68001", "0201a00fd00732ff", "2,1,4000,2000,100,255"),
        ("68001", "0704ffffffffff64", "7,4,65535,65535,510,100"),
        ("68002", "8813", "5000"),
        ("68003", "a00f1480", "4000,32788"),
        ("68004", "01", "1"),
        ("68005", "a00f9cff50", "4000,-100,80"),
        ("68006", "03", "3"),
        ("68007", "01", "1"),
        ("68009", "0d", "13"),
        ("6800a", "2100008028ff0041", "1,0,0,0,0,1,33554432,0,215,-40,25"),
        ("6800a", "5e00000000000000", "0,1,1,1,1,0,1,-40,-40,-40,-40"),
        ("6800b", "09000000802800ff", "1,0,0,1,34359738368,0,-40,215"),
        ("6800c", "0102030405ff", "1,2,3,4,5,255"),
        ("6800d", "f528292a2b002cff", "1,0,1,0,15,0,1,2,3,4,215"),
        ("6800e", "0ce8030100000080", "12,1000,549755813889"),
        ("6800f", "0903000000000080", "9,3,140737488355328"),
    ] {
        holds(&format!(
            "read1 {id} x {payload} => A {id}x:{values}
             write1 {id} x {values} {lent} => A {id} {length} {payload}",
            lent = "5a".repeat(payload.len() / 2),
            length = payload.len() / 2,
        ));
    }
}

#[test]
fn labels_and_their_gaps() {
    let labelled = |id: &str, at: usize, length: usize, numbers: &[u8]| {
        for number in 0..=255 {
            let mut payload = vec![0; length];
            payload[at] = number;
            // The one label set without 0 stands alone.
            let start = 8 * at;
            let answer = if numbers.contains(&number) { "R13".to_string() } else { format!("R5:{start}") };
            let payload = hex(&payload);
            holds(&format!("change1 {id} x {payload} 64 0 => {answer} {payload}"));
        }
    };
    let upto = |last: u8| (0..=last).collect::<Vec<u8>>();
    labelled("60010", 6, 8, &upto(1));
    labelled("68001", 0, 8, &upto(7));
    labelled("68001", 1, 8, &upto(4));
    labelled("68004", 0, 1, &upto(1));
    labelled("68006", 0, 1, &[1, 3]);
    labelled("68007", 0, 1, &upto(1));
    labelled("68009", 0, 1, &upto(13));
    labelled("6800e", 0, 8, &[0, 3, 6, 9, 12]);
    labelled("6800f", 0, 8, &upto(9));
    labelled("6800f", 1, 8, &upto(3));
    holds(
        "read1 6800f x 0a04000000000000 => R5:0
         read1 6800f x 0904000000000000 => R5:8
         read1 68001 x 0805000000000000 => R5:0
         read1 68001 x 0705000000000000 => R5:8",
    );
}

/// Bits that no signal covers give 6: Sequence_Control's 2-7, 11-15 and 17-23, ADM_CS_SPCC_Inputs' 40-47, and no others.
#[test]
fn each_bit_is_covered_or_gives_6() {
    let newer = NEWER_PAGES.iter().map(|page| ("change", page));
    for (word, page) in newer.chain(OLDER_PAGES.iter().map(|page| ("change1", page))) {
        for bit in 0..page.len * 8 {
            let mut payload = vec![0; page.len];
            payload[bit / 8] = 1 << (bit % 8);
            let open = match page.name {
                "Sequence_Control" => matches!(bit, 2..=7 | 11..=15 | 17..=23),
                "ADM_CS_SPCC_Inputs" => (40..=47).contains(&bit),
                _ => false,
            };
            let labelled = page.signals.iter().any(|signal| signal.labels.is_some() && signal.width > 1);
            if open || !labelled {
                let (payload, answer) = (hex(&payload), if open { "R6" } else { "R13" });
                holds(&format!("{word} {:x} x {payload} 64 0 => {answer} {payload}", page.id));
            }
        }
    }
}

/// What has no raw number: 7, and before it nothing but the shape of the step.
#[test]
fn writing_at_the_edges() {
    let lent = "0000000000000000";
    holds(&format!(
        "write1 60010 x 0,0,215,-40,0,510 {lent} => A 60010 8 00000000ff0000ff
         write1 60010 x 0,0,216,-40,0,510 {lent} => R7 {lent}
         write1 60010 x 0,0,215,-41,0,510 {lent} => R7 {lent}
         write1 60010 x 0,0,215,-40,0,509 {lent} => R7 {lent}
         write1 60010 x 0,0,215,-40,2,510 {lent} => R7 {lent}
         write1 60011 x 65535,-32768,4294967295 {lent} => A 60011 8 ffff0080ffffffff
         write1 60011 x 65536,0,0 {lent} => R7 {lent}
         write1 60011 x 0,32768,0 {lent} => R7 {lent}
         write1 60011 x 0,0,4294967296 {lent} => R7 {lent}
         write1 60013 x 1,1,1,1,1152921504606846975 {lent} => A 60013 8 ffffffffffffffff
         write1 60013 x 0,0,0,0,1152921504606846976 {lent} => R7 {lent}
         write1 60013 x 0,0,0,2,0 {lent} => R7 {lent}
         write1 60013 x 0,0,0,0,-1 {lent} => R7 {lent}
         write1 68001 x 0,0,0,0,510,255 {lent} => A 68001 8 000000000000ffff
         write1 68001 x 0,0,0,0,512,0 {lent} => R7 {lent}
         write1 68001 x 0,0,0,0,1,0 {lent} => R7 {lent}
         write1 68001 x 8,0,0,0,0,0 {lent} => R7 {lent}
         write1 68001 x 0,0,0,0,0,256 {lent} => R7 {lent}
         write1 68001 x 0,0,0,0,0,0 00000000000000 => R8 00000000000000
         write1 68001 x 0,0,0,0,1,0 00 => R7 00
         write1 68001 x 0,0 {lent} => ?
         write1 6800e x 1,0,0 {lent} => R7 {lent}
         write1 6800e x 3,65535,1099511627775 {lent} => A 6800e 8 03ffffffffffffff
         write1 6800e x 3,0,1099511627776 {lent} => R7 {lent}"
    ));
}

/// Changing takes the raw number, in the same order of refusals.
#[test]
fn changing() {
    holds(
        "change1 60011 x a00f640000000000 16 -1 => A a00fffff00000000
         change1 60011 x a00f640000000000 16 65535 => R7 a00f640000000000
         change1 60011 x a00f640000000000 32 4294967295 => A a00f6400ffffffff
         change1 60011 x a00f640000000000 32 4294967296 => R7 a00f640000000000
         change1 60013 x 0500000000000000 4 1152921504606846975 => A f5ffffffffffffff
         change1 60013 x 0500000000000000 5 0 => R13 0500000000000000
         change1 60012 x 000000 10 1 => A 000400
         change1 60012 x 000000 10 2 => R7 000000
         change1 60012 x 000000 2 0 => R13 000000
         change1 60012 x 040000 0 0 => R6 040000
         change1 6800d x 0000000000010000 0 0 => R6 0000000000010000
         change1 6800e x 0000000000000000 0 1 => R5:0 0000000000000000
         change1 6800e x 0000000000000000 0 256 => R7 0000000000000000
         change1 6800e x 0000000000000000 0 12 => A 0c00000000000000
         change1 68001 x 0201000000000000 48 255 => A 020100000000ff00
         change1 68001 x 0201 0 0 => R4 0201",
    );
}

/// "A 001 New_Charge_Session has 8 bytes and opens a session as before"; R9: "F10 compares protocol and plug only".
#[test]
fn a_session() {
    holds_side_by_side(
        "frame 4 10 68001 x 0201 => R4
         frame 4 10 68001 x 0201a00fd0073264 => A0
         record 0 => K ch=4 volt=5000 chg=1000 dis=500 w=500 sensor=0 iface=1 last=10 open=1 since=10+0 first=2,1 spms=- sdpc=- sstop=- n=1 tally=0,0,0,0,0,0,0,0,0,0,0,0 latest=68001x:2,1,4000,2000,100,100@10+0
         frame 4 20 68001 x 0201000000000000 => A0
         frame 4 20 68001 x 0201ffffffffffff => A0
         frame 4 20 68001 x 0301a00fd0073264 => A512
         frame 4 20 68001 x 0200a00fd0073264 => A512
         frame 4 20 68001 x 0201a00fd0073264 => A0
         frame 4 30 68007 x 00 => A0
         record 0 => K ch=4 volt=5000 chg=1000 dis=500 w=500 sensor=0 iface=1 last=30 open=0 since=- first=- spms=- sdpc=- sstop=- n=7 tally=0,0,0,0,0,0,0,0,0,2,0,0 latest=68001x:2,1,4000,2000,100,100@20+10;68007x:0@30+0
         frame 4 40 68007 x 01 => A1024
         frame 4 50 68001 x 0301000000000000 => A0",
    );
}

/// F1 and F2, by 001's own status messages.
#[test]
fn silences() {
    holds_side_by_side(
        "frame 4 0 68001 x 0201000000000000 => A0
         tick 4 500 => A0
         frame 4 501 60010 x 0000000041000164 => A1
         tick 4 1001 => A0
         tick 4 1002 => A1
         frame 4 1002 68009 x 07 => A1
         frame 4 1002 60010 x 0000000041000164 => A1
         tick 4 1202 => A0
         tick 4 1203 => A2
         frame 4 1203 68009 x 07 => A2
         tick 4 1403 => A0
         tick 4 1502 => A2
         tick 4 1503 => A3",
    );
}

const THREE: [&str; 6] = [
    "68002 x 8813",
    "68002 x 0000",
    "68003 x a00f1400",
    "68003 x 00000000",
    "68005 x a00fe80350",
    "68005 x 0000000000",
];

/// F4 and F5: each of the three functions, whatever its numbers, and nothing else of 001.
#[test]
fn the_three_functions() {
    for control in THREE {
        holds_side_by_side(&format!(
            "frame 4 0 {control} => A8
             frame 4 0 60010 x 0000000041000164 => A0
             frame 4 0 68001 x 0201000000000000 => A0
             frame 4 0 {control} => A16
             frame 4 0 60010 x 0000000041000064 => A0
             frame 4 0 {control} => A16
             frame 4 0 60010 x 0000000041000164 => A0
             frame 4 0 {control} => A0
             frame 4 0 60010 x 0000000041000064 => A0
             frame 4 0 {control} => A16
             frame 4 0 68007 x 00 => A0
             frame 4 0 {control} => A8"
        ));
    }
    holds_side_by_side("frame 4 0 68004 x 01 => A0\nframe 4 0 68006 x 01 => A0\nframe 4 0 60012 x 030701 => A0");
}

/// F9: "the latest of them standing for DC_Power_Control"; R9: "Charging_Loop counts as power transfer also at 0 V and 0 A".
#[test]
fn insulation() {
    for (control, found) in THREE.into_iter().zip([0, 0, 256, 256, 256, 256]) {
        holds_in_a_session(&format!(
            "frame 4 0 60010 x 8813000041000118 => A0
             frame 4 0 {control} => A0
             frame 4 0 60010 x 8813000041000119 => A0
             frame 4 0 60010 x 8813000041000118 => A{found}"
        ));
    }
    holds_in_a_session(
        "frame 4 0 68002 x 8813 => A0
         frame 4 0 60010 x 8813000041000100 => A0
         frame 4 0 68003 x a00f1400 => A0
         frame 4 0 60010 x 8813000041000100 => A256
         frame 4 0 68002 x 0000 => A0
         frame 4 0 60010 x 8813000041000100 => A0
         frame 4 0 68005 x 0000000000 => A0
         frame 4 0 60010 x 8813000041000100 => A256
         frame 4 0 68006 x 01 => A0
         frame 4 0 60010 x 8813000041000100 => A256
         frame 4 0 68007 x 00 => A0
         frame 4 0 60010 x 8813000041000100 => A0
         frame 4 0 68001 x 0201000000000000 => A0
         frame 4 0 60010 x 8813000041000100 => A0",
    );
}

/// A yes/no sensor on an older post: raw 0 and nothing else.
#[test]
fn a_yes_no_sensor() {
    holds(
        "setup 0 4 5000 1000 500 500 1 1 => A
         frame 4 0 68001 x 0201000000000000 => A0
         frame 4 0 60010 x 0000000041000100 => A0
         frame 4 0 68005 x 0000000000 => A0
         frame 4 0 60010 x 0000000041000100 => A256
         frame 4 0 60010 x ffff000041000101 => A0",
    );
}

/// "F3, F6 and F7 give no finding there": no control of 001 ever does, above the voltage limit neither.
#[test]
fn no_contactors_no_lowering_no_target() {
    for control in ["68002 x ffff", "68003 x ffffffff", "68005 x ffffff7fff"] {
        holds_side_by_side(&format!("frame 4 0 {control} => A8"));
        holds_in_a_session(&format!(
            "frame 4 0 {control} => A0
             frame 4 0 60011 x 0100010000000000 => A0
             frame 4 0 {control} => A0"
        ));
    }
}

/// "Power_Modules_Limits sets the voltage and charge limits, a current of 0 or less meaning the default".
#[test]
fn limits() {
    for (told, most) in [("6400", 100), ("0100", 1), ("e803", 1000), ("e903", 1000), ("ff7f", 1000)] {
        holds_told(told, most);
    }
    for told in ["0000", "ffff", "9cff", "0080"] {
        holds_told(told, 1000);
    }
    // The latest alone counts; before any, and since a set-up, the default does.
    holds_in_a_session(
        "frame 4 0 60010 x 0000e80341000164 => A0
         frame 4 0 60010 x 0000e90341000164 => A128
         frame 4 0 60011 x 0000640000000000 => A0
         frame 4 0 60010 x 0000650041000164 => A128
         frame 4 0 60011 x 0000ffff00000000 => A0
         frame 4 0 60010 x 0000650041000164 => A0
         frame 4 0 60010 x 0000e90341000164 => A128",
    );
}

/// R9: "The discharge limit of such a post is the default", 500 here, whatever was told.
fn holds_told(told: &str, most: u16) {
    let current = |current: i32| hex(&(current as i16).to_le_bytes());
    holds_in_a_session(&format!(
        "frame 4 0 60011 x 0000{told}00000000 => A0
         frame 4 0 60010 x 0000{at}41000164 => A0
         frame 4 0 60010 x 0000{above}41000164 => A128
         frame 4 0 60010 x 0000{back}41000164 => A0
         frame 4 0 60010 x 0000{beyond}41000164 => A128",
        at = current(most.into()),
        above = current(i32::from(most) + 1),
        back = current(-500),
        beyond = current(-501),
    ));
}

/// `spms`, `sdpc` and `latest` show 001's messages; standard identifiers first, then extended ones, ascending.
#[test]
fn the_record() {
    let post = "K ch=4 volt=5000 chg=1000 dis=500 w=500 sensor=0 iface=1";
    let none = "0,0,0,0,0,0,0,0,0,0,0,0";
    holds_in_a_session(&format!(
        "frame 4 1 6800e x 0000000000000000 => A0
         frame 4 2 68005 x a00f640032 => A0
         frame 4 3 8 s fe70000000000000 => A0
         frame 4 4 68003 x a00f1400 => A0
         record 0 => {post} last=4 open=1 since=0+4 first=2,1 spms=60010x:0,0,25,-40,1,200@0+4 sdpc=68003x:4000,20@4+0 sstop=- n=6 tally={none} latest=8s:-100,0,0,0,0,0,0,0,0,0,0,0@3+1;60010x:0,0,25,-40,1,200@0+4;68001x:2,1,0,0,0,0@0+4;68003x:4000,20@4+0;68005x:4000,100,50@2+2;6800ex:0,0,0@1+3
         frame 4 5 68002 x 0000 => A0
         frame 4 5 60010 x a00f83ff41000164 => A0
         record 0 => {post} last=5 open=1 since=0+5 first=2,1 spms=60010x:4000,-125,25,-40,1,200@5+0 sdpc=68002x:0@5+0 sstop=- n=8 tally={none} latest=8s:-100,0,0,0,0,0,0,0,0,0,0,0@3+2;60010x:4000,-125,25,-40,1,200@5+0;68001x:2,1,0,0,0,0@0+5;68002x:0@5+0;68003x:4000,20@4+1;68005x:4000,100,50@2+3;6800ex:0,0,0@1+4"
    ));
}

/// A replay's set-ups name it too, and a batch has a word for 29.
#[test]
fn replays_and_batches() {
    let (newer, older) = ("000481c0350107", "00049380340107");
    holds(&format!(
        "logr {newer}{older} => L 2 f,0,4,6b000,x,07 f,0,4,68009,x,07 END
         replay {newer}{older} 0,4,5000,1000,500,500 => 1 0 A0|2 0 R29|END
         replay {newer}{older} 0,4,5000,1000,500,500,0,0 => 1 0 A0|2 0 R29|END
         replay {newer}{older} 0,4,5000,1000,500,500,0,1 => 1 0 R29|2 0 A0|END
         replay {newer}{older} 0,4,5000,1000,500,500,0,1;0,4,5000,1000,500,500 => 1 0 A0|2 0 R29|END
         replay {newer}{older} 0,4,5000,1000,500,500,0,2 => SETUP R12
         replay {newer}{older} 0,4,5000,1000,500,500,0,1,0 => ?
         setup 0 4 5000 1000 500 500 0 1 => A
         batch {newer}{older} 2 => A 65565 0
         refused => N 1"
    ));
}

/// Posts of different interfaces on one table do not touch each other.
#[test]
fn side_by_side() {
    holds_side_by_side(
        "frame 4 1000 68001 x 0201000000000000 => A0
         frame 5 0 6b001 x 0301 => A0
         frame 4 1000 60010 x 0000000041000164 => A0
         frame 5 0 63000 x 0000000041000064 => A0
         frame 5 0 6b003 x 00000000000008 => A16
         frame 4 1000 68005 x 0000000000 => A0
         frame 5 0 63001 x 0000640000000000 => A0
         frame 4 1000 60010 x 0000e80341000164 => A0
         frame 4 1000 60011 x 0000010000000000 => A0
         frame 5 0 63000 x 0000640041000164 => A0
         frame 5 0 6b004 x 00 => A0
         tick 4 1501 => A1
         tick 5 1501 => A0",
    );
}

#[test]
fn explaining() {
    holds("explain R29 => E R29 identifier that only the other interface has");
}
