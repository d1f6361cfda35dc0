//! 01's readings from both sides of each edge (E1 to E16), and the decided readings of messages (M) and watch (W).

use crate::desk::{self, Desk};

/// Each line is a step, ` => `, and its answer.
pub fn holds(story: &str) {
    let mut desk = Desk::new();
    for line in story.lines().map(str::trim).filter(|line| !line.is_empty()) {
        let (step, expected) = line.split_once(" => ").expect("a step and its answer");
        assert_eq!(desk::answer(&mut desk, step.as_bytes()), expected, "{step}");
    }
}

fn setup(rest: &str) -> String {
    format!("setup 0 4 5000 1000 500 500 => A\n{rest}")
}

#[test]
fn e1_to_e4_reading() {
    holds(
        "read 63000 x a00f83ff41000164 => A 63000x:4000,-125,25,-40,1,200
         read 63000 x a00f83ff410001 => R4
         read 63000 x a00f83ff41000264 => R5:48
         read 63003 x a00f83ff41000164 => R3",
    );
}

#[test]
fn e5_e6_writing() {
    holds(
        "write 63000 x 4000,-125,215,-40,1,200 0000000000000000 => A 63000 8 a00f83ffff000164
         write 63000 x 4000,-125,216,-40,1,200 0000000000000000 => R7 0000000000000000
         write 63000 x 4000,-125,25,-40,1,510 0000000000000000 => A 63000 8 a00f83ff410001ff
         write 63000 x 4000,-125,25,-40,1,201 0000000000000000 => R7 0000000000000000",
    );
}

#[test]
fn e7_changing() {
    holds("change 63000 x a00f83ff41000164 16 -1 => A a00fffff41000164");
}

#[test]
fn e8_insulation_under_precharge() {
    holds(&setup(
        "frame 4 0 6b001 x 0201 => A0
         frame 4 0 63000 x 0000000041000164 => A0
         frame 4 0 6b003 x 00000000000004 => A0
         frame 4 0 63000 x 8813000041000119 => A0
         frame 4 0 63000 x 8813000041000118 => A256",
    ));
}

#[test]
fn e9_controller_status() {
    holds(&setup("frame 4 1000 6b000 x 01 => A0\ntick 4 1200 => A0\ntick 4 1201 => A2"));
}

#[test]
fn e10_silence() {
    holds(&setup(
        "frame 4 0 6b001 x 0201 => A0
         tick 4 500 => A0
         frame 4 501 63000 x 0000000041000164 => A1
         tick 4 1001 => A0
         tick 4 1002 => A1",
    ));
}

#[test]
fn e11_power_before_any_session() {
    holds(&setup("frame 4 0 6b003 x 00000000000048 => A12"));
}

#[test]
fn e12_channel_taken() {
    holds(&setup(
        "tick 4 10 => A0
         setup 1 4 5000 1000 500 500 => R11
         record 0 => K ch=4 volt=5000 chg=1000 dis=500 w=500 sensor=0 iface=0 last=10 open=0 since=- first=- spms=- sdpc=- sstop=- n=1 tally=0,0,0,0,0,0,0,0,0,0,0,0 latest=-
         setup 0 4 5000 1000 500 500 => A
         record 0 => K ch=4 volt=5000 chg=1000 dis=500 w=500 sensor=0 iface=0 last=- open=0 since=- first=- spms=- sdpc=- sstop=- n=0 tally=0,0,0,0,0,0,0,0,0,0,0,0 latest=-",
    ));
}

#[test]
fn e13_voltage_limit() {
    holds(&setup(
        "frame 4 0 63001 x 0000000000000000 => A0
         frame 4 0 6b003 x 88130000000001 => A0
         frame 4 0 6b003 x 89130000000001 => A64
         frame 4 0 63001 x 7017000000000000 => A0
         frame 4 0 6b003 x 88130000000001 => A0
         frame 4 0 6b003 x 89130000000001 => A64
         frame 4 0 63001 x a00f000000000000 => A0
         frame 4 0 6b003 x a00f0000000001 => A0
         frame 4 0 6b003 x a10f0000000001 => A64",
    ));
}

#[test]
fn e14_time_runs_back() {
    holds(&setup("tick 4 100 => A0\ntick 4 99 => R2\ntick 4 100 => A0"));
}

#[test]
fn e15_e16_session_and_empty_payload() {
    holds("read 6b001 x 0201 => A 6b001x:2,1\nread 6b001 x - => R4");
}

#[test]
fn m1_reserved_bit() {
    holds(
        "read 6b003 x 00000000000010 => A 6b003x:0,0,0,0,1,0,0,0
         change 6b003 x 00000000000000 52 1 => A 00000000000010
         write 6b003 x 0,0,0,0,1,0,0,0 00000000000000 => A 6b003 7 00000000000010
         write 6b003 x 0,0,0,0,2,0,0,0 00000000000000 => R7 00000000000000",
    );
}

#[test]
fn m2_whole_identifier() {
    holds(
        "read 6b000 s 01 => R3
         read 8006b000 x 01 => R3
         write 6b000 s 1 00 => X
         write 8006b000 x 1,2,3 00 => X",
    );
}

#[test]
fn m3_length_before_labels() {
    holds("read 6b000 x 0eff => R15\nread 6b000 x 0e => R5:0\nread 63003 x - => R3");
}

#[test]
fn m4_seven_before_eight() {
    holds(
        "write 6b000 x 14 - => R7 -
         write 6b000 x 13 - => R8 -
         write 6b000 x 13 ffff => A 6b000 1 0dff
         write 63000 x 65536,0,0,0,0,0 ff => R7 ff
         write 63000 x 65535,32767,-40,-40,0,0 ff => R8 ff",
    );
}

#[test]
fn m5_change() {
    holds(
        "change 63000 x a00f83ff41000164 16 65535 => R7 a00f83ff41000164
         change 63000 x a00f83ff41000164 16 32768 => R7 a00f83ff41000164
         change 63000 x a00f83ff41000164 16 32767 => A a00fff7f41000164
         change 63000 x a00f83ff41000164 16 -32768 => A a00f008041000164
         change 63000 x a00f83ff41000164 0 -1 => R7 a00f83ff41000164
         change 63000 x a00f83ff41000164 0 65535 => A ffff83ff41000164
         change 63000 x a00f83ff41000164 17 0 => R13 a00f83ff41000164
         change 63000 x a00f83ff41000164 17 99999 => R13 a00f83ff41000164
         change 63000 x a00f83ff41000164 48 256 => R7 a00f83ff41000164
         change 63000 x a00f83ff41000164 48 2 => R5:48 a00f83ff41000164
         change 63000 x a00f83ff4100016400 17 0 => R15 a00f83ff4100016400
         change 63000 x a00f83ff41000264 17 0 => R5:48 a00f83ff41000264
         change 63003 x - 0 0 => R3 -
         change 6b003 x 00000000000000 48 16 => R7 00000000000000
         change 6b003 x 00000000000000 48 3 => R5:48 00000000000000
         change 6b003 x 000000000000f0 48 8 => A 000000000000f8",
    );
}

/// The pages' Min and Max columns: -40 and 215 °C are ends that the raw number has anyway, and nothing else refuses.
#[test]
fn m6_min_and_max_never_refuse() {
    holds(
        "read 63000 x ffff0080ff0000ff => A 63000x:65535,-32768,215,-40,0,510
         read 6b105 x ffffffffffff => A 6b105x:255,255,255,255,255,255",
    );
}

#[test]
fn w1_lowest_number_first() {
    holds(&setup(
        "tick 4 100 => A0
         frame 5 99 63003 x - => R1
         frame 4 99 63003 x - => R2
         frame 4 100 63003 x - => R3
         frame 4 100 6b000 x 0eff => R15
         frame 4 100 6b000 x 0e => R5:0
         setup 16 32 0 0 0 0 => R9
         setup 1 32 0 0 0 0 => R10
         setup 1 4 0 0 0 0 => R11
         setup 1 5 0 0 0 0 => R12
         release 16 => R9
         release 1 => R14
         record 16 => R9
         record 1 => R14",
    ));
}

#[test]
fn w2_second_set_up() {
    holds(&setup(
        "tick 4 100 => A0
         setup 0 4 0 1000 500 500 => R12
         tick 4 5 => R2
         setup 0 4 5000 1000 500 500 => A
         tick 4 5 => A0
         setup 0 6 5000 1000 500 500 => A
         tick 4 5 => R1
         setup 1 4 5000 1000 500 500 => A
         release 1 => A
         release 1 => R14
         tick 4 5 => R1",
    ));
}

#[test]
fn w3_refused_ones_move_nothing() {
    holds(&setup(
        "tick 4 100 => A0
         frame 4 9000 63003 x - => R3
         tick 4 100 => A0
         frame 4 9000 6b000 x 0e => R5:0
         tick 4 400 => A0
         record 0 => K ch=4 volt=5000 chg=1000 dis=500 w=500 sensor=0 iface=0 last=400 open=0 since=- first=- spms=- sdpc=- sstop=- n=3 tally=0,0,0,0,0,0,0,0,0,0,0,0 latest=-",
    ));
}

#[test]
fn w4_own_arrival_does_not_count() {
    holds(&setup(
        "frame 4 0 6b000 x 01 => A0
         frame 4 201 6b000 x 01 => A2
         frame 4 201 6b001 x 0201 => A0
         frame 4 702 6b004 x 00 => A3
         frame 4 702 6b000 x 01 => A2
         tick 4 902 => A0",
    ));
}

#[test]
fn w5_repeats_restart_nothing() {
    holds(&setup(
        "frame 4 0 6b001 x 0201 => A0
         frame 4 400 6b001 x 0301 => A512
         frame 4 501 6b001 x 0301 => A513
         frame 4 501 6b001 x 0201 => A1
         frame 4 501 6b001 x 0200 => A513
         record 0 => K ch=4 volt=5000 chg=1000 dis=500 w=500 sensor=0 iface=0 last=501 open=1 since=0+501 first=2,1 spms=- sdpc=- sstop=- n=5 tally=3,0,0,0,0,0,0,0,0,3,0,0 latest=6b001x:2,0@501+0",
    ));
}

#[test]
fn w6_looks_back_across_sessions() {
    holds(&setup(
        "frame 4 0 6b000 x 01 => A0
         frame 4 0 63001 x e803000000000000 => A0
         frame 4 100 6b001 x 0201 => A0
         frame 4 150 6b004 x 00 => A0
         frame 4 190 6b001 x 0201 => A0
         frame 4 200 6b003 x e9030000000001 => A64
         tick 4 201 => A2",
    ));
}

#[test]
fn w7_rules_without_session() {
    holds(&setup(
        "frame 4 0 6b003 x 00000000000040 => A4
         frame 4 0 6b003 x 00000000000041 => A4
         frame 4 0 6b003 x 00000000000002 => A8
         frame 4 0 6b003 x 89130000000001 => A64
         frame 4 0 6b003 x 89130000000000 => A0
         frame 4 0 6b003 x 00000000000081 => A0
         frame 4 0 6b003 x 00000000000080 => A32
         frame 4 0 6b003 x 01000000000081 => A32
         frame 4 0 6b003 x 00000100000081 => A32
         frame 4 0 6b003 x 00000000ffff81 => A32
         frame 4 0 6b003 x 01000100010001 => A0",
    ));
}

#[test]
fn w8_in_the_session() {
    holds(&setup(
        "frame 4 0 63000 x 0000000041000164 => A0
         frame 4 0 6b003 x 00000000000008 => A8
         frame 4 0 6b001 x 0201 => A0
         frame 4 0 63000 x 8813000041000000 => A0
         frame 4 0 6b003 x 00000000000008 => A16
         frame 4 0 63000 x 8813000041000100 => A256
         frame 4 0 6b003 x 00000000000008 => A0
         frame 4 0 6b004 x 00 => A0
         frame 4 0 6b001 x 0201 => A0
         frame 4 0 6b003 x 00000000000002 => A16",
    ));
}

#[test]
fn w9_limits() {
    holds(
        "setup 0 4 5000 1000 0 500 => A
         frame 4 0 6b001 x 0201 => A0
         frame 4 0 63000 x 0000000041000164 => A0
         frame 4 0 63000 x 0000ffff41000164 => A128
         frame 4 0 63001 x d007640064000000 => A0
         frame 4 0 63000 x 0000640041000164 => A0
         frame 4 0 63000 x 0000650041000164 => A128
         frame 4 0 63000 x 0000ffff41000164 => A128
         frame 4 0 63001 x 0000000000000000 => A0
         frame 4 0 63000 x 0000e80341000164 => A0
         frame 4 0 63000 x 0000e90341000164 => A128
         frame 4 0 63001 x ffffffffffff0000 => A0
         frame 4 0 63000 x 0000e80341000164 => A0
         frame 4 0 63000 x 0000e90341000164 => A128",
    );
}

#[test]
fn w10_current_and_insulation_need_a_session() {
    holds(&setup(
        "frame 4 0 63000 x 8813ff7f41000100 => A0
         frame 4 0 6b001 x 0201 => A0
         frame 4 0 63000 x 00000cfe41000164 => A0
         frame 4 0 63000 x 00000bfe41000164 => A128
         frame 4 0 63000 x 0000e80341000164 => A0
         frame 4 0 63000 x 0000e90341000164 => A128",
    ));
}

#[test]
fn w11_after_the_session() {
    holds(&setup(
        "frame 4 10 6b001 x 0201 => A0
         frame 4 20 63000 x a00f83ff41000164 => A0
         frame 4 30 6b003 x 00000000000001 => A0
         record 0 => K ch=4 volt=5000 chg=1000 dis=500 w=500 sensor=0 iface=0 last=30 open=1 since=10+20 first=2,1 spms=63000x:4000,-125,25,-40,1,200@20+10 sdpc=6b003x:0,0,0,1,0,0,0,0@30+0 sstop=- n=3 tally=0,0,0,0,0,0,0,0,0,0,0,0 latest=63000x:4000,-125,25,-40,1,200@20+10;6b001x:2,1@10+20;6b003x:0,0,0,1,0,0,0,0@30+0
         frame 4 40 6b004 x 00 => A0
         record 0 => K ch=4 volt=5000 chg=1000 dis=500 w=500 sensor=0 iface=0 last=40 open=0 since=- first=- spms=- sdpc=- sstop=- n=4 tally=0,0,0,0,0,0,0,0,0,0,0,0 latest=63000x:4000,-125,25,-40,1,200@20+20;6b001x:2,1@10+30;6b003x:0,0,0,1,0,0,0,0@30+10;6b004x:0@40+0
         frame 4 50 6b004 x 01 => A1024
         record 0 => K ch=4 volt=5000 chg=1000 dis=500 w=500 sensor=0 iface=0 last=50 open=0 since=- first=- spms=- sdpc=- sstop=- n=5 tally=0,0,0,0,0,0,0,0,0,0,1,0 latest=63000x:4000,-125,25,-40,1,200@20+30;6b001x:2,1@10+40;6b003x:0,0,0,1,0,0,0,0@30+20;6b004x:1@50+0",
    ));
}

#[test]
fn w12_numbers_out_of_range_can_be_said() {
    holds(
        "setup 4294967295 0 1 1 0 100 => R9
         setup 0 4294967295 1 1 0 100 => R10
         setup 0 0 4294967295 1 0 100 => R12
         setup 0 0 65536 1 0 100 => R12
         setup 0 0 0 1 0 100 => R12
         setup 0 0 1 0 0 100 => R12
         setup 0 0 1 32768 0 100 => R12
         setup 0 0 1 1 32768 100 => R12
         setup 0 0 1 1 0 99 => R12
         setup 0 0 1 1 0 60001 => R12
         setup 0 0 1 1 0 100 => A
         setup 15 31 65535 32767 32767 60000 => A
         tick 31 4294967295 => A0
         tick 31 4294967296 => ?
         tick 4294967295 0 => R1
         frame 0 0 ffffffff x - => R3",
    );
}

/// The slips of 01's own list that no other story here shows: posts are found by channel and have clocks of their own.
#[test]
fn posts_by_channel_with_own_clocks() {
    holds(
        "setup 0 4 5000 1000 500 500 => A
         setup 1 9 5000 1000 500 500 => A
         frame 4 5000 6b001 x 0201 => A0
         frame 9 100 6b004 x 00 => A1024
         tick 4 5500 => A0
         tick 4 5501 => A1",
    );
}

#[test]
fn explaining() {
    holds(
        "explain 0 => E none
         explain 12 => E F3 contactors closed with no session open; F4 insulation test, precharge or power transfer with no session open
         explain 1024 => E F11 session finished with none open
         explain 2048 => E F12 insulation test, precharge or power transfer after an Emergency_Stop in this session
         explain 4096 => ?
         explain 4097 => ?
         explain -1 => ?
         explain R1 => E R1 channel above 31, or held by no post
         explain R4 => E R4 shorter than the table's length
         explain R14 => E R14 post not set up
         explain R0 => ?
         explain R15 => E R15 longer than the table's length
         explain R16 => E R16 a number in the log that is not in its shortest form, or has more than five groups or 32 bits
         explain R17 => E R17 a channel above 31 in a log record
         explain R18 => E R18 a standard identifier above 2,047 in a log record
         explain R19 => E R19 an extended identifier above 29 bits in a log record
         explain R20 => E R20 a length above 9 in a log record, or more than 8 payload bytes to be logged
         explain R21 => E R21 a tick's length, 9, with an identifier part other than 0
         explain R22 => E R22 a batch of more than 4,096 bytes
         explain R23 => E R23 a malformed or cut record in a batch
         explain R24 => E R24 fewer places for answers than a batch has records
         explain R25 => E R25 the post's count of accepted frames and ticks is at its largest
         explain R26 => E R26 a malformed or cut log in a comparison
         explain R27 => E R27 more than 512 records in a log of a comparison
         explain R28 => E R28 fewer than 512 places for the record numbers of a comparison
         explain R29 => E R29 identifier that only the other interface has
         explain R30 => ?
         explain R01 => ?
         explain r1 => ?
         explain R => ?
         explain 4294967296 => ?
         explain => ?",
    );
}

#[test]
fn lines_that_are_no_steps() {
    let mut desk = Desk::new();
    for line in
        [&b" "[..], b"tick 4 20\r", b"tick  4 20", b" tick 4 20", b"tick 4 20 ", b"tick 4", b"\xff", b"read 6b000 x "]
    {
        assert_eq!(desk::answer(&mut desk, line), "?", "{}", line.escape_ascii());
    }
}

#[test]
fn a_line_of_65535_bytes_is_read_and_one_more_is_not() {
    let mut desk = Desk::new();
    let longest = format!("read 63000 x {}", "00".repeat((desk::LONGEST - 13) / 2));
    assert_eq!(longest.len(), desk::LONGEST);
    assert_eq!(desk::answer(&mut desk, longest.as_bytes()), "R15");
    assert_eq!(desk::answer(&mut desk, format!("{longest}00").as_bytes()), "?");
}

#[test]
fn skipped_lines_and_a_last_line_without_line_feed() {
    let comment = format!("#{}", "x".repeat(100_000));
    let script = format!("\n# a comment\n{comment}\ntick 4 0\n\nrecord 16");
    let mut answers = Vec::new();
    desk::run(script.as_bytes(), &mut answers, &mut Desk::new()).unwrap();
    assert_eq!(answers, b"R1\nR9\n");
}
