//! Req 14's Emergency_Stop from both sides of each edge, and the decided reading of it (R9, R10).

use crate::readings::holds;

/// A story in sessions that were opened at 0, with Allowed: on a newer post on channel 4, and on an older one on channel 5.
fn holds_in_sessions(story: &str) {
    holds(&format!(
        "setup 0 4 5000 1000 500 500 => A
         setup 1 5 5000 1000 500 500 0 1 => A
         frame 4 0 6b001 x 0201 => A0
         frame 4 0 63000 x 0000000041000164 => A0
         frame 5 0 68001 x 0201000000000000 => A0
         frame 5 0 60010 x 0000000041000164 => A0
         {story}"
    ));
}

/// "a DC_Power_Control with insulation test, precharge or power transfer".
#[test]
fn f12_by_each_function() {
    holds_in_sessions(
        "frame 4 0 6b003 x 00000000000002 => A0
         frame 4 0 6b003 x 00000000000004 => A0
         frame 4 0 6b003 x 00000000000008 => A0
         frame 4 0 6b005 x 01 => A0
         frame 4 0 6b003 x 00000000000000 => A0
         frame 4 0 6b003 x 00000000000001 => A0
         frame 4 0 6b003 x 00000000000002 => A2048
         frame 4 0 6b003 x 00000000000004 => A2048
         frame 4 0 6b003 x 00000000000008 => A2048
         frame 4 0 6b003 x 00000000000001 => A0
         frame 4 0 6b003 x 00000000000008 => A2048
         frame 4 0 63000 x 0000000041000164 => A0
         tick 4 0 => A0",
    );
}

/// Contactors, lowering and a target above the limit ask nothing of it, and are found beside it.
#[test]
fn f12_with_other_findings() {
    holds_in_sessions(
        "frame 4 0 6b005 x 03 => A0
         frame 4 0 6b003 x 00000000000041 => A0
         frame 4 0 6b003 x 00000000000048 => A2048
         frame 4 0 6b003 x 00000000000088 => A2080
         frame 4 0 6b003 x 89130000000001 => A64
         frame 4 0 6b003 x 89130000000008 => A2112
         frame 4 0 63000 x 0000000041000064 => A0
         frame 4 0 6b003 x 00000000000002 => A2064
         frame 4 501 6b003 x 00000000000002 => A2065",
    );
}

/// R9: "F12 (Req 14) holds there too": by the messages that stand for the functions, and by 001's Emergency_Stop.
#[test]
fn f12_on_an_older_post() {
    holds_in_sessions(
        "frame 5 0 68002 x 0000 => A0
         frame 5 0 68003 x 00000000 => A0
         frame 5 0 68005 x 0000000000 => A0
         frame 5 0 6b005 x 01 => R29
         frame 5 0 68005 x 0000000000 => A0
         frame 5 0 68006 x 01 => A0
         frame 5 0 68002 x 0000 => A2048
         frame 5 0 68003 x 00000000 => A2048
         frame 5 0 68005 x 0000000000 => A2048
         frame 5 0 60012 x 000000 => A0
         frame 4 0 6b003 x 00000000000008 => A0
         frame 4 0 68006 x 01 => R29
         frame 4 0 6b003 x 00000000000008 => A0",
    );
}

/// R10: "F12 needs a stop accepted in this session".
#[test]
fn a_stop_of_another_session_does_not_count() {
    holds_in_sessions(
        "frame 4 0 6b005 x 01 => A0
         frame 4 0 6b004 x 00 => A0
         frame 4 0 6b003 x 00000000000008 => A8
         frame 4 0 6b001 x 0201 => A0
         frame 4 0 6b003 x 00000000000008 => A16
         frame 4 0 6b004 x 00 => A0
         frame 4 0 6b005 x 01 => A0
         frame 4 0 6b003 x 00000000000008 => A8
         frame 4 0 6b001 x 0201 => A0
         frame 4 0 6b003 x 00000000000008 => A16
         frame 4 0 6b005 x 01 => A0
         frame 4 0 6b003 x 00000000000008 => A2064",
    );
}

/// A stop that is refused was not accepted, one on another post was not accepted in this session, and a repeat opens none.
#[test]
fn a_stop_accepted_in_it() {
    holds_in_sessions(
        "frame 4 0 6b005 x 02 => R5:0
         frame 4 0 6b005 x 0101 => R15
         frame 4 0 6b005 x - => R4
         frame 4 0 6b005 s 01 => R3
         frame 5 0 68006 x 01 => A0
         frame 4 0 6b003 x 00000000000008 => A0
         frame 4 0 6b005 x 03 => A0
         frame 4 0 6b001 x 0201 => A0
         frame 4 0 6b003 x 00000000000008 => A2048
         setup 0 4 5000 1000 500 500 => A
         frame 4 0 6b001 x 0201 => A0
         frame 4 0 6b003 x 00000000000008 => A16",
    );
}

/// "the record's session part keeps the stop", the latest one, and "F12 has its own tally".
#[test]
fn the_record() {
    let post = "K ch=4 volt=5000 chg=1000 dis=500 w=500 sensor=0 iface=0";
    let of_session = "first=2,1 spms=63000x:0,0,25,-40,1,200@0";
    holds_in_sessions(&format!(
        "frame 4 1 6b005 x 01 => A0
         frame 4 3 6b005 x 03 => A0
         frame 4 4 6b003 x 00000000000008 => A2048
         frame 4 5 6b003 x 00000000000002 => A2048
         record 0 => {post} last=5 open=1 since=0+5 {of_session}+5 sdpc=6b003x:0,0,0,2,0,0,0,0@5+0 sstop=6b005x:3@3+2 n=6 tally=0,0,0,0,0,0,0,0,0,0,0,2 latest=63000x:0,0,25,-40,1,200@0+5;6b001x:2,1@0+5;6b003x:0,0,0,2,0,0,0,0@5+0;6b005x:3@3+2
         frame 4 6 6b004 x 00 => A0
         record 0 => {post} last=6 open=0 since=- first=- spms=- sdpc=- sstop=- n=7 tally=0,0,0,0,0,0,0,0,0,0,0,2 latest=63000x:0,0,25,-40,1,200@0+6;6b001x:2,1@0+6;6b003x:0,0,0,2,0,0,0,0@5+1;6b004x:0@6+0;6b005x:3@3+3
         frame 4 7 6b001 x 0201 => A0
         record 0 => {post} last=7 open=1 since=7+0 first=2,1 spms=- sdpc=- sstop=- n=8 tally=0,0,0,0,0,0,0,0,0,0,0,2 latest=63000x:0,0,25,-40,1,200@0+7;6b001x:2,1@7+0;6b003x:0,0,0,2,0,0,0,0@5+2;6b004x:0@6+1;6b005x:3@3+4
         frame 5 2 68006 x 03 => A0
         record 1 => K ch=5 volt=5000 chg=1000 dis=500 w=500 sensor=0 iface=1 last=2 open=1 since=0+2 first=2,1 spms=60010x:0,0,25,-40,1,200@0+2 sdpc=- sstop=68006x:3@2+0 n=3 tally=0,0,0,0,0,0,0,0,0,0,0,0 latest=60010x:0,0,25,-40,1,200@0+2;68001x:2,1,0,0,0,0@0+2;68006x:3@2+0"
    ));
}
