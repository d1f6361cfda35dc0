//! Req 13 from both sides of each edge, and the decided reading of it (R10).

use crate::desk::{self, Desk};
use crate::readings::holds;
use crate::script::{joined, script, Extras};

/// The answer to `index` where those posts hold those channels.
fn index_of(held: &[(usize, usize)]) -> String {
    let mut places = vec!["-".to_string(); 32];
    held.iter().for_each(|(channel, post)| places[*channel] = post.to_string());
    format!("I {}", places.join(" "))
}

/// R10: "9 begins at 16 in set-up, release, look-up, replay".
#[test]
fn refusal_9_begins_at_16() {
    holds(
        "setup 15 4 5000 1000 500 500 => A
         setup 16 5 5000 1000 500 500 => R9
         setup 17 5 5000 1000 500 500 => R9
         setup 8 5 5000 1000 500 500 => A
         record 9 => R14
         record 16 => R9
         release 9 => R14
         release 16 => R9
         release 15 => A
         release 15 => R14
         replay 00040009 15,4,5000,1000,500,500 => 1 15 A0|END
         replay 00040009 16,4,5000,1000,500,500 => SETUP R9
         replay 00040009 8,4,5000,1000,500,500;16,4,5000,1000,500,500 => SETUP R9",
    );
}

/// "Keep a 32-place index from channel to post", from the first channel to the last, of the first post and the last.
#[test]
fn a_place_for_each_channel() {
    let (none, edges) = (index_of(&[]), index_of(&[(0, 15), (31, 0)]));
    holds(&format!(
        "index => {none}
         setup 0 31 5000 1000 500 500 => A
         setup 15 0 5000 1000 500 500 => A
         index => {edges}
         index 0 => ?
         index => {edges}"
    ));
}

/// "kept true by set-up, second set-up and release".
#[test]
fn kept_true() {
    let (set, moved) = (index_of(&[(4, 3), (5, 10)]), index_of(&[(5, 10), (9, 3)]));
    let (taken, released) = (index_of(&[(4, 11), (5, 10), (9, 3)]), index_of(&[(4, 11), (5, 10)]));
    holds(&format!(
        "setup 3 4 5000 1000 500 500 => A
         setup 10 5 5000 1000 500 500 => A
         index => {set}
         setup 3 4 5000 1000 500 500 => A
         index => {set}
         setup 3 9 5000 1000 500 500 => A
         index => {moved}
         tick 4 0 => R1
         tick 9 0 => A0
         setup 11 4 5000 1000 500 500 => A
         index => {taken}
         setup 3 4 5000 1000 500 500 => R11
         setup 3 32 5000 1000 500 500 => R10
         setup 3 6 0 1000 500 500 => R12
         setup 16 6 5000 1000 500 500 => R9
         release 6 => R14
         index => {taken}
         release 3 => A
         index => {released}
         tick 9 1 => R1
         tick 4 0 => A0
         setup 10 9 5000 1000 500 500 => A
         index => {}",
        index_of(&[(4, 11), (9, 10)])
    ));
}

/// A replay has a table of its own, and a batch's records move nobody.
#[test]
fn of_the_desk_s_own_table() {
    let set = index_of(&[(4, 0)]);
    holds(&format!(
        "setup 0 4 5000 1000 500 500 => A
         replay 00050009 1,5,5000,1000,500,500 => 1 1 A0|END
         batch 0004000900050009 2 => A 0 65537
         index => {set}"
    ));
}

/// A line of the replay has the post's whole number, and 40 bytes are enough for it.
#[test]
fn two_digits_in_a_line() {
    let set_ups = "9,9,5000,1000,500,500;10,10,5000,1000,500,500;15,15,5000,1000,500,500";
    holds(&format!("replay 00090009000a0009000f000900100009 {set_ups} => 1 9 A0|2 10 A0|3 15 A0|4 - R1|END"));
    assert!(format!("{} {} R5 {}\n", u64::MAX, 15, 255).len() <= 40);
    assert!(format!("{} {} A{}\n", u64::MAX, 15, 65_535).len() <= 40);
}

/// "found equal to a search over the posts": a post is named where its record has that channel, and nowhere else.
#[test]
fn equal_to_what_the_records_say() {
    let mut asked = 0;
    for seed in 1..4 {
        let mut desk = Desk::new();
        let text = joined(&script(seed, 3000, Extras::default()));
        for line in text.split(|&byte| byte == b'\n').filter(|line| desk::is_step(line)) {
            let answer = desk::answer(&mut desk, line);
            if line == b"index" {
                asked += 1;
                let channel = |post: &usize| {
                    let record = desk::answer(&mut desk, format!("record {post}").as_bytes());
                    record
                        .strip_prefix("K ch=")
                        .map(|rest| rest.split(' ').next().unwrap_or("").parse().expect("a channel"))
                };
                let posts: Vec<usize> = (0..16).collect();
                let held: Vec<Option<usize>> = posts.iter().map(channel).collect();
                let held: Vec<(usize, usize)> =
                    held.into_iter().zip(posts).filter_map(|(ch, post)| Some((ch?, post))).collect();
                assert_eq!(answer, index_of(&held), "seed {seed}");
            }
        }
    }
    assert!(asked > 200, "{asked}");
}
