//! Req 08 from both sides of each edge, the decided reading of it (R6), and the ends of the counts at a smaller largest one.

use crate::desk::{self, Desk};
use crate::posts::POSTS;
use crate::readings::holds;
use crate::script::{joined, script, Extras};
use crate::tallies::{self, LARGEST};

const SET_UP: &str = "setup 0 4 5000 1000 500 500 => A\n";

fn holds_on_a_post(story: &str) {
    holds(&format!("{SET_UP}{story}"));
}

/// A record with nothing but its counts.
fn record(n: u32, tally: &str, last: &str) -> String {
    format!(
        "K ch=4 volt=5000 chg=1000 dis=500 w=500 sensor=0 iface=0 last={last} open=0 since=- first=- spms=- sdpc=- sstop=- n={n} \
         tally={tally} latest=-"
    )
}

const NONE: &str = "0,0,0,0,0,0,0,0,0,0,0,0";

#[test]
fn each_finding_has_a_tally_of_its_own() {
    holds_on_a_post(
        "frame 4 0 6b003 x a00f0000000048 => A12
         frame 4 0 6b004 x 00 => A1024
         frame 4 0 6b000 x 01 => A0
         tick 4 201 => A2
         frame 4 202 6b004 x 00 => A1026
         record 0 => K ch=4 volt=5000 chg=1000 dis=500 w=500 sensor=0 iface=0 last=202 open=0 since=- first=- spms=- sdpc=- sstop=- n=5 \
         tally=0,2,1,1,0,0,0,0,0,0,2,0 latest=6b000x:1@0+202;6b003x:4000,0,0,8,0,0,1,0@0+202;6b004x:0@202+0",
    );
}

/// "set-up makes them 0", a refused one does not, and release drops them.
#[test]
fn a_set_up_makes_them_0() {
    let (two, none) = (record(2, NONE, "5"), record(0, NONE, "-"));
    holds_on_a_post(&format!(
        "record 0 => {none}
         tick 4 5 => A0
         tick 4 5 => A0
         record 0 => {two}
         setup 0 4 0 1000 500 500 => R12
         setup 1 4 5000 1000 500 500 => R11
         record 0 => {two}
         setup 0 4 5000 1000 500 500 => A
         record 0 => {none}
         tick 4 5 => A0
         release 0 => A
         record 0 => R14
         setup 0 4 5000 1000 500 500 => A
         record 0 => {none}"
    ));
}

/// "that count is now the only thing a refused one changes".
#[test]
fn a_refused_one_raises_the_refused_count_alone() {
    let one = record(1, NONE, "5");
    holds_on_a_post(&format!(
        "refused => N 0
         tick 4 5 => A0
         refused => N 0
         tick 4 4 => R2
         tick 5 5 => R1
         tick 32 5 => R1
         frame 4 5 0 x - => R3
         frame 4 5 6b000 x - => R4
         frame 4 5 6b000 x ff => R5:0
         frame 4 5 6 s 0000000000000001 => R6
         frame 4 5 6b000 x 0000 => R15
         refused => N 8
         record 0 => {one}"
    ));
}

/// R6: "Only frames and ticks count as refused; a replay has a table of its own".
#[test]
fn other_refusals_do_not_count() {
    holds_on_a_post(
        "setup 16 4 5000 1000 500 500 => R9
         setup 1 32 5000 1000 500 500 => R10
         setup 1 4 5000 1000 500 500 => R11
         setup 1 5 0 1000 500 500 => R12
         release 1 => R14
         release 16 => R9
         record 1 => R14
         read 0 x - => R3
         change 6b000 x 01 1 0 => R13 01
         write 6b000 x 99 00 => R7 00
         logw t 0 32 0000000000 => R17 0000000000
         replay 00050009 0,4,5000,1000,500,500 => 1 - R1|END
         refused 0 => ?
         refused  => ?
         refused => N 0",
    );
}

/// R6: records of an accepted batch count singly; 02: "a batch refused whole hands in none".
#[test]
fn a_batch_counts_by_its_records() {
    let (none, two) = (record(0, NONE, "-"), record(2, NONE, "100"));
    holds_on_a_post(&format!(
        "batch 640400096405000963040009 2 => R24 3735928559 3735928559
         batch 6404000964050009630400 3 => R23 3735928559 3735928559 3735928559
         refused => N 0
         record 0 => {none}
         batch 64040009640500096304000964040009 4 => A 0 65537 65538 0
         refused => N 2
         record 0 => {two}"
    ));
}

/// "since it was made": neither a set-up nor a release begins it anew.
#[test]
fn the_refused_count_stays_past_set_up_and_release() {
    holds_on_a_post(
        "tick 5 0 => R1
         setup 0 5 5000 1000 500 500 => A
         refused => N 1
         tick 5 0 => A0
         release 0 => A
         tick 5 0 => R1
         refused => N 2",
    );
}

/// No step on one post changes another's counts.
#[test]
fn posts_have_counts_of_their_own() {
    let one = record(1, "0,0,0,0,0,0,0,0,0,0,1,0", "0").replace("latest=-", "latest=6b004x:0@0+0");
    holds_on_a_post(&format!(
        "setup 1 5 5000 1000 500 500 => A
         frame 4 0 6b004 x 00 => A1024
         frame 5 0 6b003 x a00f0000000048 => A12
         frame 5 0 6b004 x 00 => A1024
         record 0 => {one}
         setup 1 5 5000 1000 500 500 => A
         record 0 => {one}"
    ));
}

/// A desk whose counts end at 3.
fn ends_at_3(story: &str) {
    let mut desk = Desk::new();
    desk.table.largest = 3;
    for line in story.lines().map(str::trim) {
        let (step, expected) = line.split_once(" => ").expect("a step and its answer");
        assert_eq!(desk::answer(&mut desk, step.as_bytes()), expected, "{step}");
    }
}

/// "judged after all others"; the count reaches the largest, and the history does not grow.
#[test]
fn the_next_behind_the_largest_is_refused_with_25() {
    let full = record(3, NONE, "7");
    ends_at_3(&format!(
        "setup 0 4 5000 1000 500 500 => A
         setup 1 5 5000 1000 500 500 => A
         tick 4 5 => A0
         tick 4 6 => A0
         tick 4 7 => A0
         tick 4 8 => R25
         record 0 => {full}
         refused => N 1
         tick 4 6 => R2
         tick 4 7 => R25
         refused => N 3
         frame 4 7 0 x - => R3
         frame 4 7 6b000 x - => R4
         frame 4 7 6b000 x 0000 => R15
         frame 4 7 6b000 x ff => R5:0
         frame 4 7 6 s 0000000000000001 => R6
         tick 6 7 => R1
         frame 4 7 6b000 x 01 => R25
         frame 4 7 6b004 x 00 => R25
         batch 08040009 1 => A 65561
         record 0 => {full}
         tick 5 8 => A0
         setup 0 4 5000 1000 500 500 => A
         tick 4 0 => A0"
    ));
}

/// "The refused count stays .. once there"; "the sum holds until a refusal finds it there".
#[test]
fn the_refused_count_stays_at_the_largest() {
    ends_at_3(
        "tick 4 0 => R1
         tick 4 0 => R1
         refused => N 2
         tick 4 0 => R1
         refused => N 3
         tick 4 0 => R1
         refused => N 3
         setup 0 4 5000 1000 500 500 => A
         tick 4 0 => A0
         tick 5 0 => R1
         refused => N 3",
    );
}

#[test]
fn the_largest_count_has_32_bits() {
    assert_eq!((LARGEST, Desk::new().table.largest), (4_294_967_295, LARGEST));
    assert_eq!(tallies::at_most(LARGEST, 4_294_967_294), 4_294_967_294);
    assert_eq!(tallies::at_most(LARGEST, 4_294_967_295), LARGEST);
    assert_eq!(tallies::at_most(LARGEST, 4_294_967_296), LARGEST);
}

/// What the answers themselves come to, carried along from step to step.
#[derive(Default)]
struct Answered {
    handed_in: u64,
    accepted: u64,
    posts: [[u64; 13]; POSTS],
}

impl Answered {
    /// A frame or tick for the post at that place, and the word for it.
    fn arrival(&mut self, place: Option<usize>, word: u32) {
        self.handed_in += 1;
        if let Some(place) = place.filter(|_| word < 65_536) {
            self.accepted += 1;
            self.posts[place][0] += 1;
            for number in 1..13 {
                self.posts[place][number] += u64::from(word >> (number - 1) & 1);
            }
        }
    }
}

fn word(answer: &str) -> u32 {
    answer.strip_prefix('A').map_or(65_536, |number| number.parse().expect("a finding number"))
}

/// "Every operation keeps them equal"; "Accepted ever plus refused equals handed in": what the desk's counts say is what its
/// answers come to, batches among them, past second set-ups and releases.
#[test]
fn counts_are_what_the_answers_come_to() {
    let (mut records, mut counts) = (0, 0);
    for seed in 1..6 {
        let (mut desk, mut answered) = (Desk::new(), Answered::default());
        let text = joined(&script(seed, 3000, Extras::default()));
        for line in text.split(|&byte| byte == b'\n').filter(|line| desk::is_step(line)) {
            let fields: Vec<&str> =
                line.split(|&byte| byte == b' ').map(|field| std::str::from_utf8(field).unwrap_or("")).collect();
            let log = fields.get(1).and_then(|field| crate::fields::bytes(field.as_bytes())).unwrap_or_default();
            let holders: Vec<Option<usize>> =
                crate::log::read(&log).records.iter().map(|record| desk.table.holder(record.channel)).collect();
            let answer = desk::answer(&mut desk, line);
            let number = |place: usize| fields[place].parse::<usize>().expect("a number");
            match (fields[0], answer.split(' ').next().unwrap_or("")) {
                (_, "?") => {}
                ("frame" | "tick", _) => answered.arrival(desk.table.holder(number(1) as u32), word(&answer)),
                ("setup" | "release", "A") => answered.posts[number(1)] = [0; 13],
                ("batch", "A") => {
                    for (holder, word) in holders.into_iter().zip(answer.split(' ').skip(1)) {
                        answered.arrival(holder, word.parse().expect("a word"));
                    }
                }
                ("refused", "N") => {
                    counts += 1;
                    assert_eq!(answer, format!("N {}", answered.handed_in - answered.accepted), "seed {seed}");
                }
                ("record", "K") => {
                    records += 1;
                    let [n, tally @ ..] = answered.posts[number(1)];
                    let tally: Vec<String> = tally.iter().map(u64::to_string).collect();
                    let said = format!(" n={n} tally={} latest=", tally.join(","));
                    assert!(answer.contains(&said), "seed {seed}: {answer}, not {said}");
                }
                _ => {}
            }
        }
    }
    assert!(records > 300 && counts > 300, "{records} records, {counts} counts");
}
