//! The program as it is called: its comparison has to find what differs.

use std::process::{Command, Output};

const SECOND: &str = env!("CARGO_BIN_EXE_second");

fn second(arguments: &[&str]) -> Output {
    Command::new(SECOND).args(arguments).output().expect("the program runs")
}

fn text(bytes: &[u8]) -> String {
    String::from_utf8_lossy(bytes).into_owned()
}

fn compare_with(program: &[&str]) -> Output {
    second(&[&["compare", "--steps", "2500", "--seed", "1", "--seed", "2", "--seed", "3", "--"], program].concat())
}

#[test]
fn agrees_with_itself() {
    let run = compare_with(&[SECOND, "answer"]);
    assert_eq!(run.status.code(), Some(0), "{}", text(&run.stdout));
    assert!(text(&run.stdout).ends_with("all agree\n"));
}

#[test]
fn agrees_on_explaining() {
    let run =
        second(&["compare", "--explain", "--steps", "5000", "--seed", "3", "--seed", "4", "--", SECOND, "answer"]);
    assert_eq!(run.status.code(), Some(0), "{}", text(&run.stdout));
    assert!(text(&run.stdout).contains(" explain "));
}

#[test]
fn a_wrong_f1_is_found_and_shrunk() {
    let run = compare_with(&[SECOND, "answer", "--wrong", "f1"]);
    assert_eq!(run.status.code(), Some(1));
    let shown = text(&run.stdout);
    let (_, shortest) = shown.split_once("# shortest script found").expect("a script is shown");
    let steps: Vec<&str> = shortest.lines().skip(1).filter(|line| !line.starts_with('#')).collect();
    assert!(!steps.is_empty() && steps.len() <= 5, "{shown}");
    assert!(shown.contains("<- differs"), "{shown}");
}

#[test]
fn crashes_and_wrong_counts_are_found() {
    let answer = format!("{SECOND} answer");
    for program in [
        format!("{answer}; exit 3"),
        format!("{answer}; kill -9 $$"),
        format!("{answer} | sed '$d'"),
        format!("{answer}; echo A"),
        "exit 0".to_string(),
    ] {
        let run = second(&["compare", "--steps", "300", "--seed", "1", "--", "sh", "-c", &program]);
        assert_eq!(run.status.code(), Some(1), "{program}: {}", text(&run.stdout));
    }
}

#[test]
fn too_few_steps_to_reach_everything_fail() {
    let run = second(&["compare", "--steps", "1", "--seed", "1", "--", SECOND, "answer"]);
    assert_eq!(run.status.code(), Some(1));
    let shown = text(&run.stdout);
    let (_, missing) = shown.trim_end().split_once("never reached: ").expect("what was not reached");
    for outcome in [
        "R4",
        "R12",
        "R15",
        "F12",
        "frame R5",
        "read R5",
        "change R5",
        "R5 with 3 starts",
        "logr END",
        "logr CUT",
        "logr R16",
        "logr R21",
        "logw R17",
        "yes/no F9 at 0 V",
        "measuring raw 0 at 0 V",
        "R6",
        "frame 6s A",
        "probe N",
        "record with n=0",
        "record with F12",
        "refused behind R15",
        "refused behind a refused batch",
        "replay END",
        "replay CUT",
        "replay BAD R16",
        "replay SETUP R9",
        "replay with a dash for R1",
        "replay with R5 and its start",
        "replay with a finding",
        "replay of an empty log",
        "tick across the round",
        "R2 by a difference of 2^31",
        "F1 across the round",
        "record with an age that stopped growing",
        "60010 by frame",
        "6800f without a post",
        "R29 on a newer post for R6",
        "R29 on an older post for A",
        "older F9",
        "unknown interface",
        "batch with R29",
        "refused behind R29",
        "setup 16 R9",
        "replay with post 15",
        "index of sixteen posts",
        "index behind a second set-up on another channel",
        "F12 by older Precharge",
        "no F12 by a stop before the opening",
        "record with the later of two stops",
        "read1 R5",
        "compare of two empty logs",
        "compare with a surplus of repeats",
        "compare R26 behind 512 records",
        "compare R27:2",
        "compare R28:1",
    ] {
        assert!(missing.split(", ").any(|known| known == outcome), "{outcome}: {missing}");
    }
}

#[test]
fn what_cannot_be_tried_is_said() {
    let run = second(&["compare", "--seed", "1", "--", "/nowhere/desk"]);
    assert_eq!(run.status.code(), Some(2));
    assert!(text(&run.stderr).contains("cannot run /nowhere/desk"));
    let run = second(&["check", "/nowhere/night", "/nowhere/answers", "--", SECOND, "answer"]);
    assert_eq!(run.status.code(), Some(2));
    assert!(text(&run.stderr).contains("cannot read /nowhere/night"));
    let run = second(&["replay", "/nowhere/posts", "/nowhere/log"]);
    assert_eq!(run.status.code(), Some(2));
    assert!(text(&run.stderr).contains("cannot read /nowhere/posts"));
    for wrong in [
        &[][..],
        &["answers"],
        &["replay", "posts"],
        &["script", "1"],
        &["script", "x", "1"],
        &["compare"],
        &["compare", "--"],
    ] {
        let run = second(wrong);
        assert_eq!(run.status.code(), Some(2));
        assert!(text(&run.stderr).contains("usage: second"), "{wrong:?}");
    }
}

#[test]
fn a_night_is_checked() {
    let folder = std::env::temp_dir().join(format!("second-check-{}", std::process::id()));
    std::fs::create_dir_all(&folder).unwrap();
    let (night, good, bad) = (folder.join("night"), folder.join("good"), folder.join("bad"));
    std::fs::write(&night, "# a night\nsetup 0 4 5000 1000 500 500\n\ntick 4 10\n").unwrap();
    std::fs::write(&good, "A\nA0\n").unwrap();
    std::fs::write(&bad, "A\nA2\n").unwrap();
    let check = |expected: &std::path::Path| {
        second(&["check", night.to_str().unwrap(), expected.to_str().unwrap(), "--", SECOND, "answer"])
    };
    let (passed, failed) = (check(&good), check(&bad));
    std::fs::remove_dir_all(&folder).unwrap();
    assert_eq!(passed.status.code(), Some(0), "{}", text(&passed.stdout));
    assert_eq!(failed.status.code(), Some(1));
    assert!(
        text(&failed.stdout).contains("night:4: tick 4 10\n  expected: A2\n  program:  A0"),
        "{}",
        text(&failed.stdout)
    );
}

#[test]
fn a_night_is_replayed() {
    let folder = std::env::temp_dir().join(format!("second-replay-{}", std::process::id()));
    std::fs::create_dir_all(&folder).unwrap();
    let (posts, log) = (folder.join("posts"), folder.join("log"));
    let replay = |set_ups: &str, bytes: &[u8]| {
        std::fs::write(&posts, set_ups).unwrap();
        std::fs::write(&log, bytes).unwrap();
        second(&["replay", posts.to_str().unwrap(), log.to_str().unwrap()])
    };
    let example = b"\xac\x02\x02\x00\x09\xac\x02\x03\x00\x09";
    let good = replay("# one post\n\nsetup 0 2 5000 2000 500 500", example);
    let cut = replay("setup 0 2 5000 2000 500 500 1\n", &example[..7]);
    let refused = replay("setup 0 2 5000 2000 500 500\nsetup 16 3 5000 2000 500 500\n", example);
    let none = replay("# one post\n\ntick 2 300\n", example);
    std::fs::remove_dir_all(&folder).unwrap();
    assert_eq!((good.status.code(), text(&good.stdout)), (Some(0), "1 0 A0\n2 - R1\nEND\n".to_string()));
    assert_eq!((cut.status.code(), text(&cut.stdout)), (Some(0), "1 0 A0\nCUT@5\n".to_string()));
    assert_eq!((refused.status.code(), text(&refused.stdout)), (Some(0), "SETUP R9\n".to_string()));
    assert_eq!((none.status.code(), text(&none.stdout)), (Some(2), String::new()));
    assert!(text(&none.stderr).ends_with("posts: no set-up in line 3: tick 2 300\n"), "{}", text(&none.stderr));
}
