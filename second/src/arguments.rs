//! The command line.

use std::ffi::OsString;
use std::path::PathBuf;

pub const USAGE: &str = "\
usage: second answer                 answers the desk script on standard input
       second script [--explain] SEED STEPS
                                     writes a script; the same seed gives the same script
       second compare [--steps N] [--seed S]... [--fresh K] [--explain] [--timeout SECONDS] [--keep FILE]
                      -- PROGRAM [ARG..]
                                     compares PROGRAM with `second answer` over scripts from the given seeds and
                                     from K fresh ones; a difference is shrunk, shown, and kept in FILE
       second check NIGHT EXPECTED -- PROGRAM [ARG..]
                                     runs PROGRAM on NIGHT and compares its answers with those stored in EXPECTED
       second replay POSTS LOG       replays the night log LOG on posts set up as the desk's lines in POSTS tell: a
                                     line for each record, and how it ends
--explain: also `explain` steps. Default: 5000 steps, one fresh seed, 120 seconds a run.
Exit status: 0 all agree, 1 a difference or something never reached, 2 it could not be tried.";

pub enum Call {
    Answer { wrong: Option<String> },
    Script { seed: u64, steps: usize, explain: bool },
    Compare(Compare),
    Check { night: PathBuf, expected: PathBuf, command: Vec<OsString> },
    Replay { posts: PathBuf, log: PathBuf },
}

pub struct Compare {
    pub steps: usize,
    pub seeds: Vec<u64>,
    pub fresh: usize,
    pub explain: bool,
    pub timeout: u64,
    pub keep: Option<PathBuf>,
    pub command: Vec<OsString>,
}

/// `Err` says what is wrong with the arguments.
pub fn parse(arguments: Vec<OsString>) -> Result<Call, String> {
    let mut arguments = arguments.into_iter();
    let word = arguments.next().ok_or("no subcommand")?;
    let rest: Vec<OsString> = arguments.collect();
    match word.to_str() {
        Some("answer") => answer(&rest),
        Some("script") => script(&rest),
        Some("compare") => compare(rest),
        Some("check") => check(rest),
        Some("replay") => replay(&rest),
        _ => Err(format!("no subcommand {}", word.to_string_lossy())),
    }
}

/// `--wrong` is for tests of the comparison and not in the usage.
fn answer(rest: &[OsString]) -> Result<Call, String> {
    match texts(rest)?[..] {
        [] => Ok(Call::Answer { wrong: None }),
        ["--wrong", name] => Ok(Call::Answer { wrong: Some(name.to_string()) }),
        _ => Err("answer takes no arguments".to_string()),
    }
}

fn script(rest: &[OsString]) -> Result<Call, String> {
    match texts(rest)?[..] {
        ["--explain", seed, steps] => Ok(Call::Script { seed: number(seed)?, steps: number(steps)?, explain: true }),
        [seed, steps] => Ok(Call::Script { seed: number(seed)?, steps: number(steps)?, explain: false }),
        _ => Err("script takes a seed and a count of steps".to_string()),
    }
}

fn compare(rest: Vec<OsString>) -> Result<Call, String> {
    let (options, command) = split(rest)?;
    let mut call =
        Compare { steps: 5000, seeds: Vec::new(), fresh: 0, explain: false, timeout: 120, keep: None, command };
    let mut options = texts(&options)?.into_iter();
    while let Some(option) = options.next() {
        if option == "--explain" {
            call.explain = true;
            continue;
        }
        let value = options.next().ok_or_else(|| format!("{option} is no option of compare, or lacks its value"))?;
        match option {
            "--steps" => call.steps = number(value)?,
            "--seed" => call.seeds.push(number(value)?),
            "--fresh" => call.fresh = number(value)?,
            "--timeout" => call.timeout = number(value)?,
            "--keep" => call.keep = Some(PathBuf::from(value)),
            _ => return Err(format!("compare has no option {option}")),
        }
    }
    if call.seeds.is_empty() && call.fresh == 0 {
        call.fresh = 1;
    }
    Ok(Call::Compare(call))
}

fn check(rest: Vec<OsString>) -> Result<Call, String> {
    let (files, command) = split(rest)?;
    match &files[..] {
        [night, expected] => Ok(Call::Check { night: night.into(), expected: expected.into(), command }),
        _ => Err("check takes a night and its expected answers".to_string()),
    }
}

fn replay(rest: &[OsString]) -> Result<Call, String> {
    match rest {
        [posts, log] => Ok(Call::Replay { posts: posts.into(), log: log.into() }),
        _ => Err("replay takes a file of posts and a night log".to_string()),
    }
}

/// What stands before `--`, and the program behind it.
fn split(mut rest: Vec<OsString>) -> Result<(Vec<OsString>, Vec<OsString>), String> {
    let bar = rest.iter().position(|argument| argument == "--").ok_or("no -- PROGRAM")?;
    let command = rest.split_off(bar + 1);
    rest.pop();
    if command.is_empty() {
        return Err("no PROGRAM behind --".to_string());
    }
    Ok((rest, command))
}

fn texts(arguments: &[OsString]) -> Result<Vec<&str>, String> {
    arguments.iter().map(|argument| text(argument)).collect()
}

fn text(argument: &OsString) -> Result<&str, String> {
    argument.to_str().ok_or_else(|| format!("{} is not text", argument.to_string_lossy()))
}

fn number<T: std::str::FromStr>(text: &str) -> Result<T, String> {
    text.parse().map_err(|_| format!("{text} is no number, or too large"))
}
