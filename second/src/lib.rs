//! A second program for 01: answers desk scripts, makes them, and compares other programs by them.

mod arguments;
mod asked;
mod batch;
mod batch_coverage;
#[cfg(test)]
mod batch_readings;
mod batch_slips;
mod both_pages;
mod check;
mod clock;
mod clock_coverage;
#[cfg(test)]
mod clock_readings;
mod clock_slips;
mod codec;
mod compare;
mod coverage;
mod desk;
#[cfg(test)]
mod documents;
mod explain;
mod fields;
mod history;
mod index;
mod index_coverage;
#[cfg(test)]
mod index_readings;
mod index_slips;
#[cfg(test)]
mod label_readings;
mod label_slips;
mod log;
mod log_line;
#[cfg(test)]
mod log_readings;
mod log_slips;
mod newer_pages;
mod older_coverage;
mod older_pages;
#[cfg(test)]
mod older_readings;
mod older_slips;
mod pages;
mod posts;
mod program;
#[cfg(test)]
mod readings;
mod record;
mod recordings;
mod recordings_coverage;
#[cfg(test)]
mod recordings_readings;
mod recordings_shrink;
mod recordings_slips;
mod replay;
mod replay_coverage;
mod replay_line;
#[cfg(test)]
mod replay_readings;
mod replay_setups;
mod replay_shrink;
mod replay_slips;
mod rest_coverage;
#[cfg(test)]
mod rest_readings;
mod rest_slips;
mod rng;
mod rules;
mod safety_coverage;
mod safety_pages;
#[cfg(test)]
mod safety_readings;
mod safety_slips;
mod script;
mod sensor_coverage;
#[cfg(test)]
mod sensor_readings;
mod sensor_slips;
mod service;
mod show;
mod shrink;
mod slips;
mod stop_coverage;
#[cfg(test)]
mod stop_readings;
mod stop_slips;
mod tallies;
mod tally_coverage;
#[cfg(test)]
mod tally_readings;
mod tally_slips;
#[cfg(test)]
mod tick_histories;
#[cfg(test)]
mod tick_kept;
#[cfg(test)]
mod tick_silences;
#[cfg(test)]
mod tick_slips;

use std::ffi::OsString;
use std::io::{self, BufWriter, Write};
use std::path::Path;
use std::process::ExitCode;
use std::time::{Duration, SystemTime, UNIX_EPOCH};

use arguments::{Call, Compare, USAGE};
use compare::{Plan, Verdict};
use desk::Desk;
use posts::Table;
use program::Program;
use replay::Replay;
use rng::Rng;
use script::Extras;

const DIFFERS: u8 = 1;
const CANNOT: u8 = 2;

pub fn run() -> ExitCode {
    let call = match arguments::parse(std::env::args_os().skip(1).collect()) {
        Ok(call) => call,
        Err(wrong) => {
            eprintln!("second: {wrong}\n{USAGE}");
            return ExitCode::from(CANNOT);
        }
    };
    let done = match call {
        Call::Answer { wrong } => answer(wrong),
        Call::Script { seed, steps, explain } => script(seed, steps, explain),
        Call::Compare(call) => compare_over_seeds(call),
        Call::Check { night, expected, command } => check_night(&night, &expected, command),
        Call::Replay { posts, log } => replay_night(&posts, &log),
    };
    done.unwrap_or_else(|error| {
        eprintln!("second: {error}");
        ExitCode::from(CANNOT)
    })
}

fn answer(wrong: Option<String>) -> Result<ExitCode, String> {
    let mut desk = match wrong {
        None => Desk::new(),
        Some(name) => {
            slips::desk(&name).ok_or_else(|| format!("no slip {name}; there are {}", slips::names().join(", ")))?
        }
    };
    let done = desk::run(io::stdin().lock(), BufWriter::new(io::stdout().lock()), &mut desk);
    done.map_err(|error| format!("cannot read the script or write its answers: {error}"))?;
    Ok(ExitCode::SUCCESS)
}

fn script(seed: u64, steps: usize, explain: bool) -> Result<ExitCode, String> {
    let lines = script::script(seed, steps, Extras { explain });
    let written = io::stdout().lock().write_all(&script::joined(&lines));
    written.map_err(|error| format!("cannot write the script: {error}"))?;
    Ok(ExitCode::SUCCESS)
}

fn compare_over_seeds(call: Compare) -> Result<ExitCode, String> {
    let mut seeds = call.seeds;
    let mut fresh = Rng::new(now());
    seeds.extend((0..call.fresh).map(|_| fresh.next() >> 32));
    let extras = Extras { explain: call.explain };
    let plan = Plan { seeds, steps: call.steps, extras, shrink_for: Duration::from_secs(300) };
    let program = Program { command: call.command, patience: Duration::from_secs(call.timeout) };
    let mut subject = |script: &[u8]| program.run(script);
    let mut out = io::stdout().lock();
    match compare::compare(&plan, &mut subject, &mut out)? {
        Verdict::Differs(found) => {
            compare::print(&found, &mut subject, &mut out)?;
            if let Some(file) = call.keep {
                let kept = std::fs::write(&file, script::joined(&found.shortest));
                kept.map_err(|error| format!("cannot write {}: {error}", file.display()))?;
            }
            Ok(ExitCode::from(DIFFERS))
        }
        Verdict::Agreed(coverage) => {
            println_to(&mut out, &coverage.to_string())?;
            let missing = coverage.missing();
            if missing.is_empty() {
                println_to(&mut out, "all agree")?;
                return Ok(ExitCode::SUCCESS);
            }
            println_to(&mut out, &format!("all agree, but never reached: {}", missing.join(", ")))?;
            Ok(ExitCode::from(DIFFERS))
        }
    }
}

fn check_night(night: &Path, expected: &Path, command: Vec<OsString>) -> Result<ExitCode, String> {
    let program = Program { command, patience: Duration::from_secs(120) };
    let script = read_file(night)?;
    let stored = read_file(expected)?;
    let outcome = program.run(&script)?;
    match check::check(&night.display().to_string(), &script, &stored, &outcome) {
        Ok(steps) => {
            println_to(&mut io::stdout(), &format!("{}: {steps} answers agree", night.display()))?;
            Ok(ExitCode::SUCCESS)
        }
        Err(wrong) => {
            println_to(&mut io::stdout(), &wrong)?;
            Ok(ExitCode::from(DIFFERS))
        }
    }
}

fn replay_night(posts: &Path, log: &Path) -> Result<ExitCode, String> {
    let set_ups = replay_setups::file(&read_file(posts)?);
    let set_ups = set_ups.map_err(|line| format!("{}: no set-up in {line}", posts.display()))?;
    let Replay { lines, closing } = replay::replay(&mut Table::new(), &set_ups, &read_file(log)?, replay::line);
    let mut out = BufWriter::new(io::stdout().lock());
    for line in lines.into_iter().chain([replay_line::ending(closing)]) {
        println_to(&mut out, &line)?;
    }
    out.flush().map_err(|error| format!("cannot write: {error}"))?;
    Ok(ExitCode::SUCCESS)
}

fn read_file(path: &Path) -> Result<Vec<u8>, String> {
    std::fs::read(path).map_err(|error| format!("cannot read {}: {error}", path.display()))
}

fn println_to(out: &mut dyn Write, line: &str) -> Result<(), String> {
    writeln!(out, "{line}").map_err(|error| format!("cannot write: {error}"))
}

/// Fresh seeds differ from run to run; each one used is printed.
fn now() -> u64 {
    let since = SystemTime::now().duration_since(UNIX_EPOCH);
    since.map_or(0, |since| since.as_nanos() as u64) ^ u64::from(std::process::id()) << 40
}
