//! Comparing another program with this one, answer by answer, over seeded scripts.

use std::io::{self, Write};
use std::time::{Duration, Instant};

use crate::coverage::Coverage;
use crate::desk::{self, is_step, Desk};
use crate::program::{lines, Outcome};
use crate::script::{joined, script, Extras};
use crate::show;
use crate::shrink::shrink;

/// Answers a script; `Err` where that cannot even be tried.
pub type Subject<'a> = dyn FnMut(&[u8]) -> Result<Outcome, String> + 'a;

pub struct Plan {
    pub seeds: Vec<u64>,
    pub steps: usize,
    pub extras: Extras,
    pub shrink_for: Duration,
}

pub enum Verdict {
    Agreed(Coverage),
    Differs(Found),
}

/// The first difference met, and the shortest script that shows one.
pub struct Found {
    pub seed: u64,
    pub first: Difference,
    pub shortest: Vec<Vec<u8>>,
    pub runs: usize,
}

#[derive(Debug, PartialEq)]
pub enum Difference {
    /// The answer at that place; `None` on the side that has no more.
    Answer { place: usize, own: Option<Vec<u8>>, other: Option<Vec<u8>> },
    /// All answers agree, but the program did not end well.
    Trouble(String),
}

pub fn compare(plan: &Plan, subject: &mut Subject, out: &mut dyn Write) -> Result<Verdict, String> {
    let mut coverage = Coverage::default();
    for &seed in &plan.seeds {
        let script = script(seed, plan.steps, plan.extras);
        let own = own_answers(&script);
        let outcome = subject(&joined(&script))?;
        if let Some(first) = difference(&own, &outcome) {
            let trouble = outcome.trouble.map(|trouble| format!("; {trouble}")).unwrap_or_default();
            say(out, format_args!("seed {seed}: differs{trouble}"))?;
            return Ok(Verdict::Differs(shortest(plan, seed, script, first, subject)?));
        }
        let mut desk = Desk::new();
        coverage.begin();
        for (step, answer) in script.iter().filter(|line| is_step(line)).zip(&own) {
            coverage.count(&desk.table, step, answer);
            desk::answer(&mut desk, step);
        }
        say(out, format_args!("seed {seed}: {} steps agree", own.len()))?;
    }
    Ok(Verdict::Agreed(coverage))
}

fn say(out: &mut dyn Write, line: std::fmt::Arguments) -> Result<(), String> {
    writeln!(out, "{line}").map_err(|error| format!("cannot write: {error}"))
}

pub fn own_answers(script: &[Vec<u8>]) -> Vec<Vec<u8>> {
    answers_of(&mut Desk::new(), &joined(script))
}

fn answers_of(desk: &mut Desk, script: &[u8]) -> Vec<Vec<u8>> {
    let mut answers = Vec::new();
    desk::run(script, &mut answers, desk).expect("memory is read and written without fail");
    lines(&answers)
}

pub fn difference(own: &[Vec<u8>], outcome: &Outcome) -> Option<Difference> {
    let longest = own.len().max(outcome.answers.len());
    let place = (0..longest).find(|&place| own.get(place) != outcome.answers.get(place));
    match place {
        Some(place) => {
            Some(Difference::Answer { place, own: own.get(place).cloned(), other: outcome.answers.get(place).cloned() })
        }
        None => outcome.trouble.clone().map(Difference::Trouble),
    }
}

fn shortest(
    plan: &Plan,
    seed: u64,
    script: Vec<Vec<u8>>,
    first: Difference,
    subject: &mut Subject,
) -> Result<Found, String> {
    let until = Instant::now() + plan.shrink_for;
    let mut runs = 0;
    let mut failed = None;
    let mut shows = |tried: &[Vec<u8>]| {
        if failed.is_some() || Instant::now() > until {
            return false;
        }
        runs += 1;
        match subject(&joined(tried)) {
            Ok(outcome) => difference(&own_answers(tried), &outcome).is_some(),
            Err(error) => {
                failed = Some(error);
                false
            }
        }
    };
    let mut start = script;
    let upto = head(&start, &first);
    // A program that ends badly on the whole script may do well on the head alone.
    if shows(&upto) {
        start = upto;
    }
    let shortest = shrink(start, &mut shows);
    match failed {
        Some(error) => Err(error),
        None => Ok(Found { seed, first, shortest, runs }),
    }
}

/// The script up to the step whose answer differs.
fn head(script: &[Vec<u8>], first: &Difference) -> Vec<Vec<u8>> {
    let Difference::Answer { place, .. } = first else {
        return script.to_vec();
    };
    let steps = script.iter().filter(|line| is_step(line));
    steps.take(place + 1).cloned().collect()
}

/// Prints what was found as a script with the answers in comments.
pub fn print(found: &Found, subject: &mut Subject, out: &mut dyn Write) -> Result<(), String> {
    let own = own_answers(&found.shortest);
    let outcome = subject(&joined(&found.shortest))?;
    let written = print_found(found, &own, &outcome, out);
    written.map_err(|error| format!("cannot write: {error}"))
}

fn print_found(found: &Found, own: &[Vec<u8>], outcome: &Outcome, out: &mut dyn Write) -> io::Result<()> {
    match &found.first {
        Difference::Answer { place, own, other } => {
            writeln!(out, "# seed {}, answer {}:", found.seed, place + 1)?;
            writeln!(out, "#   second: {}   program: {}", show::answer(own.as_ref()), show::answer(other.as_ref()))?;
        }
        Difference::Trouble(trouble) => writeln!(out, "# seed {}: {trouble}", found.seed)?,
    }
    writeln!(out, "# shortest script found, {} lines after {} runs:", found.shortest.len(), found.runs)?;
    let mut place = 0;
    for line in &found.shortest {
        writeln!(out, "{}", show::line(line))?;
        if !is_step(line) {
            continue;
        }
        if let Some(words) = show::brought(line) {
            writeln!(out, "#   {words}")?;
        }
        let (own, other) = (own.get(place), outcome.answers.get(place));
        if own == other {
            writeln!(out, "#   both: {}", show::answer(own))?;
        } else {
            writeln!(out, "#   second: {}   program: {}   <- differs", show::answer(own), show::answer(other))?;
        }
        place += 1;
    }
    for surplus in outcome.answers.iter().skip(place) {
        writeln!(out, "#   program, with no step left: {}", show::answer(Some(surplus)))?;
    }
    if let Some(trouble) = &outcome.trouble {
        writeln!(out, "#   {trouble}")?;
    }
    Ok(())
}

#[cfg(test)]
mod tests {
    use super::*;
    use crate::slips;

    fn plan(seeds: std::ops::Range<u64>) -> Plan {
        Plan { seeds: seeds.collect(), steps: 2500, extras: Extras::default(), shrink_for: Duration::from_secs(60) }
    }

    fn against(mut make: impl FnMut() -> Desk, plan: &Plan) -> Verdict {
        let mut subject = |script: &[u8]| Ok(Outcome { answers: answers_of(&mut make(), script), trouble: None });
        compare(plan, &mut subject, &mut io::sink()).unwrap()
    }

    #[test]
    fn agrees_with_itself_and_reaches_everything() {
        match against(Desk::new, &plan(1..4)) {
            Verdict::Agreed(coverage) => assert_eq!(coverage.missing(), Vec::<String>::new()),
            Verdict::Differs(found) => panic!("{:?}", found.first),
        }
    }

    #[test]
    fn each_slip_is_found_and_shrunk() {
        for name in slips::names() {
            match against(|| slips::desk(name).unwrap(), &plan(1..9)) {
                Verdict::Agreed(_) => panic!("{name} was not found"),
                Verdict::Differs(found) => {
                    let (lines, bytes) = (found.shortest.len(), joined(&found.shortest).len());
                    // A log stands by itself, a frame needs its set-up at most, which may name its interface, and little of
                    // either.
                    let few = match name.split_once('-') {
                        Some(("log", _)) => lines == 1 && bytes <= 40,
                        Some(("label", _)) => lines <= 2 && bytes <= 64,
                        Some(("sensor" | "safety" | "older", _)) => lines <= 5,
                        // A set-up, an opening, a stop, an end and an opening before or behind it, and what shows it.
                        Some(("stop", _)) => lines <= 6,
                        // A set-up, an opening, and what is taken for a limit, a stop or a sign of life.
                        Some(("rest", _)) => lines <= 4,
                        // A set-up, what moves or drops it, and what shows that.
                        Some(("index", _)) => lines <= 3,
                        // Two steps of less than 2^31 ms are less than a round.
                        Some(("clock", _)) => lines <= 6,
                        // An opening and a status of 001 have eight bytes each.
                        Some(("replay", _)) => lines <= 3 && bytes <= 110,
                        // A batch of the largest size cannot be made smaller.
                        Some(("batch", _)) => lines <= 4,
                        // Neither can two logs around 512 records.
                        Some(("compare", _)) => lines == 1,
                        _ => lines <= 6,
                    };
                    assert!(few, "{name}: {lines} lines, {bytes} bytes");
                }
            }
        }
    }

    #[test]
    fn too_few_too_many_and_trouble_are_differences() {
        let own = [b"A".to_vec(), b"A0".to_vec()];
        let outcome = |answers: &[&[u8]], trouble: Option<&str>| Outcome {
            answers: answers.iter().map(|answer| answer.to_vec()).collect(),
            trouble: trouble.map(str::to_string),
        };
        assert_eq!(difference(&own, &outcome(&[b"A", b"A0"], None)), None);
        assert!(difference(&own, &outcome(&[b"A"], None)).is_some());
        assert!(difference(&own, &outcome(&[b"A", b"A0", b"A"], None)).is_some());
        assert!(difference(&own, &outcome(&[b"A", b"A1"], None)).is_some());
        assert!(difference(&own, &outcome(&[b"A", b"A0"], Some("signal"))).is_some());
    }
}
