//! Checking a program against the stored answers of a night.

use crate::compare::{difference, Difference};
use crate::desk::is_step;
use crate::program::{lines, Outcome};
use crate::show;

/// `Err` tells the first thing that is wrong.
pub fn check(name: &str, night: &[u8], expected: &[u8], outcome: &Outcome) -> Result<usize, String> {
    let night = lines(night);
    let expected = lines(expected);
    let steps: Vec<(usize, &Vec<u8>)> = (1..).zip(&night).filter(|(_, line)| is_step(line)).collect();
    if steps.len() != expected.len() {
        return Err(format!("{name}: {} steps, but {} expected answers", steps.len(), expected.len()));
    }
    match difference(&expected, outcome) {
        None => Ok(steps.len()),
        Some(Difference::Trouble(trouble)) => Err(format!("{name}: all answers agree, but {trouble}")),
        Some(Difference::Answer { place, own, other }) => {
            let (line, step) = steps.get(place).map_or(("end".to_string(), "(no step)".to_string()), |(line, step)| {
                (line.to_string(), show::line(step))
            });
            let trouble = outcome.trouble.as_ref().map(|trouble| format!("\n  {trouble}")).unwrap_or_default();
            let (own, other) = (show::answer(own.as_ref()), show::answer(other.as_ref()));
            Err(format!("{name}:{line}: {step}\n  expected: {own}\n  program:  {other}{trouble}"))
        }
    }
}
