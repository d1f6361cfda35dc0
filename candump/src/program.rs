//! What both programs have in common: how they are called, what they say, and how they end.

use std::fmt::Display;
use std::io::{self, Write};
use std::process::ExitCode;

use crate::arguments::{self, Call};

pub struct Program {
    pub name: &'static str,
    pub usage: &'static str,
    /// With a value each.
    pub options: &'static [&'static str],
    pub filters: &'static [&'static str],
    /// `Err` says what could not be read or written.
    pub run: fn(&Call) -> Result<Done, String>,
}

#[derive(Clone, Copy, Debug, PartialEq, Eq)]
pub enum Done {
    All = 0,
    SomeLeftOut = 1,
}

const CANNOT: u8 = 2;

impl Program {
    /// Where standard error itself cannot be written there is nobody left to tell.
    pub fn say(&self, words: impl Display) {
        let _ = writeln!(io::stderr(), "{}: {words}", self.name);
    }
}

/// The product's, which stands in VERSION: this folder takes nothing from outside, and the tests hold both together.
const VERSION: &str = "5.00";

pub fn run(program: &Program) -> ExitCode {
    let words: Vec<_> = std::env::args_os().skip(1).collect();
    let version = words.first().is_some_and(|word| word == "--version");
    let done = match arguments::parse(words, program.options, program.filters) {
        _ if version => told(&format!("{} (Rokemaipu) {VERSION}\n", program.name)),
        Ok(Some(call)) => (program.run)(&call),
        Ok(None) => told(program.usage),
        Err(wrong) => Err(format!("{wrong}\n{}", program.usage.trim_end())),
    };
    match done {
        Ok(done) => ExitCode::from(done as u8),
        Err(words) => {
            program.say(words);
            ExitCode::from(CANNOT)
        }
    }
}

fn told(words: &str) -> Result<Done, String> {
    io::stdout().write_all(words.as_bytes()).map(|()| Done::All).map_err(|error| error.to_string())
}
