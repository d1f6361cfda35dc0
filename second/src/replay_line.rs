//! A replay as one line.

use crate::log_line;
use crate::replay::{Closing, Replay};

/// `LINE|LINE|..|ENDING`.
pub fn answer(replay: Replay) -> String {
    let mut parts = replay.lines;
    parts.push(ending(replay.closing));
    parts.join("|")
}

/// `END`, `CUT@BYTE`, `BAD R<n>@BYTE` or `SETUP R<n>`.
pub fn ending(closing: Closing) -> String {
    match closing {
        Closing::Log(ending, at) => log_line::ending(ending, at as u64),
        Closing::SetUp(refusal) => format!("SETUP {refusal}"),
    }
}
