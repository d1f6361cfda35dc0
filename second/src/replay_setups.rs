//! The set-ups of a replay, as a field and as a file.

use crate::desk::{is_step, set_up};
use crate::program::lines;
use crate::replay::SetUp;
use crate::show;

/// `SETUPS`: `-`, or set-ups joined by `;`, the fields of each by `,`.
pub fn field(field: &[u8]) -> Option<Vec<SetUp>> {
    if field == b"-" {
        return Some(Vec::new());
    }
    field.split(|&byte| byte == b';').map(|each| set_up(&split(each, b','))).collect()
}

/// The desk's `setup` lines, with comments and blank lines between them; `Err` names the first that is none.
pub fn file(bytes: &[u8]) -> Result<Vec<SetUp>, String> {
    let written = lines(bytes);
    let numbered = (1..).zip(&written).filter(|(_, line)| is_step(line));
    numbered.map(|(number, line)| of_line(line).ok_or_else(|| format!("line {number}: {}", show::line(line)))).collect()
}

fn of_line(line: &[u8]) -> Option<SetUp> {
    match &split(line, b' ')[..] {
        [b"setup", numbers @ ..] => set_up(numbers),
        _ => None,
    }
}

fn split(text: &[u8], by: u8) -> Vec<&[u8]> {
    text.split(|&byte| byte == by).collect()
}
