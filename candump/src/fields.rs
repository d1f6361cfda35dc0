//! The fields of a line, and what is wrong at which of its columns.

use std::fmt;

/// Columns count from 1.
#[derive(Clone, Copy, Debug, PartialEq, Eq)]
pub struct Field<'a> {
    pub column: usize,
    pub bytes: &'a [u8],
}

#[derive(Debug, PartialEq, Eq)]
pub struct Fault {
    pub column: usize,
    pub words: String,
}

impl fmt::Display for Fault {
    fn fmt(&self, out: &mut fmt::Formatter) -> fmt::Result {
        write!(out, "column {}: {}", self.column, self.words)
    }
}

impl Field<'_> {
    pub fn fault(&self, words: impl Into<String>) -> Fault {
        self.fault_at(0, words)
    }

    /// At a byte of the field, the first being 0.
    pub fn fault_at(&self, at: usize, words: impl Into<String>) -> Fault {
        Fault { column: self.column + at, words: words.into() }
    }
}

/// Fields have blanks between them, as many as there are: candump puts some before an interface that is shorter than another.
/// A carriage return before the line feed counts as one.
pub fn fields(line: &[u8]) -> impl Iterator<Item = Field<'_>> {
    let pieces = line.split(u8::is_ascii_whitespace).scan(1, |column, bytes| {
        let field = Field { column: *column, bytes };
        *column += bytes.len() + 1;
        Some(field)
    });
    pieces.filter(|field| !field.bytes.is_empty())
}

/// Linux' IFNAMSIZ is 16 with the byte that ends a name.
const LONGEST_NAME: usize = 15;

/// A name as one can print it, of what is too long for one the beginning.
pub fn shown(bytes: &[u8]) -> String {
    match bytes.get(..LONGEST_NAME) {
        Some(head) if bytes.len() > LONGEST_NAME => format!("{}..", head.escape_ascii()),
        _ => bytes.escape_ascii().to_string(),
    }
}

#[cfg(test)]
mod tests {
    use super::*;

    #[test]
    fn columns() {
        let found: Vec<_> = fields(b"  a bc\t\t d\r\n").map(|field| (field.column, field.bytes)).collect();
        assert_eq!(found, [(3, &b"a"[..]), (5, b"bc"), (10, b"d")]);
        assert_eq!(fields(b" \r\n").next(), None);
        assert_eq!(fields(b"").next(), None);
    }

    #[test]
    fn what_is_shown() {
        assert_eq!(shown(b"can4"), "can4");
        assert_eq!(shown(b"a\xff\n"), r"a\xff\n");
        assert_eq!(shown(b"123456789012345"), "123456789012345");
        assert_eq!(shown(&[b'x'; 99]), "xxxxxxxxxxxxxxx..");
    }
}
