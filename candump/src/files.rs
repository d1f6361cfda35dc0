//! IN and OUT: files, or standard input and output for `-`.

use std::ffi::OsStr;
use std::fs::{self, File};
use std::io::{self, BufRead, BufReader, BufWriter, Read, Write};
use std::os::unix::fs::MetadataExt;
use std::path::Path;

const PIECE: usize = 1 << 16;

pub struct Input {
    pub name: String,
    bytes: BufReader<Box<dyn Read>>,
}

pub struct Output {
    name: String,
    bytes: BufWriter<Box<dyn Write>>,
}

/// OUT is not touched before IN could be read, nor where it is IN: it would be empty before the rest is read.
pub fn open(input: &OsStr, output: &OsStr) -> Result<(Input, Output), String> {
    let mut from = Input::open(input)?;
    from.piece()?;
    if is_same(place(input, "/dev/stdin"), place(output, "/dev/stdout")) {
        return Err(format!("{}: IN and OUT are the same file", from.name));
    }
    Ok((from, Output::create(output)?))
}

impl Input {
    fn open(path: &OsStr) -> Result<Input, String> {
        let name = name(path, "standard input");
        let bytes: Box<dyn Read> = match path == "-" {
            true => Box::new(io::stdin()),
            false => Box::new(File::open(path).map_err(|error| unreadable(&name, error))?),
        };
        Ok(Input { name, bytes: BufReader::with_capacity(PIECE, bytes) })
    }

    /// What is there to be read, waited for if there is nothing yet; empty at the end.
    pub fn piece(&mut self) -> Result<&[u8], String> {
        self.bytes.fill_buf().map_err(|error| unreadable(&self.name, error))
    }

    pub fn consume(&mut self, count: usize) {
        self.bytes.consume(count);
    }

    /// A line with its line feed, which the last may lack; empty at the end.
    pub fn line(&mut self, line: &mut Vec<u8>) -> Result<(), String> {
        line.clear();
        self.bytes.read_until(b'\n', line).map_err(|error| unreadable(&self.name, error))?;
        Ok(())
    }

    /// Whether the next line is there without waiting for it.
    pub fn has_line(&self) -> bool {
        self.bytes.buffer().contains(&b'\n')
    }
}

impl Output {
    fn create(path: &OsStr) -> Result<Output, String> {
        let name = name(path, "standard output");
        let bytes: Box<dyn Write> = match path == "-" {
            true => Box::new(io::stdout()),
            false => Box::new(File::create(path).map_err(|error| unwritable(&name, error))?),
        };
        Ok(Output { name, bytes: BufWriter::with_capacity(PIECE, bytes) })
    }

    pub fn write(&mut self, bytes: &[u8]) -> Result<(), String> {
        self.bytes.write_all(bytes).map_err(|error| unwritable(&self.name, error))
    }

    pub fn flush(&mut self) -> Result<(), String> {
        self.bytes.flush().map_err(|error| unwritable(&self.name, error))
    }
}

pub fn read_whole(path: &OsStr) -> Result<Vec<u8>, String> {
    fs::read(path).map_err(|error| unreadable(&name(path, "-"), error))
}

fn name(path: &OsStr, standard: &str) -> String {
    match path == "-" {
        true => standard.to_string(),
        false => path.to_string_lossy().into_owned(),
    }
}

fn unreadable(name: &str, error: io::Error) -> String {
    format!("{name}: cannot be read: {error}")
}

fn unwritable(name: &str, error: io::Error) -> String {
    format!("{name}: cannot be written: {error}")
}

fn place<'a>(path: &'a OsStr, standard: &'a str) -> &'a Path {
    match path == "-" {
        true => Path::new(standard),
        false => Path::new(path),
    }
}

/// Terminals, pipes and devices may well be both.
fn is_same(one: &Path, other: &Path) -> bool {
    match (fs::metadata(one), fs::metadata(other)) {
        (Ok(one), Ok(other)) => one.is_file() && (one.dev(), one.ino()) == (other.dev(), other.ino()),
        _ => false,
    }
}
