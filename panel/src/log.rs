//! LOG, a file that grows: pieces of it from the byte that is to be read next, and what tells that it is no longer the same file.

use std::ffi::OsString;
use std::fs::{self, File, Metadata};
use std::io;
use std::os::unix::fs::{FileExt, MetadataExt};
use std::time::SystemTime;

/// So many bytes are read at once.
const PIECE: usize = 65_536;
/// So many of the bytes before are read again, and have to be what they were.
const BEFORE: usize = 64;

pub struct Log {
    name: OsString,
    file: File,
    /// Every byte before it was fed.
    at: u64,
    before: Vec<u8>,
    buffer: Vec<u8>,
}

/// Why nothing more can be read of it.
#[derive(Clone, Debug, PartialEq, Eq)]
pub enum Lost {
    /// It has fewer bytes than were read.
    Shorter(u64),
    /// The name stands for another file.
    Replaced,
    /// What was read stands there no more.
    Changed,
    /// The system's reason.
    Unread(String),
}

impl Lost {
    pub fn words(&self, at: u64) -> String {
        match self {
            Lost::Shorter(size) => format!("it got shorter: {at} bytes of it were read, and it has {size}"),
            Lost::Replaced => "another file has its name now".to_string(),
            Lost::Changed => format!("the bytes before byte {at}, which were read, are others now"),
            Lost::Unread(reason) => reason.clone(),
        }
    }
}

impl Log {
    /// Only a file: a pipe has no byte that could be read again, and a folder none at all.
    pub fn open(name: OsString) -> io::Result<Log> {
        if !fs::metadata(&name)?.is_file() {
            return Err(io::Error::other("it is no file"));
        }
        let file = File::open(&name)?;
        Ok(Log { name, file, at: 0, before: Vec::new(), buffer: vec![0; BEFORE + PIECE] })
    }

    pub fn name(&self) -> String {
        self.name.to_string_lossy().into_owned()
    }

    pub fn at(&self) -> u64 {
        self.at
    }

    /// Its length and the wall clock's time of its last change.
    pub fn written(&self) -> io::Result<(u64, SystemTime)> {
        let data = self.file.metadata()?;
        Ok((data.len(), data.modified()?))
    }

    /// The bytes from `at` on, as many as are there or as are read at once; true where there may be more.
    pub fn piece(&mut self) -> Result<(&[u8], bool), Lost> {
        let known = self.before.len();
        let unread = |error: io::Error| Lost::Unread(error.to_string());
        let (ours, theirs) = (self.file.metadata().map_err(unread)?, fs::metadata(&self.name).map_err(unread)?);
        if identity(&ours) != identity(&theirs) {
            return Err(Lost::Replaced);
        }
        if ours.len() < self.at {
            return Err(Lost::Shorter(ours.len()));
        }
        let most = known + PIECE;
        let got = read(&self.file, &mut self.buffer[..most], self.at - known as u64).map_err(unread)?;
        if got < known {
            return Err(Lost::Shorter(self.at - known as u64 + got as u64));
        }
        if self.buffer[..known] != self.before[..] {
            return Err(Lost::Changed);
        }
        Ok((&self.buffer[known..got], got == most))
    }

    /// So many bytes of the piece were fed.
    pub fn fed(&mut self, count: usize) {
        let end = self.before.len() + count;
        self.at += count as u64;
        self.before = self.buffer[end.saturating_sub(BEFORE)..end].to_vec();
    }
}

fn identity(data: &Metadata) -> (u64, u64) {
    (data.dev(), data.ino())
}

/// As many bytes as there are, to the buffer's end.
fn read(file: &File, buffer: &mut [u8], from: u64) -> io::Result<usize> {
    let mut got = 0;
    while got < buffer.len() {
        match file.read_at(&mut buffer[got..], from + got as u64) {
            Ok(0) => break,
            Ok(count) => got += count,
            Err(error) if error.kind() == io::ErrorKind::Interrupted => {}
            Err(error) => return Err(error),
        }
    }
    Ok(got)
}
