//! Running the program that is compared.

use std::ffi::OsString;
use std::io::{self, Read, Write};
use std::process::{Child, Command, ExitStatus, Stdio};
use std::thread;
use std::time::{Duration, Instant};

/// What came back: the answer lines, and what went wrong beside them.
pub struct Outcome {
    pub answers: Vec<Vec<u8>>,
    pub trouble: Option<String>,
}

pub struct Program {
    pub command: Vec<OsString>,
    pub patience: Duration,
}

/// Enough of what a failing program says of itself.
const COMPLAINT: u64 = 2000;

/// A program that writes on without end is cut off here.
const MOST_ANSWERS: u64 = 256 << 20;

impl Program {
    /// `Err` where the program cannot be started at all.
    pub fn run(&self, script: &[u8]) -> Result<Outcome, String> {
        let name = self.command[0].to_string_lossy().into_owned();
        let mut child = Command::new(&self.command[0])
            .args(&self.command[1..])
            .stdin(Stdio::piped())
            .stdout(Stdio::piped())
            .stderr(Stdio::piped())
            .spawn()
            .map_err(|error| format!("cannot run {name}: {error}"))?;
        let mut input = child.stdin.take().expect("a piped input");
        let output = child.stdout.take().expect("a piped output");
        let complaints = child.stderr.take().expect("a piped output");
        // All three pipes move at once, so that no side waits for the other.
        let (status, answers, complaint) = thread::scope(|scope| {
            // A program that stops reading shows in its answers; that the pipe breaks adds nothing.
            scope.spawn(move || input.write_all(script));
            let answers = scope.spawn(move || head(output, MOST_ANSWERS));
            let complaint = scope.spawn(move || head_of_all(complaints, COMPLAINT));
            let status = wait(&mut child, self.patience);
            (status, answers.join(), complaint.join())
        });
        let answers = answers.expect("a reader").map_err(|error| format!("cannot read from {name}: {error}"))?;
        let complaint = complaint.expect("a reader").unwrap_or_default();
        let trouble = match status.map_err(|error| format!("cannot wait for {name}: {error}"))? {
            Some(status) if status.success() => None,
            Some(status) => Some(format!("the program ended with {status}{}", quoted(&complaint))),
            None => Some(format!("the program was stopped after {} s", self.patience.as_secs())),
        };
        Ok(Outcome { answers: lines(&answers), trouble })
    }
}

/// Lines without their line feeds; the last one may lack its own.
pub fn lines(text: &[u8]) -> Vec<Vec<u8>> {
    let mut lines: Vec<Vec<u8>> = text.split(|&byte| byte == b'\n').map(<[u8]>::to_vec).collect();
    if lines.last().is_some_and(Vec::is_empty) {
        lines.pop();
    }
    lines
}

fn head(from: impl Read, most: u64) -> io::Result<Vec<u8>> {
    let mut bytes = Vec::new();
    from.take(most).read_to_end(&mut bytes)?;
    Ok(bytes)
}

fn head_of_all(mut from: impl Read, most: u64) -> io::Result<Vec<u8>> {
    let bytes = head(from.by_ref(), most)?;
    io::copy(&mut from, &mut io::sink())?;
    Ok(bytes)
}

/// `None` where the program had to be stopped.
fn wait(child: &mut Child, patience: Duration) -> io::Result<Option<ExitStatus>> {
    let start = Instant::now();
    let mut pause = Duration::from_micros(200);
    loop {
        if let Some(status) = child.try_wait()? {
            return Ok(Some(status));
        }
        if start.elapsed() > patience {
            child.kill()?;
            child.wait()?;
            return Ok(None);
        }
        thread::sleep(pause);
        pause = (pause * 2).min(Duration::from_millis(20));
    }
}

fn quoted(complaint: &[u8]) -> String {
    let text = String::from_utf8_lossy(complaint);
    match text.trim() {
        "" => String::new(),
        text => format!(", saying: {text}"),
    }
}
