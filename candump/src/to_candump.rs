//! log2candump: a night log becomes lines of `candump -L`, piece by piece.

use crate::arguments::Call;
use crate::clock::no_clock;
use crate::files::{self, Output};
use crate::frame;
use crate::interfaces::Interfaces;
use crate::log::{self, Ending, Record};
use crate::program::{Done, Program};
use crate::stamp;
use crate::stamps::Stamps;

pub const PROGRAM: Program = Program {
    name: "log2candump",
    usage: include_str!("log2candump.txt"),
    options: &["--map", "--clock", "--start"],
    filters: &[],
    run,
};

fn run(call: &Call) -> Result<Done, String> {
    let interfaces = Interfaces::asked(call)?;
    let clock = call.value("--clock").map_or("first".into(), |name| name.to_string_lossy());
    let stamps = Stamps::named(&clock, start(call)?).ok_or_else(|| no_clock(&clock))?;
    let (mut input, output) = files::open(&call.input, &call.output)?;
    let mut lines = Lines { log: input.name.clone(), output, interfaces, stamps, records: 0, ticks: 0, left_out: 0 };
    // A piece's last record may be cut; it is whole in the next, unless the log is cut there.
    let mut rest = Vec::new();
    let mut at = 0;
    let ending = loop {
        let piece = input.piece()?;
        let size = piece.len();
        rest.extend_from_slice(piece);
        input.consume(size);
        let (records, whole, ending) = log::read(&rest);
        for record in &records {
            lines.write(record)?;
        }
        lines.output.flush()?;
        rest.drain(..whole);
        at += whole as u64;
        if size == 0 || matches!(ending, Ending::Bad(_)) {
            break ending;
        }
    };
    if lines.ticks > 0 {
        PROGRAM.say(format!("{}: ticks, which have no candump line: {}", input.name, lines.ticks));
    }
    if ending != Ending::End {
        PROGRAM.say(format!("{}: {}", input.name, ending.words(at)));
    }
    Ok(if ending == Ending::End && lines.left_out == 0 { Done::All } else { Done::SomeLeftOut })
}

/// In ms. Every time of a log can be added to it.
fn start(call: &Call) -> Result<u64, String> {
    let Some(seconds) = call.value("--start") else { return Ok(0) };
    let start = stamp::milliseconds(seconds.as_encoded_bytes());
    let fits = start.filter(|start| start.checked_add(u64::from(u32::MAX)).is_some());
    fits.ok_or_else(|| format!("--start {}: no seconds, or too many", seconds.to_string_lossy()))
}

struct Lines {
    log: String,
    output: Output,
    interfaces: Interfaces,
    stamps: Stamps,
    records: u64,
    ticks: u64,
    left_out: u64,
}

impl Lines {
    fn write(&mut self, record: &Record) -> Result<(), String> {
        self.records += 1;
        // A tick moves the clock, too.
        let stamp = self.stamps.of(record.time).ok_or_else(|| format!("no stamp for time {}", record.time));
        let Some(frame) = &record.frame else {
            self.ticks += 1;
            return Ok(());
        };
        match stamp.and_then(|stamp| Ok((stamp, self.interfaces.interface(record.channel)?))) {
            Ok((stamp, interface)) => {
                let (stamp, frame) = (stamp::write(stamp), frame::write(frame));
                self.output.write(&[stamp.as_bytes(), b" ", &interface, b" ", frame.as_bytes(), b"\n"].concat())
            }
            Err(words) => {
                self.left_out += 1;
                PROGRAM.say(format!("{}: record {}: {words}", self.log, self.records));
                Ok(())
            }
        }
    }
}
