//! candump2log: a recording of `candump -L` becomes a night log, or the desk's lines of one, line by line.

use crate::arguments::Call;
use crate::clock::{no_clock, Clock};
use crate::fields::{fields, Fault, Field};
use crate::files;
use crate::frame;
use crate::interfaces::Interfaces;
use crate::log::{self, Record};
use crate::program::{Done, Program};
use crate::stamp;

pub const PROGRAM: Program = Program {
    name: "candump2log",
    usage: include_str!("candump2log.txt"),
    options: &["--map", "--clock"],
    filters: &["--lines"],
    run,
};

fn run(call: &Call) -> Result<Done, String> {
    let interfaces = Interfaces::asked(call)?;
    let as_lines = call.has("--lines");
    // Lines go to a log that outlives this run: the next one has to count from the same moment.
    let usual = if as_lines { "wrap" } else { "first" };
    let clock = call.value("--clock").map_or(usual.into(), |name| name.to_string_lossy());
    let clock = Clock::named(&clock).ok_or_else(|| no_clock(&clock))?;
    let (mut input, mut output) = files::open(&call.input, &call.output)?;
    let mut recorder = Recorder { clock, interfaces };
    let (mut lines, mut left_out) = (0u64, 0u64);
    let mut line = Vec::new();
    loop {
        // Of a recording that still goes on all that came is written before more is waited for.
        if !input.has_line() {
            output.flush()?;
        }
        input.line(&mut line)?;
        if line.is_empty() {
            break;
        }
        lines += 1;
        let cut = !line.ends_with(b"\n");
        match recorder.record(&line) {
            Ok(_) if cut && as_lines => {
                left_out += 1;
                PROGRAM.say(format!("{}: line {lines}: no line feed behind it, it may be cut: left out", input.name));
            }
            // A line is written by itself, so that none is cut where this program is killed.
            Ok(record) if as_lines => {
                output.write(log::desk_line(&record).as_bytes())?;
                output.flush()?;
            }
            Ok(record) => {
                output.write(&log::bytes(&record))?;
                if cut {
                    PROGRAM.say(format!("{}: line {lines}: no line feed behind it, it may be cut", input.name));
                }
            }
            Err(fault) => {
                left_out += 1;
                PROGRAM.say(format!("{}: line {lines}, {fault}", input.name));
            }
        }
    }
    if left_out == 0 {
        return Ok(Done::All);
    }
    PROGRAM.say(format!("{}: lines left out: {left_out} of {lines}", input.name));
    Ok(Done::SomeLeftOut)
}

struct Recorder {
    clock: Clock,
    interfaces: Interfaces,
}

impl Recorder {
    /// A line's record, which a log holds. The earliest bad part of a line decides why there is none.
    fn record(&mut self, line: &[u8]) -> Result<Record, Fault> {
        let end = Field { column: line.trim_ascii_end().len() + 1, bytes: b"" };
        let mut parts = fields(line).peekable();
        let stamp = parts.next().ok_or_else(|| end.fault("an empty line"))?;
        let at = stamp::read(stamp.bytes)
            .ok_or_else(|| stamp.fault("no stamp (SECONDS.MICROSECONDS) as candump -L writes it"))?;
        let time = self.clock.time(at).map_err(|words| stamp.fault(words))?;
        let interface = parts.next().ok_or_else(|| end.fault("no interface"))?;
        let channel = self.interfaces.channel(interface.bytes).map_err(|words| interface.fault(words))?;
        let field = parts.next().ok_or_else(|| end.fault("no frame ID#BYTES as candump -L writes it"))?;
        let frame = frame::read(field)?;
        parts.next_if(|mark| matches!(mark.bytes, b"R" | b"T"));
        if let Some(more) = parts.next() {
            return Err(more.fault("more than a frame and its direction, R or T"));
        }
        let record = Record { time, channel, frame: Some(frame) };
        log::holds(&record).map_err(|number| field.fault(words(number)))?;
        Ok(record)
    }
}

/// Why the log holds no such frame.
fn words(refusal: u8) -> String {
    match refusal {
        18 => "a standard identifier above 7FF".to_string(),
        19 => "an extended identifier above 1FFFFFFF".to_string(),
        20 => "more than 8 bytes".to_string(),
        other => format!("refused by the log, R{other}"),
    }
}

#[cfg(test)]
mod tests {
    use super::*;

    fn recorder(clock: &str) -> Recorder {
        Recorder { clock: Clock::named(clock).unwrap(), interfaces: Interfaces::default() }
    }

    fn refused(line: &str) -> String {
        recorder("wrap").record(line.as_bytes()).expect_err(line).to_string()
    }

    #[test]
    fn the_example_of_02() {
        let mut recorder = recorder("first");
        recorder.record(b"(1700000000.123456) can2 0006B003#R").unwrap_err();
        for line in ["can2 0006B000#01\n", "  can2  0006b000#01\r\n", "can2 0006B000#01 R", "can2 0006B000#01 T\n"] {
            let record = recorder.record(format!("(1700000000.423001) {line}").as_bytes());
            assert_eq!(log::bytes(&record.unwrap()), [0xac, 0x02, 0x02, 0x81, 0xc0, 0x35, 0x01, 0x01], "{line}");
        }
    }

    #[test]
    fn each_part_that_is_bad() {
        for (line, why) in [
            ("\n", "column 1: an empty line"),
            (" \r\n", "column 1: an empty line"),
            ("can4 123#\n", "column 1: no stamp (SECONDS.MICROSECONDS) as candump -L writes it"),
            ("(1.000000)\n", "column 11: no interface"),
            ("(1.000000) can32 123#\n", "column 12: interface can32: channels end at 31"),
            ("(1.000000) can4\n", "column 16: no frame ID#BYTES as candump -L writes it"),
            ("(1.000000) can4 123\n", "column 17: no frame ID#BYTES as candump -L writes it"),
            ("(1.000000) can4 123#0G\n", "column 22: G is no hexadecimal digit"),
            ("(1.000000) can4 123# R T\n", "column 24: more than a frame and its direction, R or T"),
            ("(1.000000) can4 123# X\n", "column 22: more than a frame and its direction, R or T"),
            ("(1.000000) can4 800#\n", "column 17: a standard identifier above 7FF"),
            ("(1.000000) can4 40000000#\n", "column 17: an extended identifier above 1FFFFFFF"),
            ("(1.000000) can4 123#000102030405060708\n", "column 17: more than 8 bytes"),
        ] {
            assert_eq!(refused(line), why);
        }
    }

    #[test]
    fn the_earliest_decides() {
        for (line, why) in [
            ("(1) can 12#0\n", "no stamp"),
            ("(1.000000) can 12#0\n", "has no number"),
            ("(1.000000) can1 12#0 X\n", "an identifier of 2 digits"),
            ("(1.000000) can1 800# X\n", "more than a frame"),
        ] {
            assert!(refused(line).contains(why), "{line}");
        }
    }
}
