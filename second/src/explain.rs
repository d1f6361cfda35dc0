//! What the numbers of an answer say, in words.

const FINDINGS: [&str; 12] = [
    "power modules silent for longer than W in this session",
    "controller status older than 200 ms",
    "contactors closed with no session open",
    "insulation test, precharge or power transfer with no session open",
    "insulation test, precharge or power transfer without Allowed in this session",
    "lowering with a function other than standby or a setpoint not 0",
    "target voltage above the voltage limit",
    "current above the charge limit or below minus the discharge limit",
    "insulation under 100 Ohm per volt, or Invalid by a yes/no sensor, in precharge or power transfer",
    "another protocol or plug than the session's first",
    "session finished with none open",
    "insulation test, precharge or power transfer after an Emergency_Stop in this session",
];

/// An answer as one word has eight bits for a start.
const LAST_START: u32 = 255;

const REFUSALS: [&str; 29] = [
    "channel above 31, or held by no post",
    "time earlier than the post's latest accepted frame or tick",
    "identifier not in the table, standard and extended ones told apart",
    "shorter than the table's length",
    "a label signal holds a number without a label",
    "a bit that no signal covers is 1",
    "a value has no raw number, or a raw number does not fit its signal",
    "lent buffer shorter than the message",
    "post number above 15",
    "channel above 31 at set-up",
    "channel held by another post",
    "a post limit outside its range",
    "no signal of the message starts at that bit",
    "post not set up",
    "longer than the table's length",
    "a number in the log that is not in its shortest form, or has more than five groups or 32 bits",
    "a channel above 31 in a log record",
    "a standard identifier above 2,047 in a log record",
    "an extended identifier above 29 bits in a log record",
    "a length above 9 in a log record, or more than 8 payload bytes to be logged",
    "a tick's length, 9, with an identifier part other than 0",
    "a batch of more than 4,096 bytes",
    "a malformed or cut record in a batch",
    "fewer places for answers than a batch has records",
    "the post's count of accepted frames and ticks is at its largest",
    "a malformed or cut log in a comparison",
    "more than 512 records in a log of a comparison",
    "fewer than 512 places for the record numbers of a comparison",
    "identifier that only the other interface has",
];

/// The words of each finding in the number; none where it has a bit that is no finding.
pub fn findings(number: u32) -> Option<String> {
    if number >> FINDINGS.len() != 0 {
        return None;
    }
    if number == 0 {
        return Some("none".to_string());
    }
    let found = FINDINGS.iter().enumerate().filter(|(place, _)| number >> place & 1 == 1);
    let words: Vec<String> = found.map(|(place, words)| format!("F{} {words}", place + 1)).collect();
    Some(words.join("; "))
}

pub fn refusal(number: u32) -> Option<String> {
    let place = usize::try_from(number.checked_sub(1)?).ok()?;
    REFUSALS.get(place).map(|words| format!("R{number} {words}"))
}

/// Refusal 5 with the start bit that it carries.
pub fn no_label(start: u32) -> Option<String> {
    let words = refusal(5).filter(|_| start <= LAST_START)?;
    Some(format!("{words} (the signal that starts at bit {start})"))
}
