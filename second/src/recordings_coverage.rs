//! What a step shows of the comparison of two recordings (Req 10).

use crate::fields::bytes;
use crate::log::{self, Ending};
use crate::posts::Arrival;
use crate::recordings::MOST;
use crate::safety_coverage::those;

const WANTED: [&str; 28] = [
    "of two empty logs",
    "of one empty log",
    "of the same log twice",
    "of another order over the channels only",
    "of another order within a channel only",
    "with a surplus in the first",
    "with a surplus in the second",
    "with a surplus in both",
    "with a surplus of repeats",
    "with two channels that differ",
    "with a place behind the first",
    "with a place after the shorter",
    "of 512 records",
    "R26:1 of a cut log",
    "R26:1 of a malformed log",
    "R26:2 of a cut log",
    "R26:2 of a malformed log",
    "R27:1",
    "R27:2",
    "R28:1",
    "R28:2",
    "R26 behind 512 records",
    "R26:1 before R26:2",
    "R26:2 before R27:1",
    "R27:1 before R27:2",
    "R27:2 before R28:1",
    "R28:1 before R28:2",
    "?",
];

pub fn wanted() -> impl Iterator<Item = String> {
    WANTED.into_iter().map(|shown| format!("compare {shown}"))
}

/// Both logs, and how many places each list has.
struct Asked {
    logs: [Vec<u8>; 2],
    rooms: [usize; 2],
}

pub fn shown(step: &[u8], answer: &[u8]) -> Vec<String> {
    let fields: Vec<&[u8]> = step.split(|&byte| byte == b' ').collect();
    let ([b"compare", first, second, room1, room2], Ok(answer)) = (&fields[..], std::str::from_utf8(answer)) else {
        return Vec::new();
    };
    let room = |field: &[u8]| std::str::from_utf8(field).ok()?.parse().ok();
    let asked = || Some(Asked { logs: [bytes(first)?, bytes(second)?], rooms: [room(room1)?, room(room2)?] });
    let Some(asked) = asked().filter(|_| answer != "?") else {
        return those(&[(answer == "?", "compare ?")]);
    };
    match answer.split(' ').collect::<Vec<&str>>()[..] {
        ["A", first, second, channels] => accepted(
            &asked,
            &parts(first.trim_start_matches("first=")),
            &parts(second.trim_start_matches("second=")),
            &parts(channels.trim_start_matches("chan=")),
        ),
        _ => refused(&asked, answer),
    }
}

fn parts(list: &str) -> Vec<&str> {
    list.split(',').filter(|part| *part != "-").collect()
}

fn accepted(asked: &Asked, first: &[&str], second: &[&str], channels: &[&str]) -> Vec<String> {
    let [own, other] = asked.logs.each_ref().map(|bytes| log::read(bytes).records);
    let same = first.is_empty() && second.is_empty();
    let repeated = |numbers: &[&str], own: &[Arrival], other: &[Arrival]| {
        let of = |number: &&str| number.parse::<usize>().ok().and_then(|number| own.get(number - 1));
        numbers.iter().filter_map(of).any(|record| other.contains(record))
    };
    let places: Vec<(u32, usize)> = channels
        .iter()
        .filter_map(|part| part.split_once(':'))
        .filter_map(|(channel, place)| Some((channel.parse().ok()?, place.parse().ok()?)))
        .collect();
    let on = |records: &[Arrival], channel| records.iter().filter(|record| record.channel == channel).count();
    let after = |(channel, place): &(u32, usize)| {
        let (least, most) =
            (on(&own, *channel).min(on(&other, *channel)), on(&own, *channel).max(on(&other, *channel)));
        *place == least + 1 && 0 < least && *place <= most
    };
    those(&[
        (own.is_empty() && other.is_empty(), "compare of two empty logs"),
        (own.is_empty() != other.is_empty(), "compare of one empty log"),
        (!own.is_empty() && own == other, "compare of the same log twice"),
        (own != other && same && channels.is_empty(), "compare of another order over the channels only"),
        (same && !channels.is_empty(), "compare of another order within a channel only"),
        (!first.is_empty(), "compare with a surplus in the first"),
        (!second.is_empty(), "compare with a surplus in the second"),
        (!first.is_empty() && !second.is_empty(), "compare with a surplus in both"),
        (repeated(first, &own, &other) || repeated(second, &other, &own), "compare with a surplus of repeats"),
        (channels.len() > 1, "compare with two channels that differ"),
        (places.iter().any(|(_, place)| *place > 1), "compare with a place behind the first"),
        (places.iter().any(after), "compare with a place after the shorter"),
        (own.len() == MOST || other.len() == MOST, "compare of 512 records"),
    ])
}

fn refused(asked: &Asked, answer: &str) -> Vec<String> {
    let logs = asked.logs.each_ref().map(|bytes| log::read(bytes));
    let many = logs.each_ref().map(|log| log.records.len() > MOST);
    let bad = logs.each_ref().map(|log| matches!(log.ending, Ending::Bad(_)));
    let cut = logs.each_ref().map(|log| log.ending == Ending::Cut);
    let short = asked.rooms.map(|room| room < MOST);
    let is = |refusal: &str| answer == refusal || answer.starts_with(&format!("{refusal}:"));
    those(&[
        (is("R26:1") && cut[0], "compare R26:1 of a cut log"),
        (is("R26:1") && bad[0], "compare R26:1 of a malformed log"),
        (is("R26:2") && cut[1], "compare R26:2 of a cut log"),
        (is("R26:2") && bad[1], "compare R26:2 of a malformed log"),
        (is("R27:1"), "compare R27:1"),
        (is("R27:2"), "compare R27:2"),
        (is("R28:1"), "compare R28:1"),
        (is("R28:2"), "compare R28:2"),
        (is("R26:1") && many[0] || is("R26:2") && many[1], "compare R26 behind 512 records"),
        (is("R26:1") && (cut[1] || bad[1]), "compare R26:1 before R26:2"),
        (is("R26:2") && many[0], "compare R26:2 before R27:1"),
        (is("R27:1") && many[1], "compare R27:1 before R27:2"),
        (is("R27:2") && short[0], "compare R27:2 before R28:1"),
        (is("R28:1") && short[1], "compare R28:1 before R28:2"),
    ])
}

#[cfg(test)]
mod tests {
    use super::*;
    use crate::desk::{self, Desk};

    fn shows(step: &str) -> Vec<String> {
        let answer = desk::answer(&mut Desk::new(), step.as_bytes());
        shown(step.as_bytes(), answer.as_bytes())
    }

    #[test]
    fn each_is_shown_by_a_step_of_its_own() {
        let (a, b, c) = ("00040009", "01040009", "00050009");
        let (full, many) = (a.repeat(MOST), a.repeat(MOST + 1));
        let in_both = &["with a surplus in the first", "with a surplus in the second", "with a surplus in both"][..];
        for (step, wanted) in [
            ("- - 512 512".to_string(), &["of two empty logs"][..]),
            (format!("{a} - 512 512"), &["of one empty log", "with a surplus in the first"]),
            (format!("- {a} 512 512"), &["of one empty log", "with a surplus in the second"]),
            (format!("{a} {a} 512 512"), &["of the same log twice"]),
            (format!("{a}{c} {c}{a} 512 512"), &["of another order over the channels only"]),
            (format!("{a}{b} {b}{a} 512 512"), &["of another order within a channel only"]),
            (format!("{a} {b} 512 512"), in_both),
            (format!("{a} {c} 512 512"), &[in_both, &["with two channels that differ"]].concat()),
            (
                format!("{b}{a} {b}{b} 512 512"),
                &[in_both, &["with a surplus of repeats", "with a place behind the first"]].concat(),
            ),
            (
                format!("{a}{b} {a} 512 512"),
                &["with a surplus in the first", "with a place behind the first", "with a place after the shorter"],
            ),
            (format!("{full} {full} 512 512"), &["of the same log twice", "of 512 records"]),
            (format!("{a}00 - 512 512"), &["R26:1 of a cut log"]),
            (format!("{a}0020 - 512 512"), &["R26:1 of a malformed log"]),
            (format!("- {a}00 512 512"), &["R26:2 of a cut log"]),
            (format!("- {a}0020 512 512"), &["R26:2 of a malformed log"]),
            (format!("{many} - 512 512"), &["R27:1"]),
            (format!("- {many} 512 512"), &["R27:2"]),
            ("- - 511 512".to_string(), &["R28:1"]),
            ("- - 512 511".to_string(), &["R28:2"]),
            (format!("{many}00 - 512 512"), &["R26:1 of a cut log", "R26 behind 512 records"]),
            (format!("{a}00 {a}0020 512 512"), &["R26:1 of a cut log", "R26:1 before R26:2"]),
            (format!("{many} 00 512 512"), &["R26:2 of a cut log", "R26:2 before R27:1"]),
            (format!("{many} {many} 512 512"), &["R27:1", "R27:1 before R27:2"]),
            (format!("- {many} 0 512"), &["R27:2", "R27:2 before R28:1"]),
            ("- - 0 0".to_string(), &["R28:1", "R28:1 before R28:2"]),
            ("0 - 512 512".to_string(), &["?"]),
        ] {
            let wanted: Vec<String> = wanted.iter().map(|shown| format!("compare {shown}")).collect();
            assert_eq!(shows(&format!("compare {step}")), wanted, "{step}");
        }
        assert_eq!(shows("logr -"), Vec::<String>::new());
    }
}
