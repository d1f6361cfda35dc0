//! POSTS: the desk's `setup` lines, blank lines and comments, as the replay takes them.

use crate::library::{Depot, Refusal, SetUp};
use crate::words;

/// No file of set-ups is longer, for the replay either.
pub const MOST: usize = 65_535;

const FORM: &str = "no setup POST CHANNEL VOLT CHG DIS W [SENSOR [IFACE]]";

/// A line that is none, or whose set-up is refused, by its number from 1.
#[derive(Debug, PartialEq, Eq)]
pub struct Wrong {
    pub line: usize,
    pub said: String,
}

/// The desk's: decimal, no leading zero, 32 bits.
fn number(word: &str) -> Option<u32> {
    let plain = word.bytes().all(|byte| byte.is_ascii_digit()) && (word == "0" || !word.starts_with('0'));
    plain.then(|| word.parse().ok()).flatten()
}

fn set_up(line: &str) -> Option<SetUp> {
    let rest = line.strip_prefix("setup ")?;
    let numbers = rest.split(' ').map(number).collect::<Option<Vec<u32>>>()?;
    let [post, channel, voltage, charge, discharge, silence, ref more @ ..] = numbers[..] else {
        return None;
    };
    let more = |place: usize| more.get(place).copied().unwrap_or(0);
    (numbers.len() <= 8).then(|| SetUp {
        post,
        channel,
        voltage,
        charge,
        discharge,
        silence,
        sensor: more(0),
        interface: more(1),
    })
}

/// Sets the posts up as the lines tell, to the first that is wrong.
pub fn set_up_all(depot: &mut Depot, text: &[u8]) -> Result<(), Wrong> {
    for (at, line) in text.split(|byte| *byte == b'\n').enumerate() {
        if line.is_empty() || line.starts_with(b"#") {
            continue;
        }
        let wrong = |said| Wrong { line: at + 1, said };
        let line = std::str::from_utf8(line).ok().and_then(set_up).ok_or_else(|| wrong(FORM.to_string()))?;
        depot
            .set_up(line)
            .map_err(|Refusal(n)| wrong(format!("the set-up is refused, R{n}: {}", words::refusal(n))))?;
    }
    Ok(())
}

#[cfg(test)]
mod tests {
    use super::*;

    fn taken(text: &str) -> Result<Depot, Wrong> {
        let mut depot = Depot::default();
        set_up_all(&mut depot, text.as_bytes()).map(|()| depot)
    }

    #[test]
    fn lines() {
        let depot =
            taken("# x\n\nsetup 0 4 5000 2000 500 500\nsetup 7 31 1 1 0 100 1").unwrap_or_else(|w| panic!("{w:?}"));
        let first = depot.look_up(0).unwrap();
        assert_eq!((first.channel, first.voltage, first.silence, first.sensor), (4, 5000, 500, 0));
        assert_eq!(depot.look_up(7).unwrap().sensor, 1);
        assert_eq!(depot.look_up(1), None);
        assert_eq!(depot.holder(31), Some(7));
    }

    #[test]
    fn wrong() {
        for line in [
            "setup 0 4 5000 2000 500",
            "setup 0 4 5000 2000 500 500 0 0 0",
            "setup 0 04 5000 2000 500 500",
            "setup 0 4 4294967296 2000 500 500",
            "setup 0 +4 5000 2000 500 500",
            "setup  0 4 5000 2000 500 500",
            "setup 0 4 5000 2000 500 500 ",
            "setup 0 4 5000 2000 500 500\r",
            "tick 4 100",
            " ",
        ] {
            let told = taken(&format!("#\n{line}\n")).err().unwrap();
            assert_eq!(told, Wrong { line: 2, said: FORM.to_string() }, "{line}");
        }
        let told = taken("setup 0 4 5000 2000 500 500\nsetup 1 4 5000 2000 500 500\n").err().unwrap();
        assert_eq!(
            told,
            Wrong { line: 2, said: "the set-up is refused, R11: channel held by another post".to_string() }
        );
    }
}
