//! What a step shows of the safety controller's frames and of the service screen (Req 04).

/// The words that bring a frame, by the pages of either interface, and where its identifier stands.
const WORDS: [(&str, usize); 4] = [("frame", 3), ("read", 1), ("change", 1), ("write", 1)];

const OTHERS: [&str; 18] = [
    "frame R6",
    "read R6",
    "change R6",
    "frame x R3",
    "read x R3",
    "write x X",
    "frame s R3",
    "read s R3",
    "frame with F1",
    "frame with F2",
    "duty above 1000 shown",
    "temperature below 0 shown",
    "probe not used shown",
    "record with both forms",
    "probe N",
    "probe -1 D",
    "duty A",
    "duty limited A",
];

/// All three messages by each word, and the rest.
pub fn wanted() -> Vec<String> {
    let accepted = WORDS.iter().flat_map(|(word, _)| [6, 7, 8].map(|id| format!("{word} {id}s A")));
    accepted.chain(OTHERS.map(str::to_string)).collect()
}

pub fn shown(step: &[u8], answer: &[u8]) -> Vec<String> {
    let (Ok(step), Ok(answer)) = (std::str::from_utf8(step), std::str::from_utf8(answer)) else {
        return Vec::new();
    };
    let fields: Vec<&str> = step.split(' ').collect();
    match fields[..] {
        ["probe", raw] => those(&[(answer == "N", "probe N"), (raw == "-1" && answer.starts_with('D'), "probe -1 D")]),
        ["duty", raw] => {
            let limited = answer == "A 1000" && raw != "1000";
            those(&[(limited, "duty limited A"), (!limited && answer.starts_with('A'), "duty A")])
        }
        ["record", _] => {
            let latest = answer.split_once(" latest=").map_or("", |(_, latest)| latest);
            let mut shown: Vec<String> = latest.split(';').flat_map(numbers).collect();
            shown.extend(those(&[(latest.contains("s:") && latest.contains("x:"), "record with both forms")]));
            shown
        }
        _ => by_frame(&fields, answer),
    }
}

pub fn those(shown: &[(bool, &str)]) -> Vec<String> {
    shown.iter().filter(|(is, _)| *is).map(|(_, what)| what.to_string()).collect()
}

fn by_frame(fields: &[&str], answer: &str) -> Vec<String> {
    let by_older_pages = fields[0].strip_suffix('1').unwrap_or(fields[0]);
    let Some((word, place)) = WORDS.iter().find(|(word, _)| *word == by_older_pages) else {
        return Vec::new();
    };
    let outcome = answer.split(' ').next().unwrap_or_default();
    match fields.get(*place..place + 2) {
        Some([id @ ("6" | "7" | "8"), "s"]) if outcome.starts_with('A') => {
            let mut shown = if *word == "frame" { found(outcome) } else { numbers(answer) };
            shown.push(format!("{word} {id}s A"));
            shown
        }
        Some(["6" | "7" | "8", "s"]) => vec![format!("{word} {outcome}")],
        Some(["6" | "7" | "8", "x"]) => vec![format!("{word} x {outcome}")],
        Some([_, "s"]) => vec![format!("{word} s {outcome}")],
        _ => Vec::new(),
    }
}

fn found(outcome: &str) -> Vec<String> {
    let findings: u32 = outcome[1..].parse().unwrap_or_default();
    those(&[(findings & 1 != 0, "frame with F1"), (findings & 2 != 0, "frame with F2")])
}

/// Of a message that was read or recorded.
fn numbers(message: &str) -> Vec<String> {
    let (name, values) = message.split_once("s:").unwrap_or_default();
    let values = values.split('@').next().unwrap_or_default();
    let values: Vec<i64> = values.split(',').filter_map(|value| value.parse().ok()).collect();
    let probes = name.ends_with('8');
    those(&[
        (!probes && values.first().is_some_and(|&duty| duty > 1000), "duty above 1000 shown"),
        (probes && values.iter().any(|&value| value < 0), "temperature below 0 shown"),
        (probes && values.contains(&0x1fff), "probe not used shown"),
    ])
}

#[cfg(test)]
mod tests {
    use super::*;

    #[test]
    fn each_is_shown_by_its_own_answer() {
        for (step, answer, wanted) in [
            ("frame 4 0 6 s 8215000000000000", "A3", &["frame 6s A", "frame with F1", "frame with F2"][..]),
            ("frame 4 0 6 s 8215040000000000", "R6", &["frame R6"]),
            ("frame 4 0 7 x 8215000000000000", "R3", &["frame x R3"]),
            ("read 5 s 8215000000000000", "R3", &["read s R3"]),
            ("read 6 s 03e9000000000000", "A 6s:1001,0,0,0", &["read 6s A", "duty above 1000 shown"]),
            ("read 6 s 03e8000000000000", "A 6s:1000,0,0,0", &["read 6s A"]),
            ("read 6b000 x 07", "A 6b000x:7", &[]),
            ("write 8 x 0 00", "X", &["write x X"]),
            ("write1 8 x 0 00", "X", &["write x X"]),
            ("read1 6 s 03e8000000000000", "A 6s:1000,0,0,0", &["read 6s A"]),
            ("probe 8191", "N", &["probe N"]),
            ("probe -1", "D bdcccccd", &["probe -1 D"]),
            ("duty 1000", "A 1000", &["duty A"]),
            ("duty 1001", "A 1000", &["duty limited A"]),
            (
                "record 0",
                "K ch=4 latest=8s:-1,0,0,8191,0,0,0,0,0,0,0,0@9+0;6b000x:7@9+0",
                &["temperature below 0 shown", "probe not used shown", "record with both forms"],
            ),
            ("record 0", "K ch=4 latest=8s:0,0,0,0,0,0,0,0,0,0,0,0@8191+8191", &[]),
        ] {
            let mut shown = shown(step.as_bytes(), answer.as_bytes());
            shown.sort_by_key(|shown| wanted.iter().position(|wanted| wanted == shown));
            assert_eq!(shown, wanted, "{step}");
        }
    }
}
