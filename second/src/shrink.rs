//! Making a script that shows something shorter, while it still shows it.

use crate::clock;
use crate::recordings_shrink;
use crate::replay_shrink;

pub type Line = Vec<u8>;

const ROUND: i64 = clock::ROUND as i64;

/// `shows` tells whether a script still shows it. The given script must.
pub fn shrink(mut script: Vec<Line>, shows: &mut dyn FnMut(&[Line]) -> bool) -> Vec<Line> {
    loop {
        let before = script.clone();
        remove_lines(&mut script, shows);
        rename_channels(&mut script, shows);
        close_gaps(&mut script, shows);
        simplify_replays(&mut script, shows);
        simplify_fields(&mut script, shows);
        if script == before {
            return script;
        }
    }
}

/// Chunks of half the script first, then smaller ones, single lines last and until none can go.
fn remove_lines(script: &mut Vec<Line>, shows: &mut dyn FnMut(&[Line]) -> bool) {
    let mut chunk = (script.len() / 2).max(1);
    loop {
        let mut removed = false;
        let mut at = 0;
        while at < script.len() {
            let end = (at + chunk).min(script.len());
            let mut shorter = script.clone();
            shorter.drain(at..end);
            if shows(&shorter) {
                *script = shorter;
                removed = true;
            } else {
                at = end;
            }
        }
        if chunk == 1 && !removed {
            return;
        }
        chunk = (chunk / 2).max(1);
    }
}

/// A channel stands in several lines, so it changes in all of them at once.
fn rename_channels(script: &mut Vec<Line>, shows: &mut dyn FnMut(&[Line]) -> bool) {
    for old in (0..32).rev() {
        for new in 0..old {
            let renamed: Vec<Line> = script.iter().map(|line| on_channel(line, old, new)).collect();
            if renamed != *script && shows(&renamed) {
                *script = renamed;
                break;
            }
        }
    }
}

/// The time before each frame or tick shorter, with all that follows coming earlier by the same.
fn close_gaps(script: &mut Vec<Line>, shows: &mut dyn FnMut(&[Line]) -> bool) {
    let mut before = None;
    for at in 0..script.len() {
        let Some(now) = time(&script[at]) else {
            continue;
        };
        let gap = before.map_or(now, |before: i64| (now - before).rem_euclid(ROUND));
        // A time that runs back may be what is shown; it has no gap to close.
        let runs_back = before.is_some() && gap >= ROUND / 2;
        for smaller in simpler_numbers(if runs_back { 0 } else { gap }) {
            let by = gap - smaller;
            let (head, tail) = script.split_at(at);
            let closed: Vec<Line> = head.iter().cloned().chain(tail.iter().map(|line| earlier(line, by))).collect();
            if shows(&closed) {
                *script = closed;
                break;
            }
        }
        before = time(&script[at]);
    }
}

fn fields(line: &[u8]) -> Vec<Line> {
    line.split(|&byte| byte == b' ').map(<[u8]>::to_vec).collect()
}

fn decimal(field: &[u8]) -> Option<i64> {
    std::str::from_utf8(field).ok()?.parse().ok()
}

fn time(line: &[u8]) -> Option<i64> {
    let fields = fields(line);
    let timed = matches!(fields[0].as_slice(), b"frame" | b"tick");
    decimal(fields.get(2).filter(|_| timed)?)
}

fn on_channel(line: &[u8], old: i64, new: i64) -> Line {
    let mut fields = fields(line);
    let place = match fields[0].as_slice() {
        b"setup" => 2,
        b"frame" | b"tick" => 1,
        b"replay" => return replay_shrink::on_channel(line, old, new).unwrap_or_else(|| line.to_vec()),
        b"batch" => return replay_shrink::batch_on_channel(line, old, new).unwrap_or_else(|| line.to_vec()),
        b"compare" => return recordings_shrink::on_channel(line, old, new).unwrap_or_else(|| line.to_vec()),
        _ => return line.to_vec(),
    };
    if let Some(channel) = fields.get_mut(place).filter(|channel| decimal(channel) == Some(old)) {
        *channel = new.to_string().into_bytes();
    }
    fields.join(&b' ')
}

/// On a clock that comes round.
fn earlier(line: &[u8], by: i64) -> Line {
    let Some(time) = time(line) else {
        return line.to_vec();
    };
    let mut fields = fields(line);
    fields[2] = (time - by).rem_euclid(ROUND).to_string().into_bytes();
    fields.join(&b' ')
}

/// Until no simpler one shows it.
fn simplify_replays(script: &mut [Line], shows: &mut dyn FnMut(&[Line]) -> bool) {
    for at in 0..script.len() {
        let mut shown = |script: &[Line]| {
            let replays =
                replay_shrink::simpler(&script[at]).into_iter().chain(replay_shrink::simpler_batch(&script[at]));
            let mut simpler = replays.chain(recordings_shrink::simpler(&script[at]));
            simpler.find(|line| shows(&with(script, at, line.clone())))
        };
        while let Some(line) = shown(script) {
            script[at] = line;
        }
    }
}

fn simplify_fields(script: &mut Vec<Line>, shows: &mut dyn FnMut(&[Line]) -> bool) {
    for at in 0..script.len() {
        for place in 1..fields(&script[at]).len() {
            for simpler in simpler_fields(&fields(&script[at])[place]) {
                let mut changed = fields(&script[at]);
                changed[place] = simpler;
                let tried = with(script, at, changed.join(&b' '));
                if shows(&tried) {
                    *script = tried;
                    break;
                }
            }
        }
    }
}

fn with(script: &[Line], at: usize, line: Line) -> Vec<Line> {
    let mut changed = script.to_vec();
    changed[at] = line;
    changed
}

/// Simpler ones first. Each is shorter or has smaller numbers, so that simplifying ends.
fn simpler_fields(field: &[u8]) -> Vec<Line> {
    if field.contains(&b',') {
        return simpler_values(field);
    }
    let mut simpler = Vec::new();
    if let Some(number) = decimal(field) {
        simpler.extend(simpler_numbers(number).iter().map(|simpler| simpler.to_string().into_bytes()));
    }
    // Bytes and identifiers may happen to have no digit above 9, so that a number is tried as both as well.
    if field.iter().all(u8::is_ascii_hexdigit) {
        let shorter = [1, field.len() / 2, field.len() - 1].into_iter().filter(|&kept| 0 < kept && kept < field.len());
        simpler.extend(shorter.map(|kept| field[..kept].to_vec()));
        if field.len().is_multiple_of(2) {
            simpler.extend(fewer_bytes(field));
            simpler.extend(simpler_bytes(field));
        }
    }
    simpler
}

/// Round numbers and edges of 01 first, then steps that get shorter, so that a large number comes down quickly.
pub fn simpler_numbers(number: i64) -> Vec<i64> {
    let steps = [number / 2, number - number / 4, number - number / 16];
    let smaller = [0, 1, 2, 10, 100, 101, 200, 201, 1000].into_iter().chain(steps);
    smaller.filter(|tried| tried.unsigned_abs() < number.unsigned_abs()).collect()
}

fn simpler_values(field: &[u8]) -> Vec<Line> {
    let values: Vec<&[u8]> = field.split(|&byte| byte == b',').collect();
    let nonzero = (0..values.len()).filter(|&place| values[place] != b"0");
    let zeroed = nonzero.map(|place| {
        let mut tried = values.clone();
        tried[place] = b"0";
        tried.join(&b',')
    });
    zeroed.collect()
}

fn fewer_bytes(field: &[u8]) -> Vec<Line> {
    let bytes: Vec<&[u8]> = field.chunks(2).collect();
    let kept = |bytes: Vec<&[u8]>| if bytes.is_empty() { b"-".to_vec() } else { bytes.concat() };
    fewer(&bytes).into_iter().map(kept).collect()
}

/// Without a half, then without smaller pieces, single parts last where there are few.
pub fn fewer<T: Clone>(parts: &[T]) -> Vec<Vec<T>> {
    let pieces = [1, 2, 4, 8, 16, 32, 64].map(|pieces| parts.len().div_ceil(pieces)).into_iter();
    let mut sizes: Vec<usize> = pieces.filter(|&size| size > 0).collect();
    sizes.dedup();
    let starts = sizes.into_iter().flat_map(|size| (0..parts.len()).step_by(size).map(move |start| (start, size)));
    starts.map(|(start, size)| [&parts[..start], &parts[(start + size).min(parts.len())..]].concat()).collect()
}

fn simpler_bytes(field: &[u8]) -> Vec<Line> {
    let all = b"0".repeat(field.len());
    let digits = (0..field.len()).filter(|&place| field[place] != b'0').take(64);
    let zeroed = digits.map(|place| {
        let mut tried = field.to_vec();
        tried[place] = b'0';
        tried
    });
    std::iter::once(all).filter(|all| all.as_slice() != field).chain(zeroed).collect()
}

/// The shortest line found whose answer still has that in it.
#[cfg(test)]
pub fn shortest(line: &str, part: &str) -> String {
    use crate::desk::{self, Desk};
    let shows = |lines: &[Line]| lines.iter().any(|line| desk::answer(&mut Desk::new(), line).contains(part));
    let short = shrink(vec![line.as_bytes().to_vec()], &mut |lines| shows(lines));
    String::from_utf8(short.concat()).unwrap()
}

#[cfg(test)]
mod tests {
    use super::*;

    fn script(text: &str) -> Vec<Line> {
        text.lines().map(|line| line.as_bytes().to_vec()).collect()
    }

    #[test]
    fn keeps_what_is_needed_only() {
        let mut long = script("setup 3 4 5000 1000 500 500");
        for n in 0..500 {
            long.push(format!("tick 4 {}", 7000 + n).into_bytes());
        }
        long.push(b"record 3".to_vec());
        let mut tries = 0;
        let short = shrink(long, &mut |lines| {
            tries += 1;
            let at = |word: &[u8]| lines.iter().position(|line| line.starts_with(word));
            matches!((at(b"setup"), at(b"record")), (Some(setup), Some(record)) if setup < record)
        });
        assert_eq!(short, script("setup 0 0 0 0 0 0\nrecord 0"));
        assert!(tries < 1000, "{tries}");
    }

    #[test]
    fn bytes_go_where_they_can() {
        let log = format!("logr {}07{}", "2a".repeat(4000), "15".repeat(4001));
        let mut tries = 0;
        let short = shrink(vec![log.into_bytes()], &mut |lines| {
            tries += 1;
            lines.iter().any(|line| line.starts_with(b"logr ") && line.windows(2).any(|pair| pair == b"07"))
        });
        assert_eq!(short, script("logr 07"));
        assert!(tries < 500, "{tries}");
    }

    #[test]
    fn times_keep_their_distance() {
        let long = script("tick 4 900100\ntick 4 900200\ntick 4 900901");
        let short = shrink(long, &mut |lines| {
            let times: Vec<i64> = lines.iter().filter_map(|line| time(line)).collect();
            times.windows(2).any(|pair| pair[1] - pair[0] == 801)
        });
        assert_eq!(short, script("tick 0 0\ntick 0 801"));
    }

    #[test]
    fn times_keep_their_distance_across_the_round() {
        let times = |lines: &[Line]| lines.iter().filter_map(|line| time(line)).collect::<Vec<i64>>();
        let long = script("tick 4 4294967000\ntick 4 4294967290\ntick 4 511");
        let apart = |pair: &[i64]| (pair[1] - pair[0]).rem_euclid(ROUND) == 517;
        let short = shrink(long.clone(), &mut |lines| times(lines).windows(2).any(apart));
        assert_eq!(short, script("tick 0 0\ntick 0 517"));
        let short = shrink(long, &mut |lines| times(lines).windows(2).any(|pair| apart(pair) && pair[1] < pair[0]));
        assert_eq!(times(&short).len(), 2);
        assert!(apart(&times(&short)) && times(&short)[1] < 517);
    }
}
