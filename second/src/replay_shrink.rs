//! A replay or batch step made smaller: fewer records and set-ups, and smaller numbers in them.

use crate::fields::{bytes, hex, natural};
use crate::log;
use crate::posts::Arrival;
use crate::shrink::{fewer, simpler_numbers, Line};

const FEW: usize = 64;

/// The log and the numbers of each set-up.
struct Night {
    log: Vec<u8>,
    set_ups: Vec<Vec<u32>>,
}

/// Simpler ones first; none where the line is no replay.
pub fn simpler(line: &[u8]) -> Vec<Line> {
    let Some(night) = read(line) else {
        return Vec::new();
    };
    let logs = fewer(&pieces(&night.log)).into_iter().map(|pieces| pieces.concat()).chain(earlier(&night.log));
    let set_ups = fewer(&night.set_ups).into_iter().chain(smaller(&night.set_ups));
    let by_log = logs.map(|log| write(&log, &night.set_ups));
    by_log.chain(set_ups.map(|set_ups| write(&night.log, &set_ups))).collect()
}

/// Simpler ones first; none where the line is no batch. The places for its answers are a field as any other.
pub fn simpler_batch(line: &[u8]) -> Vec<Line> {
    let Some((records, places)) = read_batch(line) else {
        return Vec::new();
    };
    let logs = fewer(&pieces(&records)).into_iter().map(|pieces| pieces.concat()).chain(earlier(&records));
    logs.map(|log| write_batch(&log, &places)).collect()
}

/// With another channel in place of one.
pub fn batch_on_channel(line: &[u8], old: i64, new: i64) -> Option<Line> {
    let (records, places) = read_batch(line)?;
    Some(write_batch(&moved(&records, u32::try_from(old).ok()?, u32::try_from(new).ok()?), &places))
}

fn read_batch(line: &[u8]) -> Option<(Vec<u8>, Vec<u8>)> {
    let fields: Vec<&[u8]> = line.split(|&byte| byte == b' ').collect();
    match fields[..] {
        [b"batch", records, places] => Some((bytes(records)?, places.to_vec())),
        _ => None,
    }
}

fn write_batch(records: &[u8], places: &[u8]) -> Line {
    [b"batch ", hex(records).as_bytes(), b" ", places].concat()
}

/// The log with another channel in place of one.
pub fn moved(bytes: &[u8], old: u32, new: u32) -> Vec<u8> {
    let mut log = log::read(bytes);
    for record in log.records.iter_mut().filter(|record| record.channel == old) {
        record.channel = new;
    }
    [log.records.iter().flat_map(log::bytes).collect::<Vec<u8>>().as_slice(), &bytes[log.at..]].concat()
}

/// With another channel in place of one, in the set-ups and in the log.
pub fn on_channel(line: &[u8], old: i64, new: i64) -> Option<Line> {
    let mut night = read(line)?;
    let (old, new) = (u32::try_from(old).ok()?, u32::try_from(new).ok()?);
    for channel in night.set_ups.iter_mut().filter_map(|numbers| numbers.get_mut(1)).filter(|channel| **channel == old)
    {
        *channel = new;
    }
    Some(write(&moved(&night.log, old, new), &night.set_ups))
}

fn read(line: &[u8]) -> Option<Night> {
    let fields: Vec<&[u8]> = line.split(|&byte| byte == b' ').collect();
    let [b"replay", log, set_ups] = fields[..] else {
        return None;
    };
    let numbers = |each: &[u8]| each.split(|&byte| byte == b',').map(natural).collect::<Option<Vec<u32>>>();
    let set_ups = match set_ups {
        b"-" => Vec::new(),
        _ => set_ups.split(|&byte| byte == b';').map(numbers).collect::<Option<Vec<_>>>()?,
    };
    Some(Night { log: bytes(log)?, set_ups })
}

fn write(log: &[u8], set_ups: &[Vec<u32>]) -> Line {
    let joined = |numbers: &Vec<u32>| numbers.iter().map(u32::to_string).collect::<Vec<_>>().join(",");
    let set_ups: Vec<String> = set_ups.iter().map(joined).collect();
    let set_ups = if set_ups.is_empty() { "-".to_string() } else { set_ups.join(";") };
    format!("replay {} {set_ups}", hex(log)).into_bytes()
}

/// The records, and behind them what is none.
pub fn pieces(bytes: &[u8]) -> Vec<Vec<u8>> {
    let log = log::read(bytes);
    let rest = (log.at < bytes.len()).then(|| bytes[log.at..].to_vec());
    log.records.iter().map(log::bytes).chain(rest).collect()
}

/// All records at time 0, since times around a round hold each other where they are; then each record earlier, where there are
/// few.
pub fn earlier(bytes: &[u8]) -> Vec<Vec<u8>> {
    let records = log::read(bytes).records;
    let pieces = pieces(bytes);
    let mut simpler = Vec::new();
    if pieces.len() > FEW {
        return simpler;
    }
    if records.iter().any(|record| record.time != 0) {
        let mut tried = pieces.clone();
        for (piece, record) in tried.iter_mut().zip(&records) {
            *piece = log::bytes(&Arrival { time: 0, ..record.clone() });
        }
        simpler.push(tried.concat());
    }
    for (place, record) in records.iter().enumerate() {
        for time in simpler_numbers(i64::from(record.time)) {
            let mut tried = pieces.clone();
            tried[place] = log::bytes(&Arrival { time: time as u32, ..record.clone() });
            simpler.push(tried.concat());
        }
    }
    simpler
}

/// Each number of each set-up smaller, and its last field, a sensor or an interface, unsaid.
fn smaller(set_ups: &[Vec<u32>]) -> Vec<Vec<Vec<u32>>> {
    let mut simpler = Vec::new();
    for (place, numbers) in set_ups.iter().enumerate() {
        for (at, number) in numbers.iter().enumerate() {
            for number in simpler_numbers(i64::from(*number)) {
                let mut tried = set_ups.to_vec();
                tried[place][at] = number as u32;
                simpler.push(tried);
            }
        }
        let mut unsaid = set_ups.to_vec();
        unsaid[place].pop();
        simpler.push(unsaid);
    }
    simpler
}

#[cfg(test)]
mod tests {
    use crate::shrink::shortest;

    #[test]
    fn records_and_set_ups_go_where_they_can() {
        let log = "ac02020009ac02030009ac020281c035010eac021f0009";
        let line = format!("replay {}{log}8000 3,2,5000,2000,500,500;1,9,5000,2000,500,500,1", log.repeat(40));
        assert_eq!(shortest(&line, "R5 0"), "replay 000081c035010e 0,0,1,1,0,100");
        assert_eq!(shortest(&line, "BAD"), "replay 8000 -");
        assert_eq!(shortest(&line, "- R1"), "replay 00000000 -");
        assert_eq!(shortest(&format!("{line};16,1,1,1,1,1"), "SETUP"), "replay - 0,0,0,0,0,0");
    }
}
