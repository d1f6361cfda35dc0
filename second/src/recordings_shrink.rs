//! A comparison made smaller: records fewer in both logs, in one, and earlier.

use crate::fields::{bytes, hex};
use crate::replay_shrink::{earlier, moved, pieces};
use crate::shrink::{fewer, Line};

/// Simpler ones first; none where the line is no comparison. The places for its numbers are fields as any other.
pub fn simpler(line: &[u8]) -> Vec<Line> {
    let Some(([first, second], rooms)) = read(line) else {
        return Vec::new();
    };
    let of = |log: &[u8]| -> Vec<Vec<u8>> {
        fewer(&pieces(log)).into_iter().map(|pieces| pieces.concat()).chain(earlier(log)).collect()
    };
    let (firsts, seconds) = (of(&first), of(&second));
    let both = firsts.iter().zip(&seconds).map(|(first, second)| write(first, second, &rooms));
    let one = firsts.iter().map(|first| write(first, &second, &rooms));
    let other = seconds.iter().map(|second| write(&first, second, &rooms));
    both.chain(one).chain(other).collect()
}

/// With another channel in place of one, in both logs.
pub fn on_channel(line: &[u8], old: i64, new: i64) -> Option<Line> {
    let ([first, second], rooms) = read(line)?;
    let (old, new) = (u32::try_from(old).ok()?, u32::try_from(new).ok()?);
    Some(write(&moved(&first, old, new), &moved(&second, old, new), &rooms))
}

/// Both logs, and what stands behind them.
fn read(line: &[u8]) -> Option<([Vec<u8>; 2], Vec<u8>)> {
    let fields: Vec<&[u8]> = line.split(|&byte| byte == b' ').collect();
    match fields[..] {
        [b"compare", first, second, room1, room2] => {
            Some(([bytes(first)?, bytes(second)?], [room1, room2].join(&b' ')))
        }
        _ => None,
    }
}

fn write(first: &[u8], second: &[u8], rooms: &[u8]) -> Line {
    [b"compare ", hex(first).as_bytes(), b" ", hex(second).as_bytes(), b" ", rooms].concat()
}

#[cfg(test)]
mod tests {
    use crate::shrink::shortest;

    #[test]
    fn records_go_where_they_can() {
        let log = "ac02020009ac02030009ac020281c035010eac021f0009";
        let line = format!("compare {0}ac02020009{1} {0}{1} 512 512", log.repeat(20), log.repeat(3));
        assert_eq!(shortest(&line, "first=- second=-"), "compare - - 512 512");
        assert_eq!(shortest(&line, "first="), "compare - - 512 512");
        assert_eq!(shortest(&line, "second=- chan=0:1"), "compare 00000000 - 512 512");
        assert_eq!(shortest(&format!("{line}00"), "?"), "compare - - 0 -");
    }
}
