//! The night log (02, Req 01): what it can hold, a record as its bytes, and the records of some bytes.

pub const CHANNELS: u32 = 32;

const MOST_BYTES: usize = 8;
const MOST_GROUPS: usize = 5;

/// 02: "A tick has length 9, identifier part 0 and no payload".
const TICK: u32 = 9;

#[derive(Clone, Debug, PartialEq, Eq)]
pub struct Frame {
    pub id: u32,
    pub extended: bool,
    pub bytes: Vec<u8>,
}

/// A tick where there is no frame.
#[derive(Clone, Debug, PartialEq, Eq)]
pub struct Record {
    pub time: u32,
    pub channel: u32,
    pub frame: Option<Frame>,
}

/// Why no more records are read; of a bad one the number of its refusal.
#[derive(Clone, Copy, Debug, PartialEq, Eq)]
pub enum Ending {
    End,
    Cut,
    Bad(u8),
}

impl Ending {
    /// desk.md's words; the byte is that behind the last whole record.
    pub fn words(self, at: u64) -> String {
        match self {
            Ending::End => "END".to_string(),
            Ending::Cut => format!("CUT@{at}"),
            Ending::Bad(number) => format!("BAD R{number}@{at}"),
        }
    }
}

/// `Err` is the number of the refusal for which no log holds the record.
pub fn holds(record: &Record) -> Result<(), u8> {
    judge_channel(record.channel)?;
    let Some(frame) = &record.frame else { return Ok(()) };
    judge_identifier(frame.id, frame.extended)?;
    if frame.bytes.len() > MOST_BYTES {
        return Err(20);
    }
    Ok(())
}

/// Of a record that a log holds.
pub fn bytes(record: &Record) -> Vec<u8> {
    let mut bytes = Vec::new();
    put(&mut bytes, record.time);
    put(&mut bytes, record.channel);
    match &record.frame {
        Some(frame) => {
            put(&mut bytes, frame.id << 1 | u32::from(frame.extended));
            put(&mut bytes, frame.bytes.len() as u32);
            bytes.extend_from_slice(&frame.bytes);
        }
        None => {
            put(&mut bytes, 0);
            put(&mut bytes, TICK);
        }
    }
    bytes
}

/// desk.md's `frame CHANNEL TIME ID x|s HEX`, or `tick CHANNEL TIME`, with its line feed.
pub fn desk_line(record: &Record) -> String {
    let Record { time, channel, frame } = record;
    let Some(frame) = frame else { return format!("tick {channel} {time}\n") };
    let form = if frame.extended { 'x' } else { 's' };
    let hex: String = match frame.bytes.as_slice() {
        [] => "-".to_string(),
        bytes => bytes.iter().map(|byte| format!("{byte:02x}")).collect(),
    };
    format!("frame {channel} {time} {:x} {form} {hex}\n", frame.id)
}

/// 02: "groups of seven bits, low group first, high bit set on all but the last, shortest form".
fn put(bytes: &mut Vec<u8>, number: u32) {
    let mut rest = number;
    while rest > 0x7f {
        bytes.push(rest as u8 | 0x80);
        rest >>= 7;
    }
    bytes.push(rest as u8);
}

/// The whole records, the byte behind them, and what stands there.
pub fn read(bytes: &[u8]) -> (Vec<Record>, usize, Ending) {
    let (mut records, mut at) = (Vec::new(), 0);
    while at < bytes.len() {
        let mut place = Place { bytes, at };
        match place.record() {
            Ok(record) => records.push(record),
            Err(ending) => return (records, at, ending),
        }
        at = place.at;
    }
    (records, at, Ending::End)
}

struct Place<'a> {
    bytes: &'a [u8],
    at: usize,
}

impl Place<'_> {
    /// Each part is judged before the next is looked for: a bad one goes before a cut behind it.
    fn record(&mut self) -> Result<Record, Ending> {
        let time = self.number()?;
        let channel = self.number()?;
        judge_channel(channel).map_err(Ending::Bad)?;
        let part = self.number()?;
        let (id, extended) = (part >> 1, part & 1 == 1);
        judge_identifier(id, extended).map_err(Ending::Bad)?;
        let frame = match self.number()? {
            TICK if part == 0 => None,
            TICK => return Err(Ending::Bad(21)),
            length if length as usize > MOST_BYTES => return Err(Ending::Bad(20)),
            length => Some(Frame { id, extended, bytes: self.payload(length as usize)? }),
        };
        Ok(Record { time, channel, frame })
    }

    fn number(&mut self) -> Result<u32, Ending> {
        let mut number = 0u64;
        for place in 0..MOST_GROUPS {
            let group = *self.bytes.get(self.at).ok_or(Ending::Cut)?;
            self.at += 1;
            number |= u64::from(group & 0x7f) << (7 * place);
            if group & 0x80 == 0 {
                let shortest = group != 0 || place == 0;
                return u32::try_from(number).ok().filter(|_| shortest).ok_or(Ending::Bad(16));
            }
        }
        Err(Ending::Bad(16))
    }

    fn payload(&mut self, length: usize) -> Result<Vec<u8>, Ending> {
        let payload = self.bytes.get(self.at..self.at + length).ok_or(Ending::Cut)?;
        self.at += length;
        Ok(payload.to_vec())
    }
}

fn judge_channel(channel: u32) -> Result<(), u8> {
    match channel < CHANNELS {
        true => Ok(()),
        false => Err(17),
    }
}

fn judge_identifier(id: u32, extended: bool) -> Result<(), u8> {
    match extended {
        false if id > 0x7ff => Err(18),
        true if id > 0x1fff_ffff => Err(19),
        _ => Ok(()),
    }
}

#[cfg(test)]
mod tests {
    use super::*;

    fn frame(time: u32, channel: u32, id: u32, extended: bool, bytes: &[u8]) -> Record {
        Record { time, channel, frame: Some(Frame { id, extended, bytes: bytes.to_vec() }) }
    }

    #[test]
    fn the_examples_of_02() {
        let record = frame(300, 2, 0x6b000, true, &[1]);
        assert_eq!(bytes(&record), [0xac, 0x02, 0x02, 0x81, 0xc0, 0x35, 0x01, 0x01]);
        assert_eq!(desk_line(&record), "frame 2 300 6b000 x 01\n");
        let tick = Record { time: 300, channel: 2, frame: None };
        assert_eq!(bytes(&tick), [0xac, 0x02, 0x02, 0x00, 0x09]);
        assert_eq!(desk_line(&tick), "tick 2 300\n");
    }

    #[test]
    fn there_and_back() {
        let records = [
            frame(0, 0, 0, false, &[]),
            frame(u32::MAX, 31, 0x1fff_ffff, true, &[0xff; 8]),
            frame(127, 1, 0x7ff, false, &[0, 1]),
            Record { time: 128, channel: 31, frame: None },
        ];
        let log: Vec<u8> = records.iter().flat_map(bytes).collect();
        assert_eq!(read(&log), (records.to_vec(), log.len(), Ending::End));
        assert_eq!(desk_line(&records[0]), "frame 0 0 0 s -\n");
        assert_eq!(desk_line(&records[1]), "frame 31 4294967295 1fffffff x ffffffffffffffff\n");
    }

    #[test]
    fn both_sides_of_each_bound() {
        assert_eq!(holds(&frame(0, 31, 0x7ff, false, &[0; 8])), Ok(()));
        assert_eq!(holds(&frame(0, 32, 0x800, false, &[0; 9])), Err(17));
        assert_eq!(holds(&frame(0, 31, 0x800, false, &[0; 9])), Err(18));
        assert_eq!(holds(&frame(0, 31, 0x2000_0000, true, &[0; 9])), Err(19));
        assert_eq!(holds(&frame(0, 31, 0x1fff_ffff, true, &[0; 9])), Err(20));
    }

    #[test]
    fn what_is_bad_and_what_is_cut() {
        let largest = [0xff, 0xff, 0xff, 0xff, 0x0f];
        for (tail, ending) in [
            (&[0x80, 0x00][..], Ending::Bad(16)),
            (&[0xff, 0xff, 0xff, 0xff, 0x10], Ending::Bad(16)),
            (&[0x80; 5], Ending::Bad(16)),
            (&[0x80; 4], Ending::Cut),
            (&largest, Ending::Cut),
            (&[1, 32], Ending::Bad(17)),
            (&[1, 1, 0x80, 0x20], Ending::Bad(18)),
            (&[1, 1, 0x81, 0x80, 0x80, 0x80, 0x04], Ending::Bad(19)),
            (&[1, 1, 0, 10], Ending::Bad(20)),
            (&[1, 1, 2, 9], Ending::Bad(21)),
            (&[1, 1, 0, 2, 0], Ending::Cut),
        ] {
            let log = [&bytes(&frame(1, 1, 1, false, &[1])), tail].concat();
            let (records, at, found) = read(&log);
            assert_eq!((records.len(), at, found), (1, 5, ending), "{tail:x?}");
        }
        assert_eq!(Ending::Bad(17).words(5), "BAD R17@5");
        assert_eq!(Ending::Cut.words(5), "CUT@5");
        assert_eq!(Ending::End.words(5), "END");
    }
}
