//! Lines that are no steps, or only just are: the format's own edges.

use super::Generator;
use crate::desk::LONGEST;
use crate::rng::Rng;

const ODD_LINES: [&[u8]; 84] = [
    b" ",
    b"  ",
    b"\t",
    b"\r",
    b"-",
    b"?",
    b"\xff\xfe",
    b"\0",
    b" # no comment",
    b"Tick 0 0",
    b"ticks 0 0",
    b"tick",
    b"record",
    b"record -0",
    b"record +1",
    b"record 00",
    b"record 4294967296",
    b"release -1",
    b"setup 0 0 1 1 0 100 ",
    b"setup 0 0 1 1 0 100 -1",
    b"setup 0 0 1 1 0 100 4294967296",
    b"setup 0 0 1 1 0 100 1 ",
    b"setup 0 0 1 1 0 100 1 -1",
    b"setup 0 0 1 1 0 100 1 4294967296",
    b"setup 0 0 1 1 0 100 1 0 0",
    b"read 63000 x",
    b"read 63000 x ",
    b"read1 60010 x",
    b"read0 63000 x -",
    b"read2 60010 x -",
    b"readd 60010 x -",
    b"change1 68009 x 00 0",
    b"write1 68009 x - 00",
    b"write 6b000 x - 00",
    b"write 6b000 x  00",
    b"probe",
    b"probe ",
    b"probe -0",
    b"probe 1fff",
    b"probe 0 0",
    b"probe 9223372036854775808",
    b"duty",
    b"duty 00",
    b"duty 0 0",
    b"logr",
    b"logr ",
    b"logr - -",
    b"logw",
    b"logw t 0 0",
    b"logw t 0 4294967296 -",
    b"logw t 4294967296 0 -",
    b"logw x 0 0 -",
    b"logw f 0 0 0 s -",
    b"logw f 0 0 100000000 x - -",
    b"batch",
    b"batch -",
    b"batch - ",
    b"batch  0",
    b"batch 0 1",
    b"batch - 0 0",
    b"batch - 2049",
    b"compare",
    b"compare -",
    b"compare - -",
    b"compare - - 512",
    b"compare - - 512 ",
    b"compare - -  512",
    b"compare - - 512 2049",
    b"compare - - 2049 512",
    b"compare - - 512 512 512",
    b"replay",
    b"replay -",
    b"replay - ",
    b"replay  -",
    b"replay - - -",
    b"replay 0 -",
    b"replay - ;",
    b"replay - -;0,0,1,1,0,100",
    b"replay - 0,0,1,1,0,100;",
    b"replay - 0,0,1,1,0,100;;1,1,1,1,0,100",
    b"replay - 0,0,1,1,0",
    b"replay - 0,0,1,1,0,100,0,0,0",
    b"replay - 16,0,1,1,0,100;0,0,1,1,0,00100",
    b"replay - 0 0 1 1 0 100",
];

/// The two steps without a field have odd lines of their own.
const NO_FIELDS: [&[u8]; 14] = [
    b"refused ",
    b"refused 0",
    b"refused -",
    b"refused refused",
    b"refuse",
    b"refusedd",
    b"Refused",
    b"index ",
    b"index 0",
    b"index -",
    b"index index",
    b"inde",
    b"indexx",
    b"Index",
];

/// Records of four bytes; no other of any length makes so much text of a byte.
const LONG_ANSWER: &[u8] = b"7f1f7f00";
const TICK: &[u8] = b"00000009";

impl Generator {
    pub fn malformed(&mut self) -> Vec<u8> {
        match self.rng.below(21) {
            0 => self.long(),
            1..=5 => self.rng.pick(&ODD_LINES).to_vec(),
            6..=8 => self.rng.pick(&NO_FIELDS).to_vec(),
            _ => {
                let line = match self.rng.below(11) {
                    0 => format!("setup 16 40 5000 1000 500 500{}", self.rng.pick(&["", " 1", " 1 1"])),
                    1 => self.record(),
                    2 => self.read(),
                    3 => self.change(),
                    4 => self.write(),
                    5 => self.log_read(),
                    6 => self.log_write(),
                    7 => self.service(),
                    8 => self.replay(),
                    9 => self.compare(),
                    _ => self.refused(),
                };
                spoilt(&mut self.rng, line.into_bytes())
            }
        }
    }

    /// Well-formed but for their length: exactly as long as a line may be, or longer.
    fn long(&mut self) -> Vec<u8> {
        let length = self.rng.pick(&[LONGEST - 1, LONGEST, LONGEST, LONGEST + 1, LONGEST + 1, 70_000]);
        // Bytes are pairs of digits, so that each ending goes with lengths of one parity.
        let even = length.is_multiple_of(2);
        let (head, fill, tail): (&[u8], &[u8], &[u8]) = match self.rng.below(9) {
            0 | 1 if even => (b"change 63000 x ", b"7", b" 16 1"),
            2 if even => (b"write 6b000 x 7 ", b"7", b""),
            3 if even => (b"logw f 0 0 0 s ", b"7", b" 00"),
            4 if even => (b"logw f 0 0 0 s 00 ", b"7", b""),
            5 if even => (b"replay ", TICK, b" 0,0,1,1,0,6000"),
            6 if even => (b"read1 60010 x ", b"7", b""),
            8 if even => (b"compare - ", b"7", b" 512 512"),
            _ if even => (b"frame 4 100 6b000 x ", b"7", b""),
            0 => (b"read 63000 x ", b"7", b""),
            1 => (b"change 63000 x ", b"7", b" 16 -1"),
            2 => (b"write 63000 x 0,0,0,0,0,10 ", b"7", b""),
            3 => (b"logr ", LONG_ANSWER, b""),
            4 => (b"logr ", TICK, b""),
            5 => (b"replay ", TICK, b" -"),
            6 => (b"replay ", TICK, b" 0,0,1,1,0,60000"),
            8 => (b"compare ", TICK, b" - 0 10"),
            _ => (b"logw t 0 0 ", b"7", b""),
        };
        let fill = fill.iter().copied().cycle().take(length - head.len() - tail.len());
        head.iter().copied().chain(fill).chain(tail.iter().copied()).collect()
    }
}

fn spoilt(rng: &mut Rng, line: Vec<u8>) -> Vec<u8> {
    let mut fields: Vec<Vec<u8>> = line.split(|&byte| byte == b' ').map(<[u8]>::to_vec).collect();
    let place = rng.below(fields.len() as u64) as usize;
    match rng.below(14) {
        0 => drop(fields.remove(place)),
        1 => fields.insert(place, b"0".to_vec()),
        2 => fields.insert(place, Vec::new()),
        3 => fields.push(Vec::new()),
        4 => fields[place].make_ascii_uppercase(),
        5 => fields[place].insert(0, b'0'),
        6 => fields[place].insert(0, b'+'),
        7 => fields[place].insert(0, b'-'),
        8 => {
            fields[place] =
                rng.pick(&[b"-0".as_slice(), b"4294967296", b"9223372036854775808", b"1,,2", b"1,"]).to_vec()
        }
        9 => fields[place].push(rng.pick(b"\r\t\0\xff,;-.xg#")),
        10 => fields[place].clear(),
        11 => drop(fields[place].pop()),
        12 => {
            let at = rng.below(fields[place].len() as u64 + 1) as usize;
            let byte = (rng.next() as u8).max(b'\n' + 1);
            fields[place].insert(at, byte);
        }
        _ => fields.truncate(place),
    }
    fields.join(&b' ')
}
