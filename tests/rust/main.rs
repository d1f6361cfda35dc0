//! The library from Rust, over ffi.rs: its sizes, offsets, numbers and functions are the header's, and a post is set up, watched, looked up and logged.
mod ffi;
mod header;
use ffi::*;

fn frame(t: &mut Table, channel: u32, time: u32, id: u32, payload: &[u8]) -> u32 {
    unsafe { rokemaipu_frame(t, channel, time, id, true, payload.as_ptr(), payload.len()) }
}

/// The latest of a kind, or in the session: the answer, the time, the age and the kind, the bytes.
type Look = unsafe extern "C" fn(*const Table, u32, u32, *mut u32, usize, *mut u8, usize) -> u32;

fn looked(look: Look, t: &Table, post: u32, which: u32) -> (u32, [u32; TIMES], Vec<u8>) {
    let (mut times, mut buffer) = ([77; TIMES], [0x55; 8]);
    let answer = unsafe { look(t, post, which, times.as_mut_ptr(), TIMES, buffer.as_mut_ptr(), buffer.len()) };
    (answer, times, buffer[..if answer < REFUSED { answer as usize } else { 0 }].to_vec())
}

/// 01's E8, E9 and E11, and who holds what.
fn posts() {
    let status = |insulation| [0x88, 0x13, 0, 0, 65, 65, 1, insulation];
    let mut t = Table::empty();
    unsafe {
        assert_eq!(rokemaipu_holder(&t, 4), REFUSED + 1);
        assert_eq!(rokemaipu_set_up(&mut t, 0, 4, 5000, 1000, 500, 500, 0, NEWER), 0);
        assert_eq!(rokemaipu_set_up(&mut t, 1, 4, 5000, 1000, 500, 500, 0, NEWER), REFUSED + 11);
        assert_eq!(rokemaipu_holder(&t, 4), 0);
    }
    assert_eq!(frame(&mut t, 4, 0, 0x6b003, &[0x88, 0x13, 0, 0, 0, 0, 0x48]), 4 + 8); // closed contactors and power transfer with no session open
    assert_eq!(frame(&mut t, 4, 0, 0x6b001, &[2, 1]), 0);
    assert_eq!(frame(&mut t, 4, 10, 0x63000, &status(25)), 0);
    assert_eq!(frame(&mut t, 4, 20, 0x6b003, &[0x88, 0x13, 0, 0, 0, 0, 4]), 0);
    assert_eq!(frame(&mut t, 4, 30, 0x63000, &status(25)), 0);
    assert_eq!(frame(&mut t, 4, 40, 0x63000, &status(24)), 256); // F9
    let before = t;
    assert_eq!(frame(&mut t, 4, 50, 0x63000, &[0, 0, 0, 0, 65, 65, 2, 255]), REFUSED + 5 + 256 * 48); // the start bit of System_Enable
    assert_eq!(refusal(frame(&mut t, 4, 39, 0x6b000, &[7])), 2);
    assert_eq!(t, Table { refused: 2, ..before });

    let mut numbers = [0; NUMBERS];
    assert_eq!(unsafe { rokemaipu_look_up(&t, 0, numbers.as_mut_ptr(), NUMBERS) }, 0);
    assert_eq!(numbers, [4, 5000, 1000, 500, 500, 0, 1, 40, 1, 0, 2, 1, 40, NEWER]);
    let mut counts = [0; COUNTS];
    assert_eq!(unsafe { rokemaipu_counts(&t, 0, counts.as_mut_ptr(), COUNTS) }, 0);
    assert_eq!(counts, [6, 0, 0, 1, 1, 0, 0, 0, 0, 1, 0, 0, 0]); // accepted; F3, F4 and F9
    assert_eq!(unsafe { rokemaipu_refused(&t) }, 2);
    assert_eq!(unsafe { rokemaipu_counts(&t, 0, counts.as_mut_ptr(), COUNTS - 1) }, REFUSED + 8);
    assert_eq!(looked(rokemaipu_latest, &t, 0, 0), (8, [40, 0, 0], status(24).to_vec()));
    assert_eq!(looked(rokemaipu_latest, &t, 0, 8), (0, [77, 77, 77], vec![]));
    assert_eq!(looked(rokemaipu_in_session, &t, 0, 0), (8, [40, 0, 0], status(24).to_vec()));
    assert_eq!(looked(rokemaipu_in_session, &t, 0, 1), (7, [20, 20, 5], vec![0x88, 0x13, 0, 0, 0, 0, 4]));
    assert_eq!(looked(rokemaipu_in_session, &t, 0, 3).0, REFUSED + 3);

    unsafe {
        assert_eq!(rokemaipu_tick(&mut t, 4, 541), 1); // F1
        assert_eq!(rokemaipu_release(&mut t, 0), 0);
        assert_eq!(rokemaipu_release(&mut t, 0), REFUSED + 14);
        assert_eq!(rokemaipu_start(&mut t), 0);
    }
    assert_eq!(t, Table::empty());
}

/// Sixteen posts, and the index from channel to post beside them: after a set-up, a second one and a release.
fn index() {
    let (mut t, mut index) = (Table::empty(), [0; CHANNELS]);
    for post in 0..POSTS as u32 {
        assert_eq!(unsafe { rokemaipu_set_up(&mut t, post, 2 * post, 5000, 1000, 500, 500, 0, NEWER) }, 0);
        index[2 * post as usize] = post + 1;
        assert_eq!(t.index, index);
    }
    unsafe {
        assert_eq!(rokemaipu_set_up(&mut t, 16, 31, 5000, 1000, 500, 500, 0, NEWER), REFUSED + 9);
        assert_eq!(rokemaipu_set_up(&mut t, 15, 31, 5000, 1000, 500, 500, 0, NEWER), 0);
        (index[30], index[31]) = (0, 16);
        assert_eq!(t.index, index);
        assert_eq!((rokemaipu_holder(&t, 31), rokemaipu_holder(&t, 30)), (15, REFUSED + 1));
        assert_eq!(rokemaipu_release(&mut t, 0), 0);
        index[0] = 0;
        assert_eq!(t.index, index);
        t.index[1] = 16; // one that is not true leads to no post that does not hold the channel
        assert_eq!(rokemaipu_tick(&mut t, 1, 0), REFUSED + 1);
    }
    assert!(t.posts.iter().all(|post| post.head.heard == 0));
}

/// An emergency stop in a session, and a power transfer behind it: F12 with a tally of its own, and the stop that the session keeps.
fn stop() {
    let mut t = Table::empty();
    assert_eq!(unsafe { rokemaipu_set_up(&mut t, 0, 4, 5000, 1000, 500, 500, 0, NEWER) }, 0);
    assert_eq!(frame(&mut t, 4, 0, 0x6b001, &[2, 1]), 0);
    assert_eq!(looked(rokemaipu_in_session, &t, 0, 2).0, 0);
    assert_eq!(frame(&mut t, 4, 10, 0x6b005, &[3]), 0);
    assert_eq!(frame(&mut t, 4, 15, 0x6b003, &[0, 0, 0, 0, 0, 0, 8]), 2048 + 16); // F5 too: the power modules have not spoken
    assert_eq!(looked(rokemaipu_in_session, &t, 0, 2), (1, [10, 5, 7], vec![3]));
    assert_eq!((t.posts[0].head.counts[11], t.posts[0].head.counts[FINDINGS]), (0, 1));
    assert_eq!(frame(&mut t, 4, 20, 0x6b004, &[0]), 0);
    assert_eq!(looked(rokemaipu_in_session, &t, 0, 2).0, 0);
}

/// A post of the older interface beside one of the newer: each hears its own pages.
fn interfaces() {
    let mut t = Table::empty();
    unsafe {
        assert_eq!(rokemaipu_set_up(&mut t, 0, 4, 5000, 1000, 500, 500, 0, OLDER), 0);
        assert_eq!(rokemaipu_set_up(&mut t, 1, 5, 5000, 1000, 500, 500, 0, NEWER), 0);
        assert_eq!(rokemaipu_set_up(&mut t, 2, 6, 5000, 1000, 500, 500, 0, 2), REFUSED + 12);
    }
    assert_eq!(refusal(frame(&mut t, 4, 0, 0x6b001, &[2, 1])), 29);
    assert_eq!(refusal(frame(&mut t, 5, 0, 0x68001, &[2, 1, 0, 0, 0, 0, 0, 0])), 29);
    assert_eq!(frame(&mut t, 4, 0, 0x68001, &[2, 1, 0, 0, 0, 0, 0, 0]), 0);
    assert_eq!(frame(&mut t, 4, 10, 0x68002, &[0x88, 0x13]), 16); // Insulation_Test before any Power_Modules_Status: F5
    assert_eq!(looked(rokemaipu_latest, &t, 0, 17), (2, [10, 0, 17], vec![0x88, 0x13]));
    assert_eq!(looked(rokemaipu_latest, &t, 0, 5).0, 0); // DC_Power_Control, which has its place on the other post
    assert_eq!(looked(rokemaipu_in_session, &t, 0, 1), (2, [10, 0, 17], vec![0x88, 0x13]));
}

/// E1, E7, and 02's duty and probe.
fn frames() {
    let mut e1 = [0xa0, 0x0f, 0x83, 0xff, 0x41, 0x00, 0x01, 0x64];
    let (mut raws, mut back) = ([9i64; SIGNALS], [0u8; 8]);
    unsafe {
        assert_eq!(rokemaipu_read(0x63000, true, e1.as_ptr(), e1.len(), raws.as_mut_ptr(), SIGNALS), 0);
        assert_eq!(raws, [4000, -125, 65, 0, 1, 100, 0, 0, 0, 0, 0, 0, 0, 0, 0, 0]);
        assert_eq!(rokemaipu_write(0, raws.as_ptr(), SIGNALS, back.as_mut_ptr(), back.len()), 8);
        assert_eq!(back, e1);
        assert_eq!(rokemaipu_change(0x63000, true, e1.as_mut_ptr(), e1.len(), 16, -1), 0);
        assert_eq!(e1, [0xa0, 0x0f, 0xff, 0xff, 0x41, 0x00, 0x01, 0x64]);
        assert!(rokemaipu_probe_used(-100) && !rokemaipu_probe_used(8191));
        assert_eq!(rokemaipu_probe_degrees(-100), -10.0);
        assert_eq!((rokemaipu_limited_duty(999), rokemaipu_limited_duty(1001)), (999, 1000));
    }
}

/// 02's worked record, and a log with a piece of a record at its end.
fn log() {
    let mut log = Vec::new();
    let mut record = [0u8; RECORD_BYTES];
    unsafe {
        let n = rokemaipu_log_frame(300, 2, 0x6b000, true, [1].as_ptr(), 1, record.as_mut_ptr(), record.len());
        log.extend(&record[..n as usize]);
        assert_eq!(log, [0xac, 0x02, 0x02, 0x81, 0xc0, 0x35, 0x01, 0x01]);
        let n = rokemaipu_log_tick(300, 2, record.as_mut_ptr(), record.len());
        log.extend(&record[..n as usize]);
        log.push(0xac);
        let mut entry = [0u64; ENTRY_NUMBERS];
        assert_eq!(rokemaipu_log_record(log.as_ptr(), log.len(), 0, entry.as_mut_ptr(), ENTRY_NUMBERS), 0);
        assert_eq!(entry, [0, 300, 2, 0x6b000, 1, 7, 1, 8]);
        assert_eq!(rokemaipu_log_record(log.as_ptr(), log.len(), 8, entry.as_mut_ptr(), ENTRY_NUMBERS), 0);
        assert_eq!(entry, [1, 300, 2, 0, 0, 13, 0, 13]);
        assert_eq!(rokemaipu_log_record(log.as_ptr(), log.len(), 13, entry.as_mut_ptr(), ENTRY_NUMBERS), 2);
        assert_eq!(rokemaipu_log_record(log.as_ptr(), log.len() - 1, 13, entry.as_mut_ptr(), ENTRY_NUMBERS), 1);
    }
}

/// The same log in one call: a frame without a label and a tick, on a post and beside it.
fn batch() {
    let records = [0, 4, 0x83, 0xc0, 0x35, 2, 2, 5, 0, 4, 0, 9, 0, 5, 0, 9];
    let (mut table, mut answers) = (Table::empty(), [7u32; 4]);
    unsafe {
        assert_eq!(rokemaipu_set_up(&mut table, 0, 4, 5000, 1000, 500, 500, 0, NEWER), 0);
        let before = table;
        assert_eq!(refusal(rokemaipu_batch(&mut table, records.as_ptr(), records.len(), answers.as_mut_ptr(), 2)), 24);
        assert_eq!(refusal(rokemaipu_batch(&mut table, records.as_ptr(), records.len() - 1, answers.as_mut_ptr(), 2)), 23);
        let zeros = [0u8; BATCH_BYTES + 1];
        assert_eq!(refusal(rokemaipu_batch(&mut table, zeros.as_ptr(), zeros.len(), answers.as_mut_ptr(), 2)), 22);
        assert_eq!((table, answers), (before, [7; 4]));
        assert_eq!(rokemaipu_batch(&mut table, records.as_ptr(), records.len(), answers.as_mut_ptr(), answers.len()), 3);
        assert_eq!(answers, [REFUSED + 5 + 256 * 8, 0, REFUSED + 1, 7]);
        assert_eq!(table.posts[0].head.heard, 1);
    }
}

/// Three ticks against one and a tick on another channel: 2 and 3 are surplus, and 2; the shorter of channel 2 ends behind its first.
fn compare() {
    let (tick, other) = ([0xac, 0x02, 0x02, 0x00, 0x09], [0xac, 0x02, 0x03, 0x00, 0x09]);
    let (a, b) = ([tick, tick, tick].concat(), [tick, other].concat());
    let (mut first, mut second) = ([7u32; COMPARE_RECORDS], [7u32; COMPARE_RECORDS]);
    let (mut places, mut numbers) = ([7u32; CHANNELS + 1], [7u64; COMPARED_NUMBERS]);
    let mut call = |a: &[u8], b: &[u8], room: usize| unsafe {
        let word = rokemaipu_compare(a.as_ptr(), a.len(), b.as_ptr(), b.len(), first.as_mut_ptr(), first.len(), second.as_mut_ptr(), room, places.as_mut_ptr(), places.len(), numbers.as_mut_ptr(), numbers.len());
        (word, numbers, first[0..3].to_vec(), second[0..2].to_vec(), places[0..4].to_vec(), places[CHANNELS])
    };
    let kept = |word, numbers| (word, numbers, vec![7; 3], vec![7; 2], vec![7; 4], 7);
    assert_eq!(call(&a, &b[..9], 0), kept(REFUSED + 26, [2, 5]));
    assert_eq!(call(&a, &b, COMPARE_RECORDS - 1), kept(REFUSED + 28, [2, 0]));
    assert_eq!(call(&a, &tick.repeat(513), 0), kept(REFUSED + 27, [2, 0]));
    assert_eq!(call(&a, &b, COMPARE_RECORDS), (0, [2, 1], vec![2, 3, 7], vec![2, 7], vec![0, 0, 2, 1], 7));
}

/// 02's worked replay.
fn replay() {
    let log = [0xac, 0x02, 0x02, 0x00, 0x09, 0xac, 0x02, 0x03, 0x00, 0x09];
    let mut r = Replay { table: Table::empty(), count: 0, course: 0 };
    let (mut at, mut text) = (0u64, String::new());
    unsafe {
        assert_eq!(rokemaipu_replay_set_up(&mut r, 0, 2, 5000, 1000, 500, 500, 0, NEWER), 0);
        loop {
            let mut line = [0u8; LINE_BYTES];
            let n = rokemaipu_replay_line(&mut r, log.as_ptr(), log.len(), at as usize, line.as_mut_ptr(), LINE_BYTES, &mut at, 1);
            if n < 3 || n >= REFUSED {
                assert_eq!(n, 0);
                break;
            }
            text += std::str::from_utf8(&line[..n as usize]).unwrap();
        }
        assert_eq!((text.as_str(), r.count), ("1 0 A0\n2 - R1\n", 2));
        assert_eq!(rokemaipu_replay_set_up(&mut r, 1, 3, 5000, 1000, 500, 500, 0, NEWER), 1);
        assert_eq!(rokemaipu_replay_start(&mut r), 0);
    }
    assert_eq!(r, Replay { table: Table::empty(), count: 0, course: 0 });
}

fn main() {
    header::same();
    assert_eq!(unsafe { rokemaipu_layout() }, LAYOUT);
    posts();
    index();
    stop();
    interfaces();
    frames();
    log();
    batch();
    compare();
    replay();
    println!("Rust: sizes, offsets, numbers and functions are the header's; sixteen posts and their index, a stop, posts of either interface, frames, the log, a batch, a comparison and a replay over the archive");
}
