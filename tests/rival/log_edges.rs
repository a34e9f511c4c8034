//! Writing, reading and printing logs at the edges, with the expected numbers written down here: heads, entries and buffers at and
//! past their ends, the order of the refusals, and what whole and damaged logs print.

use crate::archive;
use crate::edges::choices;
use crate::fields::BEHIND;
use crate::group::Group;
use crate::logs::{self, bytes_of};
use crate::question::{Cursor, Head, LogRead, Written};
use crate::walk_edges::{walk_ends, walked, HEAD_OF_32, LOG_OF_32, TWO_BLOCKS};
use crate::worked::{HEAD_OF_C, LOG_OF_B, LOG_OF_C};

/// What a buffer and a list hold before a call.
const BYTE: u8 = 77;
const NUMBER: i32 = -9;

/// A head by absolute.
fn head_of(width: usize, height: usize, n: usize, w: usize, search: u32) -> Head {
    Head {
        width,
        height,
        n,
        w,
        search,
        measure: 1,
    }
}

/// Writing into so many bytes: both sides must answer so, put this log, and leave the rest of the buffer as it was.
fn writes(group: &mut Group, head: Head, list: &[i32], lent: usize, wanted: Written, log: &[u8]) {
    let inputs = format!("{head:?}, {list:?}, buffer of {lent}");
    let length = lent.max(log.len()) + BEHIND;
    let (mut here, mut there) = (vec![BYTE; length], vec![BYTE; length]);
    let answer = archive::write_log(&head, list, &mut here, lent);
    let own = logs::write_log(&head, list, &mut there[..lent]);
    group.same(&inputs, (answer, own), (wanted, wanted));
    let mut kept = vec![BYTE; length];
    kept[..log.len()].copy_from_slice(log);
    group.same(&inputs, (&here, &there), (&kept, &kept));
}

/// One that is refused so.
fn writing_refused(group: &mut Group, head: Head, list: &[i32], lent: usize, refusal: i64, k: i64) {
    let wanted = Written {
        refusal,
        place: k,
        length: 0,
    };
    writes(group, head, list, lent, wanted, &[]);
}

/// One that is accepted, into a buffer of just the log's length and into a longer one.
fn log_written(group: &mut Group, head: Head, list: &[i32], log: &[u8]) {
    let wanted = Written {
        length: log.len() as i64,
        ..Written::default()
    };
    writes(group, head, list, log.len(), wanted, log);
    writes(group, head, list, log.len() + 9, wanted, log);
}

/// Refusals 1 3 4 51 5 of a head that is to be written.
fn heads_written() -> u64 {
    let mut group = Group::new("logs, heads that are written");
    let still = [0; 12];
    let by = |measure, head| Head { measure, ..head };
    for (head, refusal) in [
        (head_of(3, 8, 4, 1, 2), 1),
        (head_of(1025, 8, 4, 1, 2), 1),
        (head_of(usize::MAX, 8, 4, 1, 2), 1),
        (head_of((1 << 32) + 8, 8, 4, 1, 2), 1),
        (head_of(8, 3, 4, 1, 2), 1),
        (head_of(8, 1025, 4, 1, 2), 1),
        (head_of(8, 8, 5, 1, 2), 3),
        (head_of(8, 8, 0, 1, 2), 3),
        (head_of(8, 8, 16, 1, 2), 3),
        (head_of(31, 32, 32, 1, 2), 3),
        (head_of(32, 31, 32, 1, 2), 3),
        (head_of(64, 64, 64, 1, 2), 3),
        (head_of(7, 8, 8, 1, 2), 3),
        (head_of(8, 7, 8, 1, 2), 3),
        (head_of(8, 8, 4, 1, 0), 4),
        (head_of(8, 8, 4, 1, 5), 4),
        (head_of(8, 8, 4, 1, 258), 4),
        (head_of(8, 8, 4, 257, 2), 5),
        (head_of(8, 8, 4, 1, 3), 5),
        // After 4, before 5.
        (by(0, head_of(8, 8, 4, 1, 2)), 51),
        (by(3, head_of(8, 8, 4, 1, 1)), 51),
        (by(257, head_of(8, 8, 4, 7, 3)), 51),
        (by(258, head_of(8, 8, 4, 2, 4)), 51),
        (by(65_537, head_of(8, 8, 4, 1, 2)), 51),
        (by(u32::MAX, head_of(8, 8, 4, 1, 2)), 51),
        (by(3, head_of(8, 8, 4, 257, 2)), 51),
        (by(0, head_of(8, 8, 4, 1, 3)), 51),
        (by(3, head_of(8, 8, 4, 1, 5)), 4),
        (by(0, head_of(8, 8, 4, 1, 0)), 4),
        (by(3, head_of(8, 7, 8, 1, 2)), 3),
        (by(3, head_of(8, 3, 4, 1, 2)), 1),
        (by(2, head_of(8, 8, 4, 257, 2)), 5),
        (by(2, head_of(8, 8, 4, 1, 3)), 5),
        (by(2, head_of(8, 8, 4, 1, 5)), 4),
        (by(2, head_of(8, 7, 8, 1, 2)), 3),
        (by(2, head_of(8, 3, 4, 1, 2)), 1),
    ] {
        writing_refused(&mut group, head, &still, 200, refusal, 0);
        // All of these come before 10.
        writing_refused(&mut group, head, &[], 200, refusal, 0);
    }
    for w in 0..=40 {
        for search in 1..=4 {
            let taken = match search {
                1 | 2 => w <= 16,
                3 => w == 7,
                _ => [2, 4, 8, 16].contains(&w),
            };
            let head = head_of(4, 4, 4, w, search);
            if taken {
                let log = [1, 0, 4, 0, 4, 4, w as u8, search as u8, 3, 4, 0, 0, 0, 1];
                log_written(&mut group, head, &still, &log);
                let log = [&[6], &log[1..8], &[2], &log[8..]].concat();
                log_written(&mut group, by(2, head), &still, &log);
            } else {
                writing_refused(&mut group, head, &still, 200, 5, 0);
                writing_refused(&mut group, by(2, head), &still, 200, 5, 0);
            }
        }
    }
    group.end()
}

/// Refusals 10, 16 and 19: each block of C in turn wrong in one number (w is 1), and lists and buffers one short.
fn entries_written() -> u64 {
    let mut group = Group::new("logs, entries that are written");
    let head = HEAD_OF_C;
    for (k, entry) in [
        (0, [-1, 0, 5]),
        (0, [0, -1, 5]),
        (3, [1, 0, 5]),
        (3, [0, 1, 5]),
        (1, [2, 0, 5]),
        (2, [-2, 0, 5]),
        (2, [0, 2, 5]),
        (1, [0, -2, 5]),
        (0, [0, 0, -1]),
        (1, [0, 0, 4081]),
        (2, [256, 0, 5]),
        (3, [0, -256, 5]),
        (3, [0, 0, 65_536]),
        (0, [0, 0, -65_536]),
        (2, [i32::MIN, 0, 5]),
        (1, [0, i32::MAX, 5]),
        (2, [0, 0, i32::MIN]),
        (3, [0, 0, i32::MAX]),
    ] {
        let mut list = [0; 12];
        list[3 * k..3 * k + 3].copy_from_slice(&entry);
        writing_refused(&mut group, head, &list, 200, 16, k as i64);
        writing_refused(&mut group, head, &list, 0, 16, k as i64);
        writing_refused(&mut group, head, &list[..11], 200, 10, 0);
    }
    // The first of two.
    let two = [0, 0, 0, 2, 0, 0, 0, 0, 0, 2, 0, 0];
    writing_refused(&mut group, head, &two, 200, 16, 1);
    let still = [0; 12];
    log_written(&mut group, head, &still, LOG_OF_C);
    writing_refused(&mut group, head, &still[..11], 200, 10, 0);
    writing_refused(&mut group, head, &[], 200, 10, 0);
    writing_refused(&mut group, head, &still, 16, 19, 0);
    writing_refused(&mut group, head, &still, 0, 19, 0);
    // The greatest distortion, and a block that is no still block: four bytes more.
    let most = [1, 0, 4080, 0, 0, 0, 0, 0, 0, 0, 0, 0];
    let log = [&LOG_OF_C[..8], &[2, 1, 0, 15, 240], &LOG_OF_C[9..]].concat();
    log_written(&mut group, head, &most, &log);
    writing_refused(&mut group, head, &most, 20, 19, 0);

    // Distortions by N and measure, of one block each: commands 2 and 5 up to the largest, 16 above it.
    for (n, measure, most) in [
        (4, 1, 4_080),
        (8, 1, 16_320),
        (16, 1, 65_280),
        (32, 1, 261_120),
        (4, 2, 1_040_400),
        (8, 2, 4_161_600),
        (16, 2, 16_646_400),
        (32, 2, 66_585_600),
    ] {
        let head = Head {
            measure,
            ..head_of(n, n, n, 1, 2)
        };
        let numbers = [0, n as u8, 0, n as u8, n as u8, 1, 2];
        let front = match measure {
            1 => [&[1], &numbers[..]].concat(),
            _ => [&[6], &numbers[..], &[2]].concat(),
        };
        let ends = [1, 65_280, 65_281, 65_534, 65_535, 65_536, 65_537, 1 << 24];
        for distortion in ends.into_iter().chain([most - 1, most, most + 1]) {
            let list = [0, 0, distortion];
            if distortion > most {
                writing_refused(&mut group, head, &list, 200, 16, 0);
                continue;
            }
            let bytes = distortion.to_be_bytes();
            let block = match bytes {
                [0, 0, high, low] => vec![2, 0, 0, high, low],
                _ => [&[5, 0, 0], &bytes[..]].concat(),
            };
            let log = [&front[..], &block, &[4, 0, 0, 0, 1]].concat();
            log_written(&mut group, head, &list, &log);
            writing_refused(&mut group, head, &list, log.len() - 1, 19, 0);
            // Read back, into just three numbers.
            let mut read = [NUMBER; 4];
            let answer = archive::read_log(&log, &mut read, 3);
            let wanted = LogRead {
                head,
                ..LogRead::default()
            };
            let kept = [0, 0, distortion, NUMBER];
            group.same("read back", (answer, read), (wanted, kept));
        }
    }
    group.end()
}

/// Writing: inputs that break any choice of 1 3 4 51 5 10 16 19 answer with the first of them, and leave the buffer as it was.
fn order_of_writing() -> u64 {
    let mut group = Group::new("logs, order of refusals in writing");
    for rules in choices(&[1, 3, 4, 51, 5, 10, 16, 19]) {
        let first = rules.first().copied().unwrap_or(0);
        let broken = |rule| rules.contains(&rule);
        for (bad, good) in [(0, 1), (1, 2), (2, 1)] {
            let head = Head {
                width: 12,
                height: if broken(1) {
                    [3, 1025, usize::MAX][bad]
                } else {
                    8
                },
                n: if broken(3) { [5, 16, 0][bad] } else { 4 },
                w: if broken(5) {
                    [17, 256, usize::MAX][bad]
                } else {
                    4
                },
                search: if broken(4) { [0, 5, u32::MAX][bad] } else { 2 },
                measure: if broken(51) { [3, 0, 257][bad] } else { good },
            };
            // Three still blocks, and three others below them.
            let mut list = vec![0; 9];
            list.extend([-1, 1, 9, -2, -1, 9, -4, -3, 9]);
            // A part over w, a block left of the frame, a distortion below 0.
            let (k, part, value) = [(3, 0, 5), (0, 1, -1), (2, 2, -1)][bad];
            if broken(16) {
                list[3 * k + part] = value;
            }
            if broken(10) {
                list.truncate(17);
            }
            let length = if good == 2 { 9 } else { 8 } + 3 + 15 + 5;
            let lent = if broken(19) { length - 1 } else { length };
            let mut buffer = vec![77; length + BEHIND];
            let answer = archive::write_log(&head, &list, &mut buffer, lent);
            let mut there = vec![77; length + BEHIND];
            let own = logs::write_log(&head, &list, &mut there[..lent]);
            let wanted = Written {
                refusal: first,
                place: if first == 16 { k as i64 } else { 0 },
                length: if first == 0 { length as i64 } else { 0 },
            };
            let inputs = format!("rules {rules:?}, {head:?}, {list:?}, buffer of {lent}");
            group.same(&inputs, answer, wanted);
            group.same(&inputs, own, wanted);
            let kept = buffer.iter().all(|&byte| byte == 77);
            group.holds(&inputs, kept == (first != 0), &buffer, &there);
            group.same(&inputs, buffer, there);
        }
    }
    group.end()
}

/// A log with these bytes from a place on, and the front of one.
fn with(log: &[u8], at: usize, bytes: &[u8]) -> Vec<u8> {
    [&log[..at], bytes, &log[at + bytes.len()..]].concat()
}

fn front(log: Vec<u8>, length: usize) -> Vec<u8> {
    log[..length].to_vec()
}

/// Reading a log into so many numbers: both sides must answer so, list the field where it is accepted, and change no other number.
fn reads(group: &mut Group, log: &[u8], lent: usize, wanted: LogRead, list: &[i32]) {
    let inputs = format!("log {log:?}, list of {lent}");
    let length = lent.max(list.len()) + BEHIND;
    let (mut here, mut there) = (vec![NUMBER; length], vec![NUMBER; length]);
    let answer = archive::read_log(log, &mut here, lent);
    let own = logs::read_log(log, &mut there[..lent]);
    group.same(&inputs, (answer, own), (wanted, wanted));
    let mut kept = vec![NUMBER; length];
    kept[..list.len()].copy_from_slice(list);
    group.same(&inputs, (&here, &there), (&kept, &kept));
}

/// One that is refused so.
fn reading_refused(group: &mut Group, log: &[u8], lent: usize, refusal: i64, place: i64) {
    let wanted = LogRead {
        refusal,
        place,
        ..LogRead::default()
    };
    reads(group, log, lent, wanted, &[]);
}

/// Reading: "First offset wins", 10 right behind an accepted head and before all that follows, and no number of the list changed.
fn order_of_reading() -> u64 {
    let mut group = Group::new("logs, order of refusals in reading");
    let listed = [0, 0, 0, 0, -4, 7];
    let good = bytes_of(&TWO_BLOCKS, &listed);
    let read = LogRead {
        head: TWO_BLOCKS,
        ..LogRead::default()
    };
    reads(&mut group, &good, 6, read, &listed);
    reads(&mut group, &good, 9, read, &listed);
    let with = |at: usize, bytes: &[u8]| with(&good, at, bytes);
    // A good log: head 0..8, still block at 8, block at 9..14, end 14..19.
    for (log, list_length, refusal, place) in [
        (vec![], 6, 13, 0),
        (vec![], 0, 13, 0),
        (vec![0], 0, 14, 0),
        (vec![2], 6, 14, 0),
        (front(good.clone(), 1), 0, 13, 0),
        (front(good.clone(), 7), 6, 13, 0),
        (front(good.clone(), 8), 6, 13, 8),
        (front(good.clone(), 8), 5, 10, 8),
        (front(good.clone(), 8), 0, 10, 8),
        (good.clone(), 5, 10, 8),
        (good.clone(), 0, 10, 8),
        (with(8, &[9]), 5, 10, 8),
        (with(8, &[9]), 6, 14, 8),
        (with(8, &[1]), 6, 14, 8),
        (with(8, &[4]), 6, 14, 8),
        (with(1, &[0, 3]), 5, 15, 0),
        (front(with(1, &[0, 3]), 7), 5, 13, 0),
        (front(with(0, &[2, 0, 3]), 7), 5, 14, 0),
        (front(good.clone(), 13), 6, 13, 9),
        (front(with(10, &[1]), 13), 6, 13, 9),
        (with(10, &[1]), 6, 16, 9),
        (with(10, &[0, 0, 0, 0]), 6, 16, 9),
        (with(9, &[4]), 6, 14, 9),
        (with(14, &[3]), 6, 14, 14),
        (with(14, &[2]), 6, 14, 14),
        (front(good.clone(), 14), 6, 13, 14),
        (front(with(18, &[3]), 18), 6, 13, 14),
        (with(18, &[3]), 6, 17, 14),
        ([&good[..], &[0]].concat(), 6, 18, 19),
        ([&good[..], &good].concat(), 6, 18, 19),
        ([&with(18, &[3])[..], &[0]].concat(), 6, 17, 14),
        ([&good[..], &[0]].concat(), 5, 10, 8),
    ] {
        reading_refused(&mut group, &log, list_length, refusal, place);
    }
    group.end()
}

/// The same of a log by squares with a long block.
fn order_of_reading_long() -> u64 {
    let mut group = Group::new("logs, order of refusals in reading commands 5 and 6");
    let good = LOG_OF_32;
    let listed = [0, 0, 0, 0, -16, 66_585_600];
    let read = LogRead {
        head: HEAD_OF_32,
        ..LogRead::default()
    };
    reads(&mut group, good, 6, read, &listed);
    reads(&mut group, good, 9, read, &listed);
    let with = |at: usize, bytes: &[u8]| with(good, at, bytes);
    let good = good.to_vec();
    // A good log: head 0..9, still block at 9, long block at 10..17, end 17..22.
    for (log, list_length, refusal, place) in [
        (front(good.clone(), 1), 0, 13, 0),
        (front(good.clone(), 8), 6, 13, 0),
        (front(good.clone(), 9), 6, 13, 9),
        (front(good.clone(), 9), 5, 10, 9),
        (front(good.clone(), 9), 0, 10, 9),
        (good.clone(), 5, 10, 9),
        (good.clone(), 0, 10, 9),
        (with(9, &[7]), 5, 10, 9),
        (with(9, &[7]), 6, 14, 9),
        (with(9, &[1]), 6, 14, 9),
        (with(9, &[6]), 6, 14, 9),
        // Any measure but 2, and 1 too; before 10, after 13.
        (with(8, &[0]), 6, 15, 0),
        (with(8, &[1]), 6, 15, 0),
        (with(8, &[3]), 6, 15, 0),
        (with(8, &[255]), 0, 15, 0),
        (with(5, &[33]), 0, 15, 0),
        (front(with(5, &[33]), 8), 6, 13, 0),
        (front(with(0, &[7]), 8), 6, 14, 0),
        (front(good.clone(), 11), 6, 13, 10),
        (front(good.clone(), 16), 6, 13, 10),
        (front(with(12, &[241]), 15), 6, 13, 10),
        // 65,535 or less, and one more than there can be.
        (with(13, &[0, 0, 255, 255]), 6, 16, 10),
        (with(13, &[0, 0, 0, 0]), 6, 16, 10),
        (with(11, &[0, 0, 0, 0, 0, 0]), 6, 16, 10),
        (with(13, &[3, 248, 4, 1]), 6, 16, 10),
        (with(13, &[131, 248, 4, 0]), 6, 16, 10),
        (with(12, &[239]), 6, 16, 10),
        (with(10, &[4]), 6, 14, 10),
        (with(17, &[5]), 6, 14, 17),
        (with(17, &[6]), 6, 14, 17),
        (with(21, &[3]), 6, 17, 17),
        ([&good[..], &[5]].concat(), 6, 18, 22),
        ([&good[..], &good].concat(), 5, 10, 9),
    ] {
        reading_refused(&mut group, &log, list_length, refusal, place);
    }
    group.end()
}

/// Printing a log into buffers from no byte to more than enough: the front of this text that fits, the rest of the buffer as it was, and
/// the length of all of it.
fn printed(group: &mut Group, log: &[u8], text: &str) {
    let length = text.len();
    let inputs = format!("log of {} bytes", log.len());
    group.same(&inputs, &logs::print_log(log)[..], text);
    for lent in 0..=length + 5 {
        let mut buffer = vec![BYTE; length + 10];
        let answer = archive::print_log(log, &mut buffer, lent);
        let put = lent.min(length);
        let kept = [&text.as_bytes()[..put], &vec![BYTE; length + 10 - put]].concat();
        group.same(&inputs, (answer, buffer), (length as i64, kept));
    }
}

/// A log that prints these lines and is then refused so, by reading, printing and walking alike.
fn told(group: &mut Group, log: &[u8], lines: &[&str], refusal: i64, place: i64) {
    reading_refused(group, log, 3, refusal, place);
    let text = lines.concat() + &format!("refused {refusal} at {place}\n");
    printed(group, log, &text);
    let mut cursor = Cursor::default();
    for _ in lines {
        cursor = walked(group, log, cursor, 0, 0);
    }
    walk_ends(group, log, cursor, refusal, place);
}

/// B's log, cut off, and with one byte changed: what reading, printing and walking make of it.
fn damaged() -> u64 {
    let mut group = Group::new("logs, one byte of B's changed, and cut off");
    let lines = ["5 4 4 1 2\n", "0 1 0\n", "end 1\n"];
    // B's log: head 0..8, block 8..13, end 13..18.
    for (length, commands, place) in [
        (0, 0, 0),
        (7, 0, 0),
        (8, 1, 8),
        (12, 1, 8),
        (13, 2, 13),
        (17, 2, 13),
    ] {
        let log = &LOG_OF_B[..length];
        told(&mut group, log, &lines[..commands], 13, place);
    }
    let mut changed = |at: usize, byte, length: usize, commands: usize, refusal| {
        let mut log = [LOG_OF_B, &[0]].concat();
        log[at] = byte;
        let place = [0, 8, 13, 18][commands];
        let log = &log[..length];
        told(&mut group, log, &lines[..commands], refusal, place);
    };
    for unknown in [0, 7, 8, 128, 255] {
        changed(0, unknown, 18, 0, 14);
        changed(8, unknown, 18, 1, 14);
        changed(13, unknown, 18, 2, 14);
    }
    // Not due: a block and an end first, a second head, an end and a block too early or too late. 14 comes before 13.
    changed(0, 2, 18, 0, 14);
    changed(0, 4, 1, 0, 14);
    changed(8, 1, 18, 1, 14);
    changed(8, 6, 18, 1, 14);
    changed(8, 4, 18, 1, 14);
    changed(13, 3, 18, 2, 14);
    changed(0, 5, 18, 0, 14);
    changed(13, 5, 18, 2, 14);
    changed(13, 6, 14, 2, 14);
    // Width 3, height 1,028, N 8, w 17, search 0, search 3; 13 before 15.
    changed(2, 3, 18, 0, 15);
    changed(3, 4, 18, 0, 15);
    changed(5, 8, 18, 0, 15);
    changed(6, 17, 18, 0, 15);
    changed(7, 0, 18, 0, 15);
    changed(7, 3, 18, 0, 15);
    changed(7, 0, 7, 0, 13);
    // dx 2, dx -1, dy 1, distortion 4,096, a still block as command 2; 13 before 16.
    changed(10, 2, 18, 1, 16);
    changed(10, 255, 18, 1, 16);
    changed(9, 1, 18, 1, 16);
    changed(11, 16, 18, 1, 16);
    changed(10, 0, 18, 1, 16);
    changed(10, 2, 12, 1, 13);
    // Command 5 in place of 2: it has 1,024 for its distortion, or bytes too few.
    changed(8, 5, 18, 1, 16);
    changed(8, 5, 14, 1, 13);
    // An end of 0 and of 16,777,217; a byte behind the end; 17 before 18.
    changed(17, 0, 18, 2, 17);
    changed(14, 1, 18, 2, 17);
    changed(18, 0, 19, 3, 18);
    changed(17, 2, 19, 2, 17);
    // Command 6 in place of 1 takes the block's command byte for its measure, 2.
    let log = with(LOG_OF_B, 0, &[6]);
    told(&mut group, &log, &["5 4 4 1 2 2\n"], 14, 9);
    group.end()
}

/// A log with commands 5 and 6 likewise: one block of N 32 by squares with (0,0) and 66,585,600.
fn long_damaged() -> u64 {
    let mut group = Group::new("logs, one byte of commands 5 and 6 changed, and cut off");
    let lines = ["32 32 32 16 2 2\n", "0 0 66585600\n", "end 1\n"];
    let whole = [
        &[6, 0, 32, 0, 32, 32, 16, 2, 2][..],
        &[5, 0, 0, 3, 248, 4, 0],
        &[4, 0, 0, 0, 1],
    ]
    .concat();
    printed(&mut group, &whole, &lines.concat());
    let places = [0, 9, 16, 21];
    for length in 0..21 {
        let commands = places[1..].iter().filter(|&&end| end <= length).count();
        let log = &whole[..length];
        let place = places[commands] as i64;
        told(&mut group, log, &lines[..commands], 13, place);
    }
    let mut changed = |at: usize, bytes: &[u8], commands: usize, refusal| {
        let log = with(&whole, at, bytes);
        let place = places[commands] as i64;
        told(&mut group, &log, &lines[..commands], refusal, place);
    };
    for command in [0, 2, 3, 4, 5, 7, 8, 255] {
        changed(0, &[command], 0, 14);
    }
    for command in [0, 1, 4, 6, 7, 8, 255] {
        changed(9, &[command], 1, 14);
    }
    for command in [0, 1, 2, 3, 5, 6, 7, 8, 255] {
        changed(16, &[command], 2, 14);
    }
    // Width 1,056, height 31, N 33, w 17, search 5; every measure but 2.
    changed(1, &[4], 0, 15);
    changed(4, &[31], 0, 15);
    changed(5, &[33], 0, 15);
    changed(6, &[17], 0, 15);
    changed(7, &[5], 0, 15);
    for measure in (0..=255).filter(|&measure| measure != 2) {
        changed(8, &[measure], 0, 15);
    }
    // A vector; distortions of 0, 1, 65,535 and 66,585,601, and of more than four bytes hold with a sign.
    changed(10, &[1], 1, 16);
    changed(11, &[255], 1, 16);
    changed(12, &[0, 0, 0, 0], 1, 16);
    changed(12, &[0, 0, 0, 1], 1, 16);
    changed(12, &[0, 0, 255, 255], 1, 16);
    changed(12, &[3, 248, 4, 1], 1, 16);
    changed(12, &[128], 1, 16);
    changed(12, &[255, 255, 255, 255], 1, 16);
    changed(20, &[0], 2, 17);
    // Command 1 in place of 6 leaves the measure, 2, for the first block's command byte: dy 5.
    let log = with(&whole, 0, &[1]);
    told(&mut group, &log, &["32 32 32 16 2\n"], 16, 8);
    group.end()
}

/// The texts of whole logs, and of logs of 65,536 bytes and one more.
fn texts() -> u64 {
    let mut group = Group::new("logs, texts");
    printed(&mut group, LOG_OF_B, "5 4 4 1 2\n0 1 0\nend 1\n");
    let text = "8 8 4 1 2\n0 0 0\n0 0 0\n0 0 0\n0 0 0\nend 4\n";
    printed(&mut group, LOG_OF_C, text);

    // The greatest numbers: a column of three blocks with N 16 and w 16. (0,0) is no still block where it has a distortion.
    let far = [
        [1, 0, 16, 0, 48, 16, 16, 1].to_vec(),
        [2, 16, 0, 255, 0, 2, 240, 0, 0, 0, 2, 0, 0, 0, 1].to_vec(),
        [4, 0, 0, 0, 3].to_vec(),
    ]
    .concat();
    let (head, list) = (
        head_of(16, 48, 16, 16, 1),
        [16, 0, 65_280, -16, 0, 0, 0, 0, 1],
    );
    log_written(&mut group, head, &list, &far);
    let mut read = [NUMBER; 9];
    let answer = archive::read_log(&far, &mut read, 9);
    let wanted = LogRead {
        head,
        ..LogRead::default()
    };
    group.same("the greatest numbers", (answer, read), (wanted, list));
    let text = "16 48 16 16 1\n16 0 65280\n-16 0 0\n0 0 1\nend 3\n";
    printed(&mut group, &far, text);
    // The same with N 32, by both measures. Distortions just as large as a command 2 has, and one more.
    let head = head_of(32, 96, 32, 16, 1);
    let list = [16, 0, 261_120, -16, 0, 65_535, 0, 0, 65_536];
    let blocks = [
        &[5, 16, 0, 0, 3, 252, 0][..],
        &[2, 240, 0, 255, 255],
        &[5, 0, 0, 0, 1, 0, 0],
        &[4, 0, 0, 0, 3],
    ]
    .concat();
    let far = [&[1, 0, 32, 0, 96, 32, 16, 1], &blocks[..]].concat();
    log_written(&mut group, head, &list, &far);
    let text = "32 96 32 16 1\n16 0 261120\n-16 0 65535\n0 0 65536\nend 3\n";
    printed(&mut group, &far, text);
    let far = [&[6, 0, 32, 0, 96, 32, 16, 1, 2], &blocks[..]].concat();
    log_written(&mut group, Head { measure: 2, ..head }, &list, &far);
    let text = "32 96 32 16 1 2\n16 0 261120\n-16 0 65535\n0 0 65536\nend 3\n";
    printed(&mut group, &far, text);
    let large = [1, 4, 0, 4, 0, 4, 16, 2, 3];
    let text = "1024 1024 4 16 2\n0 0 0\nrefused 13 at 9\n";
    printed(&mut group, &large, text);

    let zeros = vec![0; 65_537];
    printed(&mut group, &zeros[..65_536], "refused 14 at 0\n");
    printed(&mut group, &zeros, "refused 20 at 65536\n");
    let long = [LOG_OF_B, &zeros[18..]].concat();
    let text = "5 4 4 1 2\n0 1 0\nend 1\nrefused 18 at 18\n";
    printed(&mut group, &long[..65_536], text);
    printed(&mut group, &long, "refused 20 at 65536\n");
    reading_refused(&mut group, &long, 3, 18, 18);
    group.end()
}

/// All edges of writing, reading and printing; answers with the number of mismatches.
pub fn run() -> u64 {
    heads_written()
        + entries_written()
        + order_of_writing()
        + order_of_reading()
        + order_of_reading_long()
        + damaged()
        + long_damaged()
        + texts()
}
