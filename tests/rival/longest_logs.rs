//! The longest logs: of the most blocks there are, still or at the ends of their reach, by both measures, and of 65,536 bytes and one more,
//! with the expected lengths written down here.

use crate::archive;
use crate::group::Group;
use crate::log_calls::{Logs, TEXT_MOST};
use crate::logs::{blocks_of, bytes_of, largest_distortion};
use crate::made_up_logs::reach;
use crate::pictures::Chance;
use crate::question::{Head, LogRead, Written};

/// A field of so many still blocks, and behind them blocks whose vectors and distortions stand at their ends: by absolute each is command 2,
/// by squares each command 5.
fn still_then_far(head: &Head, still: usize) -> Vec<i32> {
    let mut list = Vec::new();
    let across = head.width / head.n;
    let most = largest_distortion(head) as i32;
    let (least, one_more) = match head.measure {
        1 => (255, 256),
        _ => (65_536, 65_537),
    };
    for k in 0..blocks_of(head) {
        let up = reach(head.height, head.n, head.w, k / across * head.n);
        let along = reach(head.width, head.n, head.w, k % across * head.n);
        list.extend(match (k < still, k % 4) {
            (true, _) => [0, 0, 0],
            (_, 0) => [up.0 as i32, along.0 as i32, most],
            (_, 1) => [up.0 as i32, along.1 as i32, most - 1],
            (_, 2) => [up.1 as i32, along.0 as i32, least],
            _ => [up.1 as i32, along.1 as i32, one_more],
        });
    }
    list
}

/// The most blocks there are, by absolute.
const MOST_BLOCKS: Head = Head {
    width: 1024,
    height: 1024,
    n: 4,
    w: 16,
    search: 2,
    measure: 1,
};

/// And by squares.
const BY_SQUARES: Head = Head {
    measure: 2,
    ..MOST_BLOCKS
};

/// Accepted logs of 65,536 bytes: 253 × 255 blocks, 252 of them no still blocks, and by squares 256 × 254 blocks, 83 of them no still
/// blocks. The line of each end.
pub fn logs_of_65536() -> [(Vec<u8>, &'static str); 2] {
    let head = Head {
        width: 1023,
        height: 1012,
        ..MOST_BLOCKS
    };
    let squares = Head {
        height: 1019,
        ..BY_SQUARES
    };
    let log = |head: Head, far: usize| {
        let still = blocks_of(&head) - far;
        bytes_of(&head, &still_then_far(&head, still))
    };
    [
        (log(head, 252), "\nend 64515\n"),
        (log(squares, 83), "\nend 65024\n"),
    ]
}

/// Still blocks alone, as many as there can be: a log of 65,549 bytes. No text is longer for its bytes.
pub fn still_log() -> Vec<u8> {
    bytes_of(&MOST_BLOCKS, &[0; 3 * 65_536])
}

/// The most blocks there are, with a head and with blocks other than still ones of these lengths.
fn most_blocks(logs: &mut Logs, group: &mut Group, head: Head, head_size: usize, far_size: usize) {
    let chance = &mut Chance::new(399_000);
    let blocks = blocks_of(&head);
    group.same("the grid of 1,024 × 1,024 with N 4", blocks, 65_536);
    for still in [0, 1, blocks / 2, blocks - 1, blocks] {
        let list = still_then_far(&head, still);
        let length = head_size + still + far_size * (blocks - still) + 5;
        let log = logs.write(chance, still as u64, &head, &list, length);
        group.same("the most blocks there are", log.len(), length);
        logs.write(chance, still as u64, &head, &list, length - 1);
        logs.look_at(chance, "the most blocks there are", still as u64, &log);
        for cut in [65_535, 65_536, 65_537, length - 1, length - 5] {
            let front = &log[..cut];
            logs.look_at(chance, "the front of a long log", cut as u64, front);
        }
        // The last block alone is wrong, or the first.
        for (k, value) in [(blocks - 1, 17), (0, -1)] {
            let mut list = list.clone();
            list[3 * k] = value;
            let mut buffer = vec![0; length + 4];
            let answer = archive::write_log(&head, &list, &mut buffer, length + 4);
            let wanted = Written {
                refusal: 16,
                place: k as i64,
                length: 0,
            };
            group.same("one block of the most there are wrong", answer, wanted);
        }
    }
}

/// An accepted log of 65,536 bytes that prints this last line, and the same with a byte behind it.
fn at_most(logs: &mut Logs, group: &mut Group, log: Vec<u8>, end: &str) {
    let chance = &mut Chance::new(399_001);
    group.same("a log of 65,536 bytes", log.len(), 65_536);
    let joined = [&log[..], &[0]].concat();
    let mut text = vec![0; TEXT_MOST as usize];
    for (log, wanted) in [(&log, end), (&joined, "refused 20 at 65536\n")] {
        for seed in 0..4 {
            logs.look_at(chance, "65,536 bytes or one more", seed, log);
        }
        let lent = text.len();
        let length = archive::print_log(log, &mut text, lent) as usize;
        let end = &text[length.saturating_sub(wanted.len())..length];
        group.same("65,536 bytes or one more", end, wanted.as_bytes());
        if log.len() > 65_536 {
            group.same("20 is printed alone", length, wanted.len());
        }
    }
    let mut list = vec![5; 3 * 65_536];
    let list_length = list.len();
    let answer = archive::read_log(&joined, &mut list, list_length);
    let wanted = LogRead {
        refusal: 18,
        place: 65_536,
        ..LogRead::default()
    };
    group.same("a byte behind 65,536", answer, wanted);
}

/// All of them; answers with the number of mismatches of the group that ends here.
pub fn run(logs: &mut Logs) -> u64 {
    let mut group = Group::new("logs, the longest");
    most_blocks(logs, &mut group, MOST_BLOCKS, 8, 5);
    most_blocks(logs, &mut group, BY_SQUARES, 9, 7);
    for (log, end) in logs_of_65536() {
        at_most(logs, &mut group, log, end);
    }
    group.end()
}
