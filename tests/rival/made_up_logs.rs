//! Logs made up by chance from fixed seeds: of fields of every kind, whole, spoilt in one number, damaged in their bytes, cut off
//! anywhere; and cursors built by hand. Each is put to every call that takes logs.

use crate::archive;
use crate::fields::{few_blocks, good_request, lend_for, length_around};
use crate::group::Group;
use crate::log_calls::{bytes, numbers, same_places, Case, Logs};
use crate::logs::{
    self, block_values, blocks_of, bytes_of, largest_distortion, refused_head, size_of,
};
use crate::pictures::{Chance, KINDS};
use crate::question::{Cursor, Head, LogRead, SIZES};

/// A window that the search takes.
fn window(chance: &mut Chance, search: u32) -> usize {
    match search {
        1 | 2 => chance.between(0, 16) as usize,
        3 => 7,
        _ => chance.one_of(&[2, 4, 8, 16]),
    }
}

/// A head that is accepted: mostly of a few blocks, sometimes of a long row or column of them.
fn good_head(chance: &mut Chance) -> Head {
    let n = chance.one_of(&SIZES);
    let most = (1024 / n) as i64;
    let (down, across) = match chance.between(0, 39) {
        0 => (chance.between(1, most), 1),
        1 => (1, chance.between(1, most)),
        2 => (most.min(chance.between(1, 20)), chance.between(1, 20)),
        _ => (chance.between(1, 5), chance.between(1, 5)),
    };
    let side = |chance: &mut Chance, blocks: i64| {
        (blocks as usize * n + chance.between(0, n as i64 - 1) as usize).min(1024)
    };
    let search = chance.between(1, 4) as u32;
    Head {
        width: side(chance, across),
        height: side(chance, down),
        n,
        w: window(chance, search),
        search,
        measure: chance.one_of(&[1, 2]),
    }
}

/// The ends between which a part of block k's vectors lies.
pub fn reach(size: usize, n: usize, w: usize, place: usize) -> (i64, i64) {
    let (size, n, w, place) = (size as i64, n as i64, w as i64, place as i64);
    ((-w).max(-place), w.min(size - n - place))
}

/// An entry of block k that is accepted: a vector at the ends of its reach or anywhere in it, and a distortion likewise.
fn good_entry(chance: &mut Chance, head: &Head, k: usize) -> [i32; 3] {
    let &Head {
        width,
        height,
        n,
        w,
        ..
    } = head;
    let across = width / n;
    let mut part = |(from, to): (i64, i64)| match chance.between(0, 3) {
        0 => from,
        1 => to,
        _ => chance.between(from, to),
    };
    let dy = part(reach(height, n, w, k / across * n));
    let dx = part(reach(width, n, w, k % across * n));
    let most = largest_distortion(head);
    let distortion = match chance.between(0, 5) {
        0 => chance.one_of(&[most, most - 1]),
        1 => chance.one_of(&[0, 1, 255, 256]),
        // The ends of what commands 2 and 5 carry.
        2 => chance.one_of(&[65_535, 65_536, 65_537]).min(most),
        3 => chance.between(0, most.min(65_535)),
        _ => chance.between(0, most),
    };
    [dy, dx, distortion].map(|value| value as i32)
}

/// A list that is accepted, with many still blocks, some or hardly any.
fn good_list(chance: &mut Chance, head: &Head) -> Vec<i32> {
    let still = chance.one_of(&[0, 50, 90, 100]);
    let mut list = Vec::new();
    for k in 0..blocks_of(head) {
        if chance.between(0, 99) < still {
            list.extend([0, 0, 0]);
        } else {
            list.extend(good_entry(chance, head, k));
        }
    }
    list
}

/// A log that is accepted, with its head.
pub fn good_log(chance: &mut Chance) -> (Head, Vec<u8>) {
    let head = good_head(chance);
    let list = good_list(chance, &head);
    let log = bytes_of(&head, &list);
    (head, log)
}

/// One number of a head set wrong, or at least elsewhere.
fn spoil_head(chance: &mut Chance, head: &mut Head) {
    let far = [usize::MAX, 1 << 63, 1 << 32, (1 << 32) + 8, 65_536 + 8];
    let size = [0, 3, 4, 7, 15, 1024, 1025, 65_535];
    match chance.between(0, 7) {
        0 => head.width = chance.one_of(&size),
        1 => head.height = chance.one_of(&size),
        2 => head.n = chance.one_of(&[0, 1, 5, 8, 12, 16, 17, 24, 32, 33, 64, 260, 288]),
        3 => head.w = chance.one_of(&[3, 6, 7, 8, 16, 17, 32, 258, 263]),
        4 => head.search = chance.one_of(&[0, 3, 4, 5, 255, 257, 1 << 31, u32::MAX]),
        5 => head.measure = chance.one_of(&[0, 1, 2, 3, 255, 257, 258, 65_537, 1 << 31, u32::MAX]),
        6 => head.width = chance.one_of(&far),
        _ => {
            let part = [&mut head.height, &mut head.n, &mut head.w];
            *part[chance.between(0, 2) as usize] = chance.one_of(&far);
        }
    }
}

/// One number of block k's entry set wrong: just or far past an end, or by so much that its bytes stay the same.
fn spoil_entry(chance: &mut Chance, head: &Head, k: usize, entry: &mut [i32]) {
    let across = head.width / head.n;
    let part = |chance: &mut Chance, size: usize, place: usize, good: i32| {
        let (from, to) = reach(size, head.n, head.w, place);
        match chance.between(0, 5) {
            0 => from as i32 - 1,
            1 => to as i32 + 1,
            2 => good + chance.one_of(&[256, -256, 65_536, -65_536]),
            3 => chance.one_of(&[127, -128, 128, -127, i32::MIN, i32::MAX]),
            4 => chance.one_of(&[-17, 17, head.w as i32 + 1, -(head.w as i32) - 1]),
            _ => chance.between(-20, 20) as i32,
        }
    };
    let most = largest_distortion(head) as i32;
    match chance.between(0, 2) {
        0 => entry[0] = part(chance, head.height, k / across * head.n, entry[0]),
        1 => entry[1] = part(chance, head.width, k % across * head.n, entry[1]),
        _ => {
            let good = entry[2];
            let far = [-1, most + 1, 65_535, i32::MIN, i32::MAX, good - 65_536];
            entry[2] = match chance.between(0, 6) {
                6 => good + 65_536,
                i => far[i as usize],
            }
        }
    }
}

/// Fields of every kind, some spoilt in one thing or two; those that are written are looked at as logs.
fn written(logs: &mut Logs) {
    for seed in 300_000..310_000 {
        let chance = &mut Chance::new(seed);
        let mut head = good_head(chance);
        let mut list = good_list(chance, &head);
        let needed = bytes_of(&head, &list).len();
        let extra = chance.one_of(&[0, 0, 1, 2, 3, 50]);
        list.extend(numbers(chance, extra));
        for _ in 0..chance.one_of(&[0, 0, 0, 1, 2]) {
            match chance.between(0, 9) {
                0..=2 => spoil_head(chance, &mut head),
                3 => list.truncate(chance.between(0, list.len() as i64) as usize),
                _ if refused_head(&head) != 0 || list.len() < 3 * blocks_of(&head) => {}
                _ => {
                    let k = chance.between(0, blocks_of(&head) as i64 - 1) as usize;
                    spoil_entry(chance, &head, k, &mut list[3 * k..3 * k + 3]);
                }
            }
        }
        let buffer_length = length_around(chance, needed);
        let log = logs.write(chance, seed, &head, &list, buffer_length);
        if !log.is_empty() {
            logs.look_at(chance, "written", seed, &log);
        }
    }
}

/// Fields of made-up pairs by all searches and by both measures, as the field call lists them: written, and read back as they were.
fn of_fields(logs: &mut Logs) -> u64 {
    let mut group = Group::new("logs of fields");
    for seed in 310_000..312_000 {
        let chance = &mut Chance::new(seed);
        let (kind, _) = KINDS[seed as usize % KINDS.len()];
        let n = chance.one_of(&[4, 4, 8, 16, 32]);
        let search = chance.between(1, 4) as u32;
        let measure = chance.one_of(&[1, 2]);
        let request = good_request(chance, n, search, measure);
        let pair = few_blocks(chance, kind, n, request.w);
        let mut lent = lend_for(chance, &pair, &request);
        if archive::field(&pair, &request, &mut lent).refusal != 0 {
            continue;
        }
        let head = Head {
            width: pair.width,
            height: pair.height,
            n,
            w: request.w,
            search,
            measure,
        };
        let list = &lent.list[..3 * blocks_of(&head)];
        let buffer_length = bytes_of(&head, list).len();
        let log = logs.write(chance, seed, &head, list, buffer_length);
        let mut read = vec![0; list.len()];
        let read_length = read.len();
        let answer = archive::read_log(&log, &mut read, read_length);
        let inputs = format!("{pair}, {request}, seed {seed}");
        let wanted = LogRead {
            head,
            ..LogRead::default()
        };
        group.same(&inputs, answer, wanted);
        same_places(&mut group, &inputs, &read, list);
        logs.look_at(chance, "of a field", seed, &log);
    }
    group.end()
}

// ---- damaged logs

/// The offsets of a log's commands, as far as it is accepted.
fn offsets(log: &[u8]) -> Vec<usize> {
    let mut all = Vec::new();
    let mut cursor = Cursor::default();
    loop {
        let walked = logs::walk(log, cursor);
        if walked.refusal != 0 {
            return all;
        }
        all.push(cursor.at);
        cursor = walked.next;
    }
}

/// A block as command 2 or 5, whether its distortion is one for that or not.
fn block_command(command: u8, dy: u8, dx: u8, distortion: u32) -> Vec<u8> {
    let distortion = distortion.to_be_bytes();
    let from = if command == 5 { 0 } else { 2 };
    [&[command, dy, dx], &distortion[from..]].concat()
}

/// A command by chance, with operands that may fit the head.
fn any_command(chance: &mut Chance, head: &Head) -> Vec<u8> {
    let blocks = blocks_of(head);
    match chance.between(0, 9) {
        0 => {
            let log = bytes_of(head, &[]);
            log[..size_of(log[0])].to_vec()
        }
        1 => {
            let number = blocks as u32 + chance.between(0, 2) as u32;
            [&[4], &number.to_be_bytes()[..]].concat()
        }
        2 => vec![chance.next() as u8],
        3..=5 => vec![3],
        _ => {
            let k = chance.between(0, blocks as i64 - 1) as usize;
            let [dy, dx, distortion] = good_entry(chance, head, k);
            let command = if distortion > 65_535 { 5 } else { 2 };
            let command = chance.one_of(&[command, command, 2, 5]);
            block_command(command, dy as u8, dx as u8, distortion as u32)
        }
    }
}

/// Damages a log in one way, and names it.
fn damage(chance: &mut Chance, head: &Head, log: &mut Vec<u8>) -> &'static str {
    let offsets = offsets(log);
    let place = |chance: &mut Chance, length: usize| chance.between(0, length as i64 - 1) as usize;
    match chance.between(0, 15) {
        0 | 1 if !log.is_empty() => {
            let at = place(chance, log.len());
            log[at] = match chance.between(0, 2) {
                0 => chance.next() as u8,
                1 => log[at].wrapping_add(chance.one_of(&[1, 255])),
                _ => chance.between(0, 8) as u8,
            };
            "a byte changed"
        }
        2 if !log.is_empty() => {
            log.truncate(place(chance, log.len()));
            "bytes cut off"
        }
        3 => {
            let added = chance.between(1, 9) as usize;
            log.extend(bytes(chance, added));
            "bytes added"
        }
        4 => {
            let head = good_head(chance);
            let list = good_list(chance, &head);
            log.extend(bytes_of(&head, &list));
            "another log joined"
        }
        5 if offsets.len() > 1 => {
            let (one, other) = (chance.one_of(&offsets), chance.one_of(&offsets));
            log.swap(one, other);
            "command bytes swapped"
        }
        6 => {
            let length = chance.between(1, 60) as usize;
            *log = bytes(chance, length);
            log[0] = chance.one_of(&[log[0], 1, 1, 6]);
            "random bytes"
        }
        7 => {
            log.clear();
            "nothing left"
        }
        8 => {
            log.truncate(size_of(*log.first().unwrap_or(&1)));
            for _ in 0..chance.between(1, 12) {
                log.extend(any_command(chance, head));
            }
            "commands by chance"
        }
        9 if !offsets.is_empty() => {
            let at = chance.one_of(&offsets);
            let command = any_command(chance, head);
            log.splice(at..at, command);
            "a command put in"
        }
        10 if offsets.len() > 1 => {
            let i = place(chance, offsets.len() - 1);
            log.drain(offsets[i]..offsets[i + 1]);
            "a command taken out"
        }
        11 if log.len() >= 9 => {
            let at = 1 + place(chance, 8);
            log[at] = chance.one_of(&[0, 1, 2, 3, 4, 7, 8, 16, 17, 32, 255]);
            "a head's byte changed"
        }
        12 if log.len() >= 4 => {
            let at = log.len() - 1 - place(chance, 4);
            log[at] ^= chance.one_of(&[1, 2, 128, 255]);
            "an end's byte changed"
        }
        13 if log.len() >= 9 && (log[0] == 1 || log[0] == 6) => {
            let numbers = log[1..8].to_vec();
            let head = match log[0] {
                1 => [&[6], &numbers[..], &[chance.one_of(&[0, 1, 2, 2, 3])]].concat(),
                _ => [&[1], &numbers[..]].concat(),
            };
            log.splice(..size_of(log[0]), head);
            "the other command for the head"
        }
        turn => {
            let block = |at: &usize| log[*at] == 2 || log[*at] == 5;
            let at: Vec<usize> = offsets.into_iter().filter(block).collect();
            if at.is_empty() {
                return "nothing";
            }
            let at = chance.one_of(&at);
            let size = size_of(log[at]);
            if turn == 14 {
                let [_, _, distortion] = block_values(&log[at..]);
                let other = if log[at] == 2 { 5 } else { 2 };
                let block = block_command(other, log[at + 1], log[at + 2], distortion as u32);
                log.splice(at..at + size, block);
                return "the other command for a block";
            }
            let operand = 1 + place(chance, size - 1);
            match chance.between(0, 3) {
                0 => log[at + 1..at + size].fill(0),
                1 => log[at + operand] = chance.between(-18, 18) as u8,
                2 => log[at + 3..at + size].fill(255),
                _ => log[at + operand] = chance.next() as u8,
            }
            "a block's operand changed"
        }
    }
}

/// A log damaged once or more, and what was done last.
pub fn damaged_log(chance: &mut Chance) -> (&'static str, Vec<u8>) {
    let (head, mut log) = good_log(chance);
    let mut what = damage(chance, &head, &mut log);
    for _ in 0..chance.one_of(&[0, 0, 0, 1, 2]) {
        what = damage(chance, &head, &mut log);
    }
    (what, log)
}

fn damaged(logs: &mut Logs) {
    for seed in 400_000..480_000 {
        let chance = &mut Chance::new(seed);
        let (what, log) = damaged_log(chance);
        logs.look_at(chance, what, seed, &log);
    }
}

/// Every front of a few logs, from none of its bytes to all.
fn fronts(logs: &mut Logs) {
    for seed in 320_000..320_100 {
        let chance = &mut Chance::new(seed);
        let (_, log) = good_log(chance);
        for length in 0..=log.len().min(300) {
            logs.look_at(chance, "a front of a log", seed, &log[..length]);
        }
    }
}

// ---- cursors built by hand

/// A cursor in any state: one that a walk has, the same with one thing changed, or numbers by chance.
fn any_cursor(chance: &mut Chance, head: &Head, log: &[u8]) -> Cursor {
    let offsets = offsets(log);
    let last = log.len() as i64;
    let blocks = blocks_of(head);
    let mut cursor = Cursor {
        at: chance.between(0, last) as usize,
        phase: chance.one_of(&[0, 1, 1, 1, 1, 2]),
        head: *head,
        blocks: chance.between(0, blocks as i64) as usize,
    };
    if !offsets.is_empty() && chance.between(0, 3) > 0 {
        let i = chance.between(0, offsets.len() as i64 - 1) as usize;
        cursor.at = offsets[i];
        cursor.blocks = i.saturating_sub(1).min(blocks);
    }
    for _ in 0..chance.one_of(&[0, 1, 1, 2]) {
        match chance.between(0, 4) {
            0 => {
                cursor.at =
                    chance.one_of(&[0, log.len(), log.len() + 1, usize::MAX, usize::MAX - 4])
            }
            1 => cursor.phase = chance.one_of(&[0, 1, 2, 3, 4, 255, 256, 257, 1 << 31, u32::MAX]),
            2 => spoil_head(chance, &mut cursor.head),
            3 => {
                cursor.blocks =
                    chance.one_of(&[0, blocks, blocks + 1, usize::MAX, 1 << 63, 1 << 32])
            }
            _ => cursor.blocks = chance.between(0, blocks as i64 + 1) as usize,
        }
    }
    cursor
}

/// Calls of the walker from cursors built by hand, and a few calls on.
fn cursors(logs: &mut Logs) {
    for seed in 330_000..370_000 {
        let chance = &mut Chance::new(seed);
        let (head, mut log) = good_log(chance);
        if chance.between(0, 2) == 0 {
            damage(chance, &head, &mut log);
        }
        for _ in 0..8 {
            let mut cursor = any_cursor(chance, &head, &log);
            let case = Case {
                what: "cursor built by hand",
                seed,
                log: &log,
            };
            for _ in 0..4 {
                cursor = logs.one_call(&case, cursor).next;
            }
        }
    }
}

/// All made-up logs; answers with the number of mismatches of the groups that end here.
pub fn run(logs: &mut Logs) -> u64 {
    written(logs);
    damaged(logs);
    fronts(logs);
    cursors(logs);
    of_fields(logs)
}
