//! The walker at the edges, with the expected numbers written down here: every command byte in every phase, heads, vectors,
//! distortions and ends at and past their ends, whole walks, and cursors built by hand.

use crate::archive;
use crate::group::Group;
use crate::log_calls::Case;
use crate::logs::{self, blocks_of, bytes_of};
use crate::question::{Cursor, Head, Walked, MEASURES, NO_MEASURES, SIZES};
use crate::worked::{HEAD_OF_B, HEAD_OF_C, LOG_OF_B, LOG_OF_C};

/// One call of the walker: both sides must answer with this refusal and this place, and alike in all else. Hands back the cursor for
/// the next call.
pub fn walked(group: &mut Group, log: &[u8], cursor: Cursor, refusal: i64, place: i64) -> Cursor {
    let case = Case {
        what: "edge",
        seed: 0,
        log,
    };
    let (answer, wanted) = (archive::walk(log, cursor), logs::walk(log, cursor));
    for side in [answer, wanted] {
        let got = (side.refusal, side.place);
        group.same(format_args!("{case}, {cursor:?}"), got, (refusal, place));
    }
    group.same(format_args!("{case}, {cursor:?}"), answer, wanted);
    answer.next
}

/// One that is refused so, and two calls more, which find the walk over.
pub fn walk_ends(group: &mut Group, log: &[u8], cursor: Cursor, refusal: i64, place: i64) {
    let mut cursor = walked(group, log, cursor, refusal, place);
    for _ in 0..2 {
        cursor = walked(group, log, cursor, 34, 0);
    }
}

/// 8 × 4 with N 4 and w 4: two blocks.
pub const TWO_BLOCKS: Head = Head {
    width: 8,
    height: 4,
    n: 4,
    w: 4,
    search: 2,
    measure: 1,
};

/// A walker among the blocks of this head, at the front of its log.
fn among(head: Head, blocks: usize) -> Cursor {
    Cursor {
        at: 0,
        phase: 1,
        head,
        blocks,
    }
}

/// Every command byte in every phase, with from none to all of its bytes: "at one command 14, then 13, then the rest".
fn commands((measure, by): (u32, &str)) -> u64 {
    let mut group = Group::new(format!("logs, {by}, every command byte in every phase"));
    let among = Head {
        measure,
        ..TWO_BLOCKS
    };
    let head = &bytes_of(&TWO_BLOCKS, &[])[1..8];
    let with_measure = &[head, &[2]].concat();
    for at in [0, 3, 70_000] {
        for command in 0..=255 {
            let operands = match command {
                1 => head,
                2 => &[0, 0, 0, 1],
                4 => &[0, 0, 0, 2],
                5 => &[0, 0, 0, 1, 0, 0],
                6 => with_measure,
                _ => &[],
            };
            let size = 1 + operands.len();
            for length in 0..=size + 1 {
                let whole = [&[command], operands, &[9]].concat();
                let log = [&vec![7; at][..], &whole[..length]].concat();
                let place = at as i64;
                for (phase, blocks, due) in [
                    (0, 0, &[1, 6][..]),
                    (0, usize::MAX, &[1, 6]),
                    (1, 0, &[2, 3, 5]),
                    (1, 1, &[2, 3, 5]),
                    (1, 2, &[4]),
                ] {
                    let refusal = if length == 0 {
                        13
                    } else if !due.contains(&command) {
                        14
                    } else if length < size {
                        13
                    } else if command == 5 && measure == 1 {
                        // By absolute N 4 has no distortion of 65,536.
                        16
                    } else {
                        0
                    };
                    let cursor = Cursor {
                        at,
                        phase,
                        head: among,
                        blocks,
                    };
                    let place = if refusal == 0 { 0 } else { place };
                    walked(&mut group, &log, cursor, refusal, place);
                }
                let after = |phase| Cursor {
                    at,
                    phase,
                    ..Cursor::default()
                };
                let (refusal, place) = if length == 0 { (34, 0) } else { (18, place) };
                walked(&mut group, &log, after(2), refusal, place);
                for phase in [3, 4, 256, u32::MAX] {
                    walked(&mut group, &log, after(phase), 34, 0);
                }
            }
        }
    }
    group.end()
}

/// Refusal 15, and 34 of the same head numbers in a cursor: sizes, N, searches, windows and measures at and past their ends.
fn heads() -> u64 {
    let mut group = Group::new("logs, heads");
    let sizes: [usize; 14] = [0, 3, 4, 7, 8, 15, 16, 31, 32, 255, 256, 1024, 1025, 65_535];
    let mut judged = |head: Head| {
        let Head {
            width,
            height,
            n,
            w,
            search,
            measure,
        } = head;
        let sizes = 4..=1024;
        let fits = sizes.contains(&width) && sizes.contains(&height) && n <= width.min(height);
        let taken = match search {
            1 | 2 => w <= 16,
            3 => w == 7,
            4 => [2, 4, 8, 16].contains(&w),
            _ => false,
        };
        let good = fits && SIZES.contains(&n) && taken;
        let of_sizes = [(width as u16).to_be_bytes(), (height as u16).to_be_bytes()].concat();
        let numbers = [&of_sizes[..], &[n as u8, w as u8, search as u8]].concat();
        // Command 1 has no measure; command 6 has 2 alone.
        let refusal = if good { 0 } else { 15 };
        let log = [&[1], &numbers[..]].concat();
        walked(&mut group, &log, Cursor::default(), refusal, 0);
        let refusal = if good && measure == 2 { 0 } else { 15 };
        let log = [&[6], &numbers[..], &[measure as u8]].concat();
        walked(&mut group, &log, Cursor::default(), refusal, 0);
        let good = good && (measure == 1 || measure == 2);
        let refusal = if good { 0 } else { 34 };
        walked(&mut group, &[3], among(head, 0), refusal, 0);
    };
    for width in sizes {
        for height in sizes {
            for n in [0, 1, 3, 4, 5, 8, 12, 15, 16, 17, 24, 31, 32, 33, 64, 255] {
                for (search, w, measure) in [
                    (1, 0, 1),
                    (2, 16, 2),
                    (3, 7, 2),
                    (4, 2, 1),
                    (2, 17, 2),
                    (0, 1, 2),
                    (1, 1, 0),
                ] {
                    judged(Head {
                        width,
                        height,
                        n,
                        w,
                        search,
                        measure,
                    });
                }
            }
        }
    }
    for search in [0, 1, 2, 3, 4, 5, 6, 8, 16, 128, 255] {
        for w in 0..=255 {
            for measure in [1, 2] {
                judged(Head {
                    w,
                    search,
                    measure,
                    ..TWO_BLOCKS
                });
            }
        }
    }
    for measure in 0..=255 {
        judged(Head {
            measure,
            ..TWO_BLOCKS
        });
    }
    group.end()
}

/// Refusal 16: at places all over a grid every part near the window's ends and every byte, and distortions at their ends, those of commands 2 and
/// 5 too.
fn blocks((measure, by): (u32, &str)) -> u64 {
    let mut group = Group::new(format!("logs, {by}, vectors and distortions"));
    let parts: Vec<i64> = (-18..=18)
        .chain([-128, -127, -65, -33, 33, 64, 126, 127])
        .collect();
    for n in SIZES {
        let most = [255, 65_025][measure as usize - 1] * (n * n) as u32;
        for (w, search) in [(0, 1), (1, 2), (3, 2), (7, 3), (8, 4), (15, 1), (16, 2)] {
            let head = Head {
                width: 4 * n + 3,
                height: 3 * n + 1,
                n,
                w,
                search,
                measure,
            };
            for k in 0..blocks_of(&head) {
                let (y, x) = ((k / 4 * n) as i64, (k % 4 * n) as i64);
                let w = w as i64;
                for &dy in &parts {
                    for &dx in &parts {
                        let good = dy.abs() <= w
                            && dx.abs() <= w
                            && (0..=(2 * n + 1) as i64).contains(&(y + dy))
                            && (0..=(3 * n + 3) as i64).contains(&(x + dx));
                        let log = [2, dy as u8, dx as u8, 0, 1];
                        let refusal = if good { 0 } else { 16 };
                        walked(&mut group, &log, among(head, k), refusal, 0);
                        let log = [5, dy as u8, dx as u8, 0, 1, 0, 0];
                        let refusal = if good && most > 65_535 { 0 } else { 16 };
                        walked(&mut group, &log, among(head, k), refusal, 0);
                    }
                }
            }
            // The block in the middle may have any of these vectors, but for w 0.
            let vectors = if w > 0 {
                &[(0, 0), (0, 255), (1, 0)][..]
            } else {
                &[(0, 0)]
            };
            let small = [0, 1, 255, 256, 32_768, 65_280, 65_281, 65_534, 65_535];
            let large = [
                65_536,
                65_537,
                1 << 24,
                1 << 31,
                u32::MAX,
                u32::MAX - 65_535,
            ];
            let ends = [most - 1, most, most + 1, most ^ 1 << 16, most ^ 1 << 24];
            for distortion in small.into_iter().chain(large).chain(ends) {
                let bytes = distortion.to_be_bytes();
                for &(dy, dx) in vectors {
                    if distortion <= 65_535 {
                        let still = (dy, dx, distortion) == (0, 0, 0);
                        let refusal = if distortion <= most && !still { 0 } else { 16 };
                        let log = [&[2, dy, dx], &bytes[2..]].concat();
                        walked(&mut group, &log, among(head, 5), refusal, 0);
                    }
                    let good = distortion > 65_535 && distortion <= most;
                    let log = [&[5, dy, dx], &bytes[..]].concat();
                    let refusal = if good { 0 } else { 16 };
                    walked(&mut group, &log, among(head, 5), refusal, 0);
                }
            }
        }
    }
    group.end()
}

/// Refusal 17: an end with any other number, in grids of one block to the most there are.
fn ends() -> u64 {
    let mut group = Group::new("logs, ends");
    for (width, height, n) in [
        (4, 4, 4),
        (8, 4, 4),
        (1024, 7, 4),
        (1024, 8, 4),
        (32, 32, 32),
        (1024, 1024, 32),
        (1024, 1024, 16),
        (1020, 1024, 4),
        (1024, 1024, 4),
    ] {
        let head = Head {
            width,
            height,
            n,
            ..TWO_BLOCKS
        };
        let blocks = blocks_of(&head) as u32;
        let near = [0, 1, blocks - 1, blocks, blocks + 1, blocks.swap_bytes()];
        let far = (0..32).map(|bit| blocks ^ 1 << bit);
        for number in near.into_iter().chain(far).chain([u32::MAX]) {
            let log = [&[4], &number.to_be_bytes()[..]].concat();
            let refusal = if number == blocks { 0 } else { 17 };
            let full = among(head, blocks as usize);
            walked(&mut group, &log, full, refusal, 0);
            let one_short = among(head, blocks as usize - 1);
            walked(&mut group, &log, one_short, 14, 0);
            let one_over = among(head, blocks as usize + 1);
            walked(&mut group, &log, one_over, 34, 0);
        }
    }
    group.end()
}

/// A cursor that has a place alone.
fn standing(at: usize, phase: u32) -> Cursor {
    Cursor {
        at,
        phase,
        ..Cursor::default()
    }
}

/// A cursor among the blocks.
fn reading(at: usize, head: Head, blocks: usize) -> Cursor {
    Cursor {
        at,
        phase: 1,
        head,
        blocks,
    }
}

/// What a head, a block and an end hand out, and where the walk then stands.
fn head_read(head: Head, next: Cursor) -> Walked {
    Walked {
        command: if head.measure == 2 { 6 } else { 1 },
        head,
        next,
        ..Walked::default()
    }
}

fn block_read(dx: i64, next: Cursor) -> Walked {
    Walked {
        command: if dx == 0 { 3 } else { 2 },
        dx,
        next,
        ..Walked::default()
    }
}

/// One with a distortion above 65,535.
fn long_read(dx: i64, distortion: i64, next: Cursor) -> Walked {
    Walked {
        command: 5,
        dx,
        distortion,
        next,
        ..Walked::default()
    }
}

fn end_read(blocks: i64, at: usize) -> Walked {
    Walked {
        command: 4,
        blocks,
        next: standing(at, 2),
        ..Walked::default()
    }
}

/// One call that hands a command out: both sides must answer so, to the last number of the next cursor.
fn hands_out(group: &mut Group, log: &[u8], cursor: Cursor, wanted: Walked) {
    let inputs = format!("log {log:?}, {cursor:?}");
    let both = (archive::walk(log, cursor), logs::walk(log, cursor));
    group.same(inputs, both, (wanted, wanted));
}

/// Two blocks of 32 × 32 by squares, the one still, the other with (0,-16) and 66,585,600.
pub const HEAD_OF_32: Head = Head {
    width: 64,
    height: 32,
    n: 32,
    w: 16,
    search: 1,
    measure: 2,
};
pub const LOG_OF_32: &[u8] = &[
    6, 0, 64, 0, 32, 32, 16, 1, 2, 3, 5, 0, 240, 3, 248, 4, 0, 4, 0, 0, 0, 2,
];

/// The logs of B and C, and one with commands 5 and 6, from the first call to those after the end.
fn whole_walks() -> u64 {
    let mut group = Group::new("logs, whole walks");
    let (b, c) = (HEAD_OF_B, HEAD_OF_C);
    let of_b = [
        head_read(b, reading(8, b, 0)),
        block_read(1, reading(13, b, 1)),
        end_read(1, 18),
    ];
    let of_c = [
        head_read(c, reading(8, c, 0)),
        block_read(0, reading(9, c, 1)),
        block_read(0, reading(10, c, 2)),
        block_read(0, reading(11, c, 3)),
        block_read(0, reading(12, c, 4)),
        end_read(4, 17),
    ];
    let long = HEAD_OF_32;
    let of_32 = [
        head_read(long, reading(9, long, 0)),
        block_read(0, reading(10, long, 1)),
        long_read(-16, 66_585_600, reading(17, long, 2)),
        end_read(2, 22),
    ];
    for (log, commands) in [
        (LOG_OF_B, &of_b[..]),
        (LOG_OF_C, &of_c[..]),
        (LOG_OF_32, &of_32[..]),
    ] {
        let mut cursor = Cursor::default();
        for &wanted in commands {
            hands_out(&mut group, log, cursor, wanted);
            cursor = wanted.next;
        }
        walk_ends(&mut group, log, cursor, 34, 0);
    }
    group.end()
}

/// Cursors built by hand, on B's log of 18 bytes: 34 for those that no walk can have, before all else; any other goes on from there.
fn cursors() -> u64 {
    let mut group = Group::new("logs, cursors built by hand");
    let (b, c) = (HEAD_OF_B, HEAD_OF_C);
    for (cursor, refusal, place) in [
        (standing(19, 0), 34, 0),
        (standing(usize::MAX, 0), 34, 0),
        (reading(19, b, 0), 34, 0),
        (reading(usize::MAX - 4, b, 0), 34, 0),
        (standing(19, 2), 34, 0),
        (standing(18, 0), 13, 18),
        (reading(18, b, 0), 13, 18),
        (standing(18, 2), 34, 0),
        (standing(7, 2), 18, 7),
        (standing(0, 3), 34, 0),
        (standing(0, u32::MAX), 34, 0),
        (
            Cursor {
                phase: 257,
                ..reading(8, b, 0)
            },
            34,
            0,
        ),
        (reading(8, b, 2), 34, 0),
        (reading(8, b, usize::MAX), 34, 0),
        // The end is due, a block is due.
        (reading(8, b, 1), 14, 8),
        (reading(13, b, 0), 14, 13),
        // C's last block has no room for (0,1), and C's end another number.
        (reading(8, c, 3), 16, 8),
        (reading(13, c, 4), 17, 13),
    ] {
        walk_ends(&mut group, LOG_OF_B, cursor, refusal, place);
    }
    // Heads that 15 would turn away: width, height, N, w and search in turn.
    let five = |width, height, n, w, search| Head {
        width,
        height,
        n,
        w,
        search,
        measure: 1,
    };
    for head in [
        five(3, 4, 4, 1, 2),
        five(usize::MAX, 4, 4, 1, 2),
        five((1 << 32) + 5, 4, 4, 1, 2),
        five(5, 1025, 4, 1, 2),
        five(5, 4, 8, 1, 2),
        five(5, 4, 0, 1, 2),
        five(5, 4, 4, 17, 2),
        five(5, 4, 4, 257, 2),
        five(5, 4, 4, 1, 5),
        five(5, 4, 4, 1, 258),
        five(5, 4, 4, 1, 3),
    ] {
        walk_ends(&mut group, LOG_OF_B, reading(8, head, 0), 34, 0);
        walk_ends(&mut group, LOG_OF_B, reading(18, head, 0), 34, 0);
        // Before the head they are not looked at, nor are the blocks.
        let before = Cursor {
            phase: 0,
            ..reading(0, head, usize::MAX)
        };
        let wanted = head_read(b, reading(8, b, 0));
        hands_out(&mut group, LOG_OF_B, before, wanted);
    }
    let wanted = block_read(1, reading(13, c, 3));
    hands_out(&mut group, LOG_OF_B, reading(8, c, 2), wanted);
    hands_out(&mut group, LOG_OF_B, reading(13, b, 1), end_read(1, 18));
    group.end()
}

/// Cursors whose head has any measure: among the blocks 34 where it is neither 1 nor 2; else a walk goes by it and hands it on. Before the head and
/// after the end it is not looked at.
fn measures() -> u64 {
    let mut group = Group::new("logs, measures in cursors built by hand");
    let (b, c) = (HEAD_OF_B, HEAD_OF_C);
    for measure in [1, 2, 7].into_iter().chain(NO_MEASURES) {
        let by = |head: Head| Head { measure, ..head };
        let before = Cursor {
            head: by(b),
            ..Cursor::default()
        };
        let wanted = head_read(b, reading(8, b, 0));
        hands_out(&mut group, LOG_OF_B, before, wanted);
        let wanted = head_read(HEAD_OF_32, reading(9, HEAD_OF_32, 0));
        hands_out(&mut group, LOG_OF_32, before, wanted);
        let after = Cursor {
            head: by(b),
            ..standing(18, 2)
        };
        walk_ends(&mut group, LOG_OF_B, after, 34, 0);
        walk_ends(&mut group, LOG_OF_32, after, 18, 18);

        let known = measure == 1 || measure == 2;
        if known {
            let wanted = block_read(1, reading(13, by(b), 1));
            hands_out(&mut group, LOG_OF_B, reading(8, by(b), 0), wanted);
            hands_out(&mut group, LOG_OF_B, reading(13, by(b), 1), end_read(1, 18));
            let wanted = block_read(0, reading(9, by(c), 1));
            hands_out(&mut group, LOG_OF_C, reading(8, by(c), 0), wanted);
        }
        // What is refused with a measure is 34 without.
        for (log, cursor, refusal, place) in [
            (LOG_OF_B, reading(8, by(b), 1), 14, 8),
            (LOG_OF_B, reading(18, by(b), 0), 13, 18),
            (LOG_OF_B, reading(8, by(c), 3), 16, 8),
            (LOG_OF_B, reading(13, by(c), 4), 17, 13),
            (LOG_OF_B, reading(8, by(b), 2), 34, 0),
            (LOG_OF_B, reading(8, by(Head { w: 17, ..b }), 0), 34, 0),
            // Another head is not due, of either command; nor is one after the last block.
            (LOG_OF_B, reading(0, by(b), 0), 14, 0),
            (LOG_OF_32, reading(0, by(b), 0), 14, 0),
            (LOG_OF_32, reading(0, by(b), 1), 14, 0),
        ] {
            let wanted = if known { (refusal, place) } else { (34, 0) };
            walk_ends(&mut group, log, cursor, wanted.0, wanted.1);
        }
        // 66,585,600 is N 32's by squares alone.
        let cursor = reading(10, by(HEAD_OF_32), 1);
        match measure {
            2 => {
                let wanted = long_read(-16, 66_585_600, reading(17, HEAD_OF_32, 2));
                hands_out(&mut group, LOG_OF_32, cursor, wanted);
            }
            1 => walk_ends(&mut group, LOG_OF_32, cursor, 16, 10),
            _ => walk_ends(&mut group, LOG_OF_32, cursor, 34, 0),
        }
    }
    group.end()
}

/// All edges of the walker; answers with the number of mismatches.
pub fn run() -> u64 {
    let by_measure = MEASURES.map(|measure| commands(measure) + blocks(measure));
    let mismatches: u64 = by_measure.into_iter().sum();
    mismatches + heads() + ends() + whole_walks() + cursors() + measures()
}
