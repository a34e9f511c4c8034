//! The edges of measuring, row view and single-block search, to half a pel too (field_edges.rs has those of fields): every range of docs/REFERENCE.md from
//! both sides, with the expected number written down here, the order in which the refusals are tested, and a table of small
//! combinations, most of them invalid. Values near the top of their type must be refused and must never end the program.

use crate::archive;
use crate::group::Group;
use crate::question::{
    Answer, Measured, Measuring, Pair, Request, Viewing, FAR_CEILINGS, NO_MEASURES, SIZES,
};
use crate::rival;

/// Bits above the lower 32, which a careless narrowing would lose.
pub const ABOVE_32: usize = 1 << 32;

/// The top bit, which a careless change of sign would turn into a negative number.
pub const TOP_BIT: usize = 1 << 63;

/// A pair of these sizes whose frames have these lengths; the pels differ from frame to frame.
pub fn pair_with_lengths(width: usize, height: usize, older: usize, newer: usize) -> Pair {
    Pair {
        older: (0..older).map(|k| (k * 7 % 251) as u8).collect(),
        newer: (0..newer).map(|k| (k * 11 % 241) as u8).collect(),
        width,
        height,
    }
}

/// A pair of these sizes with frames that fit.
pub fn pair_of(width: usize, height: usize) -> Pair {
    pair_with_lengths(width, height, width * height, width * height)
}

/// The single-block search and the one to half a pel, which "refuses as that does", and the rival agree. Hands out the former's answer.
fn by_both_searches(group: &mut Group, pair: &Pair, request: &Request) -> Answer {
    let answer = archive::search_block(pair, request);
    let wanted = rival::search_block(pair, request);
    group.same(format_args!("{pair}, {request}"), answer, wanted);
    let half = archive::search_half(pair, request);
    let wanted = rival::refined(pair, request, wanted);
    group.same(format_args!("half pel: {pair}, {request}"), half, wanted);
    answer
}

/// Both sides must answer with this refusal (0: accepted), and alike in all else.
fn searched(group: &mut Group, pair: &Pair, request: Request, refusal: i64) {
    let answer = by_both_searches(group, pair, &request);
    group.same(format_args!("{pair}, {request}"), answer.refusal, refusal);
}

/// The measuring call and the rival agree, by each of the far ceilings in place of the question's own. Hands out the answers.
fn by_far_ceilings(group: &mut Group, pair: &Pair, question: Measuring) -> [Measured; 4] {
    FAR_CEILINGS.map(|ceiling| {
        let question = Measuring {
            ceiling,
            ..question
        };
        let answer = archive::measure(pair, &question);
        let wanted = rival::measure(pair, &question);
        group.same(format_args!("{pair}, {question}"), answer, wanted);
        answer
    })
}

/// Likewise for the measuring call: refused alike whatever the ceiling.
fn measured(group: &mut Group, pair: &Pair, question: Measuring, refusal: i64) {
    let refusals = by_far_ceilings(group, pair, question).map(|answer| answer.refusal);
    group.same(format_args!("{pair}, {question}"), refusals, [refusal; 4]);
}

/// Likewise for the row view.
fn viewed(group: &mut Group, pair: &Pair, question: Viewing, refusal: i64) {
    let answer = archive::row_view(pair, &question);
    let wanted = rival::row_view(pair, &question);
    group.same(format_args!("{pair}, {question}"), answer.refusal, refusal);
    group.same(format_args!("{pair}, {question}"), answer, wanted);
}

/// All four calls at one place, in all four searches and by both measures, must answer with this refusal.
fn all_calls(group: &mut Group, pair: &Pair, n: usize, row: usize, column: usize, refusal: i64) {
    for measure in [1, 2] {
        for (search, w) in [(1, 1), (2, 1), (3, 7), (4, 2)] {
            let request = Request {
                n,
                search,
                w,
                t: 0,
                measure,
                row,
                column,
            };
            searched(group, pair, request, refusal);
        }
        let question = Measuring {
            n,
            row,
            column,
            dy: 0,
            dx: 0,
            measure,
            ceiling: 0,
        };
        measured(group, pair, question, refusal);
    }
    for side in [0, 1] {
        let question = Viewing {
            n,
            side,
            row,
            column,
        };
        viewed(group, pair, question, refusal);
    }
}

/// Refusal 1: width and height 3/4 and 1,024/1,025, and values far outside.
fn sizes() -> u64 {
    let mut group = Group::new("edges, width and height");
    let near = [3, 4, 5, 1023, 1024, 1025];
    for width in near {
        for height in near {
            let inside = (4..=1024).contains(&width) && (4..=1024).contains(&height);
            let pair = pair_of(width, height);
            all_calls(&mut group, &pair, 4, 0, 0, i64::from(!inside));
            if inside {
                let (row, column) = (height - 4, width - 4);
                all_calls(&mut group, &pair, 4, row, column, 0);
            }
        }
    }
    let far = [0, 1, 2, 65536, ABOVE_32, ABOVE_32 + 8, TOP_BIT, TOP_BIT + 8];
    for size in far.into_iter().chain([usize::MAX - 7, usize::MAX]) {
        // Frames of no pel, and of as many as are left of the product where it wraps.
        for length in [0, 64, (size.wrapping_mul(8)) % 4096] {
            let pair = pair_with_lengths(size, 8, length, length);
            all_calls(&mut group, &pair, 4, 0, 0, 1);
            let pair = pair_with_lengths(8, size, length, length);
            all_calls(&mut group, &pair, 4, 0, 0, 1);
            let pair = pair_with_lengths(size, size, length, length);
            all_calls(&mut group, &pair, 4, 0, 0, 1);
        }
    }
    group.end()
}

/// Refusal 2: frames one short and one long, and of other lengths.
fn lengths() -> u64 {
    let mut group = Group::new("edges, frame lengths");
    let pairs = [(4, 4, 4), (5, 4, 4), (8, 9, 8), (17, 16, 16), (1024, 4, 4)];
    for (width, height, n) in pairs.into_iter().chain([(33, 32, 32)]) {
        let right = width * height;
        let lengths = [0, 1, right / 2, right - width, right - 1, right, right + 1];
        let lengths: Vec<usize> = lengths.into_iter().chain([2 * right]).collect();
        for &older in &lengths {
            for &newer in &lengths {
                let refusal = if older == right && newer == right {
                    0
                } else {
                    2
                };
                let pair = pair_with_lengths(width, height, older, newer);
                all_calls(&mut group, &pair, n, 0, 0, refusal);
            }
        }
    }
    group.end()
}

/// Refusal 3: N not 4, 8, 16 or 32, or larger than width or height.
fn block_sizes() -> u64 {
    let mut group = Group::new("edges, N");
    let sizes = [
        0, 1, 2, 3, 4, 5, 7, 8, 9, 12, 15, 16, 17, 24, 31, 32, 33, 48, 64, 128, 256, 260, 264, 288,
    ];
    let far = [ABOVE_32 + 4, TOP_BIT + 32, usize::MAX - 3, usize::MAX];
    // Frames that each N fits into or not quite, and two that N over 32 would fit into.
    let small = (4..=18).flat_map(|width| (4..=18).map(move |height| (width, height)));
    let around_32 = (31..=33).flat_map(|width| (31..=33).map(move |height| (width, height)));
    for (width, height) in small.chain(around_32).chain([(64, 64), (1024, 1024)]) {
        let pair = pair_of(width, height);
        for n in sizes.into_iter().chain(far) {
            let allowed = SIZES.contains(&n) && n <= width && n <= height;
            let refusal = if allowed { 0 } else { 3 };
            all_calls(&mut group, &pair, n, 0, 0, refusal);
        }
    }
    group.end()
}

/// Refusals 4, 51, 5 and 6: every search with every measure, w and T near an edge.
fn searches() -> u64 {
    let mut group = Group::new("edges, search, measure, w and T");
    let pair = pair_of(13, 11);
    let kinds = [0, 1, 2, 3, 4, 5, 6, 7, 255, 256, 257, 260, 65537, 65540];
    let windows = (0..=40).chain([48, 63, 64, 128, 255, 256, 258, 263, 1024, 65536, 65538]);
    let far = [ABOVE_32, ABOVE_32 + 2, ABOVE_32 + 7, TOP_BIT, TOP_BIT + 7];
    let windows: Vec<usize> = windows.chain(far).chain([usize::MAX]).collect();
    let thresholds = [0, 1, 2, 255, 256, 4080, 65_280, 65_281, 65_536];
    let larger = [
        261_119, 261_120, 261_121, 262_144, 1_040_400, 16_646_401, 66_585_599, 66_585_600,
        66_585_601, 67_108_864,
    ];
    let thresholds = thresholds.into_iter().chain(larger);
    let thresholds: Vec<u32> = thresholds.chain([1 << 31, u32::MAX]).collect();
    for search in kinds.into_iter().chain([1 << 31, u32::MAX - 3, u32::MAX]) {
        for &w in &windows {
            for (&t, measure) in thresholds
                .iter()
                .flat_map(|t| [1, 2, 0, 3, 257].map(|measure| (t, measure)))
            {
                let window_allowed = match search {
                    1 | 2 => w <= 16,
                    3 => w == 7,
                    _ => [2, 4, 8, 16].contains(&w),
                };
                let most = if measure == 2 { 66_585_600 } else { 261_120 };
                let refusal = if !(1..=4).contains(&search) {
                    4
                } else if measure != 1 && measure != 2 {
                    51
                } else if !window_allowed {
                    5
                } else if (search == 4 && t > most) || (search != 4 && t != 0) {
                    6
                } else {
                    0
                };
                let request = Request {
                    n: 4,
                    search,
                    w,
                    t,
                    measure,
                    row: 3,
                    column: 5,
                };
                searched(&mut group, &pair, request, refusal);
            }
        }
    }
    group.end()
}

/// Refusal 51: every number that is no measure; and T by each measure at its limit and one past, "whatever N is".
fn measures() -> u64 {
    let mut group = Group::new("edges, measures");
    let pair = pair_of(35, 33);
    for n in SIZES {
        let bad = NO_MEASURES.map(|measure| (measure, 51));
        for (measure, refusal) in [(1, 0), (2, 0)].into_iter().chain(bad) {
            for (search, w) in [(1, 16), (2, 16), (3, 7), (4, 16)] {
                let request = Request {
                    n,
                    search,
                    w,
                    t: 0,
                    measure,
                    row: 1,
                    column: 2,
                };
                searched(&mut group, &pair, request, refusal);
            }
            for (dy, dx) in [(0, 0), (0, -2), (0, 1), (-1, -1)] {
                let question = Measuring {
                    n,
                    row: 1,
                    column: 2,
                    dy,
                    dx,
                    measure,
                    ceiling: 0,
                };
                measured(&mut group, &pair, question, refusal);
            }
        }
        for (measure, t, refusal) in [
            (1, 261_120, 0),
            (1, 261_121, 6),
            (1, 66_585_600, 6),
            (2, 261_121, 0),
            (2, 66_585_600, 0),
            (2, 66_585_601, 6),
            (2, u32::MAX, 6),
            (3, u32::MAX, 51),
        ] {
            let request = Request {
                n,
                search: 4,
                w: 8,
                t,
                measure,
                row: 0,
                column: 0,
            };
            searched(&mut group, &pair, request, refusal);
        }
    }
    group.end()
}

/// Rows or columns around the last place `last`, at the top of their type, and where `step` times them wraps to little.
fn places(last: usize, n: usize, step: usize) -> Vec<usize> {
    let mut all = vec![0, 1, last, last + 1, last + 2, last + n - 1, last + n];
    all.extend([
        last + n + 1,
        1023,
        1024,
        1025,
        65536,
        ABOVE_32,
        ABOVE_32 + 1,
    ]);
    all.extend([TOP_BIT - n, TOP_BIT - 1, TOP_BIT, TOP_BIT + 1]);
    all.extend([usize::MAX / step, usize::MAX / step + 1]);
    let below = [0, 1, 3, n - 2, n - 1, n, n + 1].into_iter();
    all.extend(
        below
            .chain([step - 1, step, last, last + n])
            .map(|below| usize::MAX - below),
    );
    all
}

/// Refusal 7: rows and columns at the last place, one past, and at the top of their type.
fn block_places() -> u64 {
    let mut group = Group::new("edges, row and column");
    for (width, height) in [(16, 16), (20, 17), (17, 32), (64, 16), (32, 32), (33, 35)] {
        let pair = pair_of(width, height);
        for n in SIZES {
            if n > width || n > height {
                continue;
            }
            let (last_row, last_column) = (height - n, width - n);
            for row in places(last_row, n, width) {
                for column in places(last_column, n, width) {
                    let inside = row <= last_row && column <= last_column;
                    let refusal = if inside { 0 } else { 7 };
                    for (search, w, measure) in [(1, 1, 2), (2, 1, 1), (3, 7, 2), (4, 2, 1)] {
                        let request = Request {
                            n,
                            search,
                            w,
                            t: 0,
                            measure,
                            row,
                            column,
                        };
                        searched(&mut group, &pair, request, refusal);
                    }
                    for measure in [1, 2] {
                        let question = Measuring {
                            n,
                            row,
                            column,
                            dy: 0,
                            dx: 0,
                            measure,
                            ceiling: 0,
                        };
                        measured(&mut group, &pair, question, refusal);
                    }
                    let inside = row < height && column <= last_column;
                    for side in [0, 1] {
                        let question = Viewing {
                            n,
                            side,
                            row,
                            column,
                        };
                        let refusal = if inside { 0 } else { 7 };
                        viewed(&mut group, &pair, question, refusal);
                    }
                }
            }
        }
    }
    group.end()
}

/// Refusal 8: vectors at and past the edges of window 16 and of the older frame. Refusal 12: sides.
fn vectors_and_sides() -> u64 {
    let mut group = Group::new("edges, vectors and sides");
    let parts = (-18..=18).chain([127, 128, 255, 256, -128, -255, -256, 65536, -65536]);
    let parts: Vec<i32> = parts
        .chain([i32::MAX, i32::MAX - 1, i32::MIN, i32::MIN + 1])
        .collect();
    for (width, height, n, row, column) in [
        (4, 4, 4, 0, 0),
        (21, 23, 4, 10, 9),
        (50, 50, 16, 17, 17),
        (50, 50, 16, 16, 18),
        (32, 32, 32, 0, 0),
        (66, 66, 32, 17, 17),
        (66, 66, 32, 16, 18),
        (60, 40, 8, 32, 52),
        (1024, 4, 4, 0, 1020),
        (4, 1024, 4, 1020, 0),
        (1024, 33, 32, 1, 992),
    ] {
        let pair = pair_of(width, height);
        for &dy in &parts {
            for &dx in &parts {
                let (top, left) = (row as i64 + dy as i64, column as i64 + dx as i64);
                let allowed = (-16..=16).contains(&dy)
                    && (-16..=16).contains(&dx)
                    && (0..=(height - n) as i64).contains(&top)
                    && (0..=(width - n) as i64).contains(&left);
                for measure in [1, 2] {
                    let question = Measuring {
                        n,
                        row,
                        column,
                        dy,
                        dx,
                        measure,
                        ceiling: 0,
                    };
                    measured(&mut group, &pair, question, if allowed { 0 } else { 8 });
                }
            }
        }
        for side in [0, 1, 2, 3, 255, 256, 257, 65536, 1 << 31, u32::MAX] {
            let question = Viewing {
                n,
                side,
                row,
                column,
            };
            let refusal = if side <= 1 { 0 } else { 12 };
            viewed(&mut group, &pair, question, refusal);
        }
    }
    group.end()
}

/// A pair of 8 × 8 of which width and frame length are set wrong at will. A wrong width is refused before the lengths are looked
/// at, and the short frame is one short of 8 × 8.
fn broken_pair(rules: &[i64]) -> Pair {
    let length = if rules.contains(&2) { 63 } else { 64 };
    let width = if rules.contains(&1) { 3 } else { 8 };
    pair_with_lengths(width, 8, 64, length)
}

/// Every choice of rules out of those that a call tests, in its order.
pub fn choices(order: &[i64]) -> Vec<Vec<i64>> {
    let chosen = |bits: usize| {
        let rules = order.iter().enumerate();
        let kept = rules.filter(|(k, _)| bits >> k & 1 == 1);
        kept.map(|(_, &rule)| rule).collect()
    };
    (0..1 << order.len()).map(chosen).collect()
}

/// "Checked in this order, as far as a call has the input": inputs that break any choice of rules answer with the first of them.
fn order() -> u64 {
    let mut group = Group::new("order of refusals");
    for rules in choices(&[1, 2, 3, 4, 51, 5, 6, 7]) {
        let first = rules.first().copied().unwrap_or(0);
        let broken = |rule| rules.contains(&rule);
        let pair = broken_pair(&rules);
        // By absolute and by squares in turn.
        for (good, bad, measure, over, none) in [
            (1, 0, 1, 261_121, 3),
            (2, 5, 2, 66_585_601, 0),
            (3, 6, 1, 261_121, 257),
            (4, 5, 1, 261_121, 258),
            (4, u32::MAX, 2, 66_585_601, u32::MAX),
        ] {
            let request = Request {
                n: if broken(3) { 5 } else { 4 },
                search: if broken(4) { bad } else { good },
                w: match (broken(5), good) {
                    (true, _) => 17,
                    (false, 3) => 7,
                    (false, _) => 4,
                },
                t: if broken(6) { over } else { 0 },
                measure: if broken(51) { none } else { measure },
                row: if broken(7) { 5 } else { 4 },
                column: 4,
            };
            searched(&mut group, &pair, request, first);
        }
    }
    for rules in choices(&[1, 2, 3, 51, 7, 8]) {
        let first = rules.first().copied().unwrap_or(0);
        let broken = |rule| rules.contains(&rule);
        let pair = broken_pair(&rules);
        for (far, measure, none) in [
            (-17, 1, 0),
            (17, 2, 3),
            (i32::MIN, 1, 257),
            (i32::MAX, 2, u32::MAX),
        ] {
            let question = Measuring {
                n: if broken(3) { 16 } else { 4 },
                row: if broken(7) { usize::MAX } else { 4 },
                column: 4,
                dy: if broken(8) { far } else { -4 },
                dx: 0,
                measure: if broken(51) { none } else { measure },
                ceiling: 0,
            };
            measured(&mut group, &pair, question, first);
        }
    }
    for rules in choices(&[1, 2, 3, 12, 7]) {
        let first = rules.first().copied().unwrap_or(0);
        let broken = |rule| rules.contains(&rule);
        let pair = broken_pair(&rules);
        for side in [0, 1] {
            let question = Viewing {
                n: if broken(3) { 0 } else { 8 },
                side: if broken(12) { side + 2 } else { side },
                row: 7,
                column: if broken(7) { 1 } else { 0 },
            };
            viewed(&mut group, &pair, question, first);
        }
    }
    group.end()
}

/// The pairs of the table: small sizes in and out of range, frames that fit, are one short or one long.
fn table_pairs() -> Vec<Pair> {
    let mut pairs = Vec::new();
    for (width, height) in [
        (0, 4),
        (3, 4),
        (4, 3),
        (4, 4),
        (5, 4),
        (4, 7),
        (8, 8),
        (16, 16),
        (17, 18),
        (33, 32),
    ] {
        let right: usize = width * height;
        let short = right.saturating_sub(1);
        for (older, newer) in [
            (right, right),
            (short, right),
            (right, short),
            (right + 1, right),
            (right, right + 1),
        ] {
            pairs.push(pair_with_lengths(width, height, older, newer));
        }
    }
    pairs
}

/// Every combination of a few good and bad values of every input, against the rival.
fn table() -> u64 {
    let mut group = Group::new("table of refusals, single block");
    let mut others = Group::new("table of refusals, measuring and row view");
    for pair in table_pairs() {
        for n in [0, 3, 4, 5, 8, 15, 16, 17, 32, 33, 64] {
            let last_row = pair.height.saturating_sub(n);
            let last_column = pair.width.saturating_sub(n);
            let places = [
                (0, 0),
                (last_row, last_column),
                (last_row + 1, last_column),
                (last_row, last_column + 1),
                (usize::MAX, usize::MAX - n),
            ];
            for (row, column) in places {
                for search in [0, 1, 2, 3, 4, 5] {
                    for w in [0, 1, 2, 3, 4, 7, 8, 16, 17, 32] {
                        for (t, measure) in [
                            (0, 1),
                            (1, 1),
                            (261_120, 1),
                            (261_121, 1),
                            (0, 2),
                            (261_121, 2),
                            (66_585_600, 2),
                            (66_585_601, 2),
                            (0, 3),
                        ] {
                            let request = Request {
                                n,
                                search,
                                w,
                                t,
                                measure,
                                row,
                                column,
                            };
                            by_both_searches(&mut group, &pair, &request);
                        }
                    }
                }
                for (dy, dx) in [(0, 0), (-1, 0), (0, 1), (17, 0), (0, -17), (i32::MIN, 0)] {
                    for measure in [1, 2, 3] {
                        let question = Measuring {
                            n,
                            row,
                            column,
                            dy,
                            dx,
                            measure,
                            ceiling: 0,
                        };
                        by_far_ceilings(&mut others, &pair, question);
                    }
                }
                for side in [0, 1, 2] {
                    let question = Viewing {
                        n,
                        side,
                        row,
                        column,
                    };
                    let answer = archive::row_view(&pair, &question);
                    let wanted = rival::row_view(&pair, &question);
                    others.same(format_args!("{pair}, {question}"), answer, wanted);
                }
            }
        }
    }
    group.end() + others.end()
}

/// All edges; answers with the number of mismatches.
pub fn run() -> u64 {
    sizes()
        + lengths()
        + block_sizes()
        + searches()
        + measures()
        + block_places()
        + vectors_and_sides()
        + order()
        + table()
}
