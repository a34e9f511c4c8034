//! The worked pairs A to J of docs/REFERENCE.md, with their numbers typed in, against the archive and against the rival: by absolute,
//! and then by squares and with N 32, where the numbers are worked out by hand; and what the rules write down of the preference order, against
//! the rival.

use crate::archive;
use crate::field_edges::{homed_at, refused, stands, stepped_on};
use crate::group::Group;
use crate::logs;
use crate::question::{
    Answer, Counts, FieldAnswer, FieldRequest, Head, Lent, LogRead, Measured, Measuring, Pair,
    Request, Written, FAR_CEILINGS,
};
use crate::reckoning;
use crate::rival;

/// Both sides must give the answer that the rules name.
fn searched(group: &mut Group, what: &str, pair: &Pair, request: Request, wanted: Answer) {
    let inputs = format!("pair {what}: {pair}, {request}");
    group.same(&inputs, archive::search_block(pair, &request), wanted);
    let inputs = format!("the rival's own answer to pair {what}: {pair}, {request}");
    group.same(&inputs, rival::search_block(pair, &request), wanted);
}

/// Likewise for the measuring call: the distortion by the question's ceiling and by one of just the distortion. In these blocks all rows have
/// the same sum, so that a ceiling of 3 rows' sum is passed at the end of the 4th, and one less at the end of the 3rd.
fn measured(group: &mut Group, what: &str, pair: &Pair, question: Measuring, distortion: i64) {
    let n = question.n as i64;
    let of_a_row = distortion / n;
    let mut ceilings = vec![
        (question.ceiling as i64, distortion, 0, n),
        (distortion, distortion, 0, n),
    ];
    if distortion > 0 {
        for row in 1..=n {
            ceilings.push((of_a_row * (row - 1), 0, 1, row));
            ceilings.push((of_a_row * row - 1, 0, 1, row));
        }
    }
    for (ceiling, distortion, over, rows) in ceilings {
        let question = Measuring {
            ceiling: ceiling as u32,
            ..question
        };
        let wanted = Measured {
            refusal: 0,
            distortion,
            over,
            rows,
        };
        let inputs = format!("pair {what}: {pair}, {question}");
        group.same(&inputs, archive::measure(pair, &question), wanted);
        let inputs = format!("the rival's own answer to pair {what}: {pair}, {question}");
        group.same(&inputs, rival::measure(pair, &question), wanted);
    }
}

/// The rival's own distances of a vector at 4, 2 and 1, N 4.
fn distances(
    group: &mut Group,
    what: &str,
    pair: &Pair,
    measure: u32,
    vector: (i64, i64),
    wanted: [i64; 3],
) {
    let block = rival::Block::new(pair, 4, 0, 0, measure);
    let distances = [4, 2, 1].map(|m| block.distance(m, vector));
    let inputs = format!("the rival's own distances of pair {what}, measure {measure}");
    group.same(inputs, distances, wanted);
}

/// A request for a block of N 4 by absolute; search, w, T and place follow.
fn block_of_4(search: u32, w: usize, t: u32, row: usize, column: usize) -> Request {
    Request {
        n: 4,
        search,
        w,
        t,
        measure: 1,
        row,
        column,
    }
}

/// An accepted answer.
fn found(vector: (i64, i64), distortion: i64, counts: Counts, dropped: i64) -> Answer {
    Answer {
        refusal: 0,
        dy: vector.0,
        dx: vector.1,
        distortion,
        counts,
        dropped,
    }
}

pub fn flat(width: usize, height: usize, older: u8, newer: u8) -> Pair {
    Pair {
        older: vec![older; width * height],
        newer: vec![newer; width * height],
        width,
        height,
    }
}

/// (0,0) by absolute, of the block at (0,0), with the largest ceiling.
fn at_zero(n: usize) -> Measuring {
    Measuring {
        n,
        row: 0,
        column: 0,
        dy: 0,
        dx: 0,
        measure: 1,
        ceiling: u32::MAX,
    }
}

/// "A* 4×4, N 4, w 16, newer all 10, older all 12: (0,0), 32; pruned 0,0,1,1,1". "The worked counts gain a leading 0", here and below.
fn pair_a(group: &mut Group) {
    let pair = flat(4, 4, 12, 10);
    let full = found((0, 0), 32, [0, 0, 0, 0, 0, 1], 0);
    let pruned = found((0, 0), 32, [0, 0, 0, 1, 1, 1], 0);
    searched(group, "A", &pair, block_of_4(1, 16, 0, 0, 0), full);
    searched(group, "A", &pair, block_of_4(2, 16, 0, 0, 0), pruned);
    measured(group, "A", &pair, at_zero(4), 32);
}

pub fn frames_of_b() -> Pair {
    Pair {
        older: [0, 10, 20, 30, 40].repeat(4),
        newer: [10, 20, 30, 40, 99].repeat(4),
        width: 5,
        height: 4,
    }
}

/// "B* width 5, height 4, N 4, w 1, older rows 0 10 20 30 40, newer rows 10 20 30 40 99: (0,1), 0; full 2; pruned 0,0,2,2,1,
/// dropped 1".
fn pair_b(group: &mut Group) {
    let pair = frames_of_b();
    let full = found((0, 1), 0, [0, 0, 0, 0, 0, 2], 0);
    let pruned = found((0, 1), 0, [0, 0, 0, 2, 2, 1], 1);
    searched(group, "B", &pair, block_of_4(1, 1, 0, 0, 0), full);
    searched(group, "B", &pair, block_of_4(2, 1, 0, 0, 0), pruned);
    let right = Measuring {
        dx: 1,
        ..at_zero(4)
    };
    measured(group, "B", &pair, right, 0);
    measured(group, "B", &pair, at_zero(4), 160);
    for ceiling in FAR_CEILINGS {
        let left = Measuring {
            dx: -1,
            ceiling,
            ..at_zero(4)
        };
        let refused = Measured {
            refusal: 8,
            ..Measured::default()
        };
        group.same("B at (0,-1)", archive::measure(&pair, &left), refused);
    }
}

/// "C* 8×8, all 7, N 4, w 1: four still blocks, full 4 each; pruned sums 0,0,16,16,16".
fn pair_c(group: &mut Group) {
    let pair = flat(8, 8, 7, 7);
    let full = found((0, 0), 0, [0, 0, 0, 0, 0, 4], 0);
    let mut sums = [0; 6];
    for (row, column) in [(0, 0), (0, 4), (4, 0), (4, 4)] {
        let request = block_of_4(1, 1, 0, row, column);
        searched(group, "C", &pair, request, full);
        let request = block_of_4(2, 1, 0, row, column);
        let pruned = found((0, 0), 0, [0, 0, 0, 4, 4, 4], 0);
        searched(group, "C", &pair, request, pruned);
        let counts = archive::search_block(&pair, &request).counts;
        for (sum, count) in sums.iter_mut().zip(counts) {
            *sum += count;
        }
    }
    group.same("pair C: pruned sums", sums, [0, 0, 0, 16, 16, 16]);
}

fn frames_of_d() -> Pair {
    Pair {
        older: vec![10; 16],
        newer: [0, 20, 0, 20, 20, 0, 20, 0].repeat(2),
        width: 4,
        height: 4,
    }
}

/// "D* 4×4, newer alternating 0 and 20 along and down, older all 10: distances 0 at 4 and 2, distortion 160".
fn pair_d(group: &mut Group) {
    let pair = frames_of_d();
    let full = found((0, 0), 160, [0, 0, 0, 0, 0, 1], 0);
    let pruned = found((0, 0), 160, [0, 0, 0, 1, 1, 1], 0);
    for w in [0, 16] {
        searched(group, "D", &pair, block_of_4(1, w, 0, 0, 0), full);
        searched(group, "D", &pair, block_of_4(2, w, 0, 0, 0), pruned);
    }
    measured(group, "D", &pair, at_zero(4), 160);
    distances(group, "D", &pair, 1, (0, 0), [0, 0, 160]);
}

/// "E* C's frames, block (2,2): four-step 17; cross w 2, T 0: 9; T 1: 1" and "F* the same at block (0,0): 7, 4, 1".
fn pairs_e_and_f(group: &mut Group) {
    let pair = flat(8, 8, 7, 7);
    for (what, place, counts) in [("E", 2, [17, 9, 1]), ("F", 0, [7, 4, 1])] {
        let wanted = counts.map(|count| found((0, 0), 0, [0, 0, 0, 0, 0, count], 0));
        let four_step = block_of_4(3, 7, 0, place, place);
        searched(group, what, &pair, four_step, wanted[0]);
        let cross = block_of_4(4, 2, 0, place, place);
        searched(group, what, &pair, cross, wanted[1]);
        let cross = block_of_4(4, 2, 1, place, place);
        searched(group, what, &pair, cross, wanted[2]);
    }
}

/// A field or a step of N 4 and w 1 by absolute.
fn field_of_4(search: u32) -> FieldRequest {
    FieldRequest {
        n: 4,
        search,
        w: 1,
        t: 0,
        measure: 1,
    }
}

/// Lent memory of these lengths that holds 5 everywhere.
fn lent(list_length: usize, table_length: usize) -> Lent {
    Lent {
        list: vec![5; list_length],
        list_length,
        table: vec![5; table_length],
        table_length,
    }
}

/// The fields of A to D: "(0,0), 32; pruned 0,0,1,1,1", "(0,1), 0; full 2; pruned 0,0,2,2,1, dropped 1", "four still blocks, full 4 each;
/// pruned sums 0,0,16,16,16" and "distances 0 at 4 and 2, distortion 160". "Worked pairs A and C now have no voter": they read (0,0), 0 and
/// 0, and a step of them is 52, with list and table filled and the old track. The list and the table are lent longer than they need be.
fn fields_of_a_to_d(group: &mut Group) {
    let (a, b) = (flat(4, 4, 12, 10), frames_of_b());
    let (c, d) = (flat(8, 8, 7, 7), frames_of_d());
    let still = [0, 0, 0].repeat(4);
    for (pair, search, list, vector, voters, counts, dropped) in [
        (&a, 1, &[0, 0, 32][..], (0, 0), 0, [0, 0, 0, 0, 0, 1], 0),
        (&a, 2, &[0, 0, 32], (0, 0), 0, [0, 0, 0, 1, 1, 1], 0),
        (&b, 1, &[0, 1, 0], (0, 1), 1, [0, 0, 0, 0, 0, 2], 0),
        (&b, 2, &[0, 1, 0], (0, 1), 1, [0, 0, 0, 2, 2, 1], 1),
        (&c, 1, &still, (0, 0), 0, [0, 0, 0, 0, 0, 16], 0),
        (&c, 2, &still, (0, 0), 0, [0, 0, 0, 16, 16, 16], 0),
        (&d, 1, &[0, 0, 160], (0, 0), 1, [0, 0, 0, 0, 0, 1], 0),
        (&d, 2, &[0, 0, 160], (0, 0), 1, [0, 0, 0, 1, 1, 1], 0),
    ] {
        let request = field_of_4(search);
        let inputs = format!("field of {pair}, {request}");
        let wanted = FieldAnswer::accepted(vector, (voters, voters), counts, dropped);
        let (mut here, mut there) = (lent(14, 100), lent(14, 100));
        let answer = archive::field(pair, &request, &mut here);
        let own = reckoning::field(pair, &request, &mut there);
        group.same(&inputs, (answer, own), (wanted, wanted));
        let list = [list, &vec![5; 14 - list.len()]].concat();
        group.same(&inputs, (&here.list, &there.list), (&list, &list));
        group.same(&inputs, &here.table, &there.table);

        let inputs = format!("step of {pair}, {request}");
        let track = stands(true, 10, 20, 3);
        let wanted = match voters {
            0 => (refused(52), track),
            _ => (wanted, stepped_on(track, vector)),
        };
        let mut after = lent(14, 100);
        let stepped = archive::step(track, pair, &request, &mut after);
        let own = reckoning::step(track, pair, &request, &mut lent(14, 100));
        group.same(&inputs, (stepped, own), (wanted, wanted));
        group.same(&inputs, after, here);
        let reckoned = reckoning::reckoned_step(track, pair, &request, 14, 100);
        let own = (reckoned.refusal, reckoned.track);
        group.same(&inputs, own, (wanted.0.refusal, wanted.1));
    }
}

/// "G* home (10,20), step B: (10,19), steps 1" and "H* home (0,-1000000), step B: 33". G's track then holds B's travel, (0,-1), and H's none.
fn pairs_g_and_h(group: &mut Group) {
    let pair = frames_of_b();
    let request = field_of_4(2);
    let mut of_g = homed_at(10, 19);
    (of_g.steps, of_g.held) = (1, 1);
    (of_g.travel_dx[0], of_g.sum_dx) = (-1, -1);
    for (what, place, refusal, there) in [
        ("G", (10, 20), 0, of_g),
        ("H", (0, -1_000_000), 33, homed_at(0, -1_000_000)),
    ] {
        let new = archive::new_track();
        let (homed, here) = archive::home(new, place.0, place.1);
        let home = reckoning::home(reckoning::NEW, place.0, place.1);
        group.same(what, (homed, here), home);
        let (answer, stood) = archive::step(here, &pair, &request, &mut lent(3, 30));
        group.same(what, (answer.refusal, stood), (refusal, there));
        let (answer, stood) = reckoning::step(home.1, &pair, &request, &mut lent(3, 30));
        group.same(what, (answer.refusal, stood), (refusal, there));
        let reckoned = reckoning::reckoned_step(home.1, &pair, &request, 3, 30);
        group.same(what, (reckoned.refusal, reckoned.track), (refusal, there));
    }
}

/// A log, what it prints, and what reading it answers and lists; both sides must say so.
fn logged(group: &mut Group, what: &str, log: &[u8], text: &str, wanted: LogRead, list: &[i32]) {
    let inputs = format!("log of pair {what}");
    let kept = [list, &vec![5; 14 - list.len()]].concat();
    let (mut here, mut there) = (vec![5; 14], vec![5; 14]);
    group.same(&inputs, archive::read_log(log, &mut here, 14), wanted);
    group.same(&inputs, logs::read_log(log, &mut there), wanted);
    group.same(&inputs, (&here, &there), (&kept, &kept));

    let mut buffer = vec![b'*'; 100];
    let length = archive::print_log(log, &mut buffer, 100);
    let printed = [text, &"*".repeat(100 - text.len())].concat();
    group.same(&inputs, length, text.len() as i64);
    group.same(&inputs, buffer, printed.into_bytes());
    group.same(&inputs, &logs::print_log(log)[..], text);
}

/// The heads of B and C, and their logs by search 2.
pub const HEAD_OF_B: Head = Head {
    width: 5,
    height: 4,
    n: 4,
    w: 1,
    search: 2,
    measure: 1,
};
pub const HEAD_OF_C: Head = Head {
    width: 8,
    height: 8,
    ..HEAD_OF_B
};
pub const LOG_OF_B: &[u8] = &[1, 0, 5, 0, 4, 4, 1, 2, 2, 0, 1, 0, 0, 4, 0, 0, 0, 1];
pub const LOG_OF_C: &[u8] = &[1, 0, 8, 0, 8, 4, 1, 2, 3, 3, 3, 3, 4, 0, 0, 0, 4];

/// A log that both sides write from this head and this list, and that reads and prints so.
fn kept_in_log(group: &mut Group, what: &str, head: Head, list: &[i32], log: &[u8], text: &str) {
    let read = LogRead {
        head,
        ..LogRead::default()
    };
    logged(group, what, log, text, read, list);
    let written = Written {
        length: log.len() as i64,
        ..Written::default()
    };
    let kept = [log, b"***"].concat();
    let (mut here, mut there) = (vec![b'*'; kept.len()], vec![b'*'; kept.len()]);
    let answer = archive::write_log(&head, list, &mut here, kept.len());
    group.same(what, answer, written);
    group.same(what, logs::write_log(&head, list, &mut there), written);
    group.same(what, (&here, &there), (&kept, &kept));
}

/// "B [...] search 2's log above" with its text, "C [...] log `01 00 08 00 08 04 01 02 03 03 03 03 04 00 00 00 04`" and "I* empty
/// log: 13 at 0".
fn logs_of_b_c_and_i(group: &mut Group) {
    let still = [0, 0, 0].repeat(4);
    let text_of_b = "5 4 4 1 2\n0 1 0\nend 1\n";
    let text_of_c = "8 8 4 1 2\n0 0 0\n0 0 0\n0 0 0\n0 0 0\nend 4\n";
    for (what, head, log, text, list) in [
        ("B", HEAD_OF_B, LOG_OF_B, text_of_b, &[0, 1, 0][..]),
        ("C", HEAD_OF_C, LOG_OF_C, text_of_c, &still[..]),
    ] {
        kept_in_log(group, what, head, list, log, text);
    }
    let read = LogRead {
        refusal: 13,
        ..LogRead::default()
    };
    logged(group, "I", b"", "refused 13 at 0\n", read, &[]);

    // B's log once more, of the list that the field call fills.
    let mut of_field = lent(3, 30);
    let answer = archive::field(&frames_of_b(), &field_of_4(2), &mut of_field);
    group.same("B, its field", answer.refusal, 0);
    let mut log = vec![b'*'; LOG_OF_B.len()];
    archive::write_log(&HEAD_OF_B, &of_field.list, &mut log, LOG_OF_B.len());
    group.same("B, written from its field", &log[..], LOG_OF_B);
}

/// "J 16×16, 0 against 255: 65,280"; and 32 × 32, 261,120, which is T's limit. A T of just the distortion does not end the search.
fn pair_j(group: &mut Group) {
    for (n, distortion) in [(16, 65_280), (32, 261_120)] {
        for (older, newer) in [(0, 255), (255, 0)] {
            let pair = flat(n, n, older, newer);
            measured(group, "J", &pair, at_zero(n), distortion);
            let tested = [i64::from(n == 32), 1, 1, 1, 1, 1];
            for (search, w, t, counts) in [
                (1, 16, 0, [0, 0, 0, 0, 0, 1]),
                (2, 16, 0, tested),
                (3, 7, 0, [0, 0, 0, 0, 0, 1]),
                (4, 16, 0, [0, 0, 0, 0, 0, 1]),
                (4, 16, distortion as u32, [0, 0, 0, 0, 0, 1]),
            ] {
                let request = Request {
                    n,
                    ..block_of_4(search, w, t, 0, 0)
                };
                let wanted = found((0, 0), distortion, counts, 0);
                searched(group, "J", &pair, request, wanted);
            }
        }
    }
}

/// Pairs of one block of 32 × 32, worked out by hand: one like B, whose rows rise by 5, and J's. Their fields, and the logs of these: command 5
/// above 65,535, command 6 by squares.
fn blocks_of_32(group: &mut Group) {
    let older: Vec<u8> = (0..33).map(|c| 5 * c).collect();
    let newer: Vec<u8> = (1..33).map(|c| 5 * c).chain([99]).collect();
    let rising = Pair {
        older: older.repeat(32),
        newer: newer.repeat(32),
        width: 33,
        height: 32,
    };
    let j = flat(32, 32, 0, 255);
    // (0,0) has 1,024 × 5, by squares 1,024 × 5²; its distance at m = 32 does not exceed that, or by squares 32² times that. At m = 16
    // (0,1) lowers E to 0. J's block has one candidate.
    let right = found((0, 1), 0, [2, 2, 1, 1, 1, 1], 1);
    let alone = |distortion| found((0, 0), distortion, [1; 6], 0);
    for (pair, measure, at_zero, pruned, log, text) in [
        (
            &rising,
            1,
            5_120,
            right,
            &[1, 0, 33, 0, 32, 32, 1, 2, 2, 0, 1, 0, 0, 4, 0, 0, 0, 1][..],
            "33 32 32 1 2\n0 1 0\nend 1\n",
        ),
        (
            &rising,
            2,
            25_600,
            right,
            &[6, 0, 33, 0, 32, 32, 1, 2, 2, 2, 0, 1, 0, 0, 4, 0, 0, 0, 1],
            "33 32 32 1 2 2\n0 1 0\nend 1\n",
        ),
        (
            &j,
            1,
            261_120,
            alone(261_120),
            &[
                1, 0, 32, 0, 32, 32, 1, 2, 5, 0, 0, 0, 3, 252, 0, 4, 0, 0, 0, 1,
            ],
            "32 32 32 1 2\n0 0 261120\nend 1\n",
        ),
        (
            &j,
            2,
            66_585_600,
            alone(66_585_600),
            &[
                6, 0, 32, 0, 32, 32, 1, 2, 2, 5, 0, 0, 3, 248, 4, 0, 4, 0, 0, 0, 1,
            ],
            "32 32 32 1 2 2\n0 0 66585600\nend 1\n",
        ),
    ] {
        let what = "a block of 32";
        let question = Measuring {
            measure,
            ..self::at_zero(32)
        };
        measured(group, what, pair, question, at_zero);
        let candidates = pruned.counts[0];
        let full = Answer {
            counts: [0, 0, 0, 0, 0, candidates],
            dropped: 0,
            ..pruned
        };
        let list = [pruned.dy, pruned.dx, pruned.distortion].map(|value| value as i32);
        for (search, wanted) in [(1, full), (2, pruned)] {
            let block = Request {
                n: 32,
                measure,
                ..block_of_4(search, 1, 0, 0, 0)
            };
            searched(group, what, pair, block, wanted);
            // J's block is blank.
            let voters = pruned.dx;
            let vector = (wanted.dy, wanted.dx);
            let wanted =
                FieldAnswer::accepted(vector, (voters, voters), wanted.counts, wanted.dropped);
            let (mut here, mut there) = (lent(3, 34 * 33), lent(3, 34 * 33));
            let answer = archive::field(pair, &block.of_field(), &mut here);
            let own = reckoning::field(pair, &block.of_field(), &mut there);
            group.same(what, (answer, own), (wanted, wanted));
            group.same(what, &here, &there);
            group.same(what, &here.list[..], &list);
        }
        let head = Head {
            width: pair.width,
            height: 32,
            n: 32,
            measure,
            ..HEAD_OF_B
        };
        kept_in_log(group, what, head, &list, log, text);
    }
}

/// Worked out by hand by squares: A, B, D and J, and a pair in which one grey level decides at which m a vector is dropped.
fn by_squares(group: &mut Group) {
    let squares = |request: Request| Request {
        measure: 2,
        ..request
    };
    let at_zero = |n| Measuring {
        measure: 2,
        ..at_zero(n)
    };
    let full_and_pruned = |group: &mut Group, what: &str, pair: &Pair, w, full, pruned| {
        let request = |search| squares(block_of_4(search, w, 0, 0, 0));
        searched(group, what, pair, request(1), full);
        searched(group, what, pair, request(2), pruned);
    };

    // A: 16 × 2².
    let (what, pair) = ("A by squares", flat(4, 4, 12, 10));
    let full = found((0, 0), 64, [0, 0, 0, 0, 0, 1], 0);
    let pruned = found((0, 0), 64, [0, 0, 0, 1, 1, 1], 0);
    full_and_pruned(group, what, &pair, 16, full, pruned);
    measured(group, what, &pair, at_zero(4), 64);
    distances(group, what, &pair, 2, (0, 0), [32 * 32, 4 * 8 * 8, 64]);

    // B: (0,0) has 16 × 10², which is E at m = 4. Its distance there, 160², is 4² × E and does not exceed it. At m = 2 (0,1) lowers E
    // to 0.
    let (what, pair) = ("B by squares", frames_of_b());
    let full = found((0, 1), 0, [0, 0, 0, 0, 0, 2], 0);
    let pruned = found((0, 1), 0, [0, 0, 0, 2, 2, 1], 1);
    full_and_pruned(group, what, &pair, 1, full, pruned);
    measured(group, what, &pair, at_zero(4), 1600);
    distances(group, what, &pair, 2, (0, 0), [25_600, 6_400, 1_600]);
    distances(group, what, &pair, 2, (0, 1), [0, 0, 0]);

    // (0,0) is 3 off in one pel: E is 9. The block of (0,1) has another sum by 12, and 12² is 4² × E; or by 13, and 13² exceeds it.
    // At m = 2, 3² + 15² exceeds 2² × E. By absolute 12 exceeds 3 at once.
    for (pel, at_2, far) in [(25, 2, [144, 234, 234]), (26, 1, [169, 265, 265])] {
        let (what, mut pair) = ("a pel more or less, by squares", flat(5, 4, 10, 10));
        pair.newer[0] = 13;
        pair.older[3 * 5 + 4] = pel;
        let full = found((0, 0), 9, [0, 0, 0, 0, 0, 2], 0);
        let pruned = found((0, 0), 9, [0, 0, 0, 2, at_2, 1], 1);
        full_and_pruned(group, what, &pair, 1, full, pruned);
        distances(group, what, &pair, 2, (0, 0), [9, 9, 9]);
        distances(group, what, &pair, 2, (0, 1), far);
        let pruned = found((0, 0), 3, [0, 0, 0, 2, 1, 1], 1);
        let request = block_of_4(2, 1, 0, 0, 0);
        searched(group, "a pel more or less", &pair, request, pruned);
    }

    // D: 16 × 10².
    let (what, pair) = ("D by squares", frames_of_d());
    let full = found((0, 0), 1600, [0, 0, 0, 0, 0, 1], 0);
    let pruned = found((0, 0), 1600, [0, 0, 0, 1, 1, 1], 0);
    full_and_pruned(group, what, &pair, 0, full, pruned);
    full_and_pruned(group, what, &pair, 16, full, pruned);
    measured(group, what, &pair, at_zero(4), 1600);
    distances(group, what, &pair, 2, (0, 0), [0, 0, 1600]);

    // J, and smaller blocks in its frames: 65,025 × N². None is dropped, for all have the distance m² × E at each m. The largest T is
    // larger than what N 4, 8 and 16 can have.
    for (older, newer) in [(0, 255), (255, 0)] {
        for (side, n, candidates, most) in [
            (16, 4, 169, 1_040_400),
            (16, 8, 81, 4_161_600),
            (16, 16, 1, 16_646_400),
            (32, 16, 289, 16_646_400),
            (32, 32, 1, 66_585_600),
        ] {
            let (what, pair) = ("J by squares", flat(side, side, older, newer));
            measured(group, what, &pair, at_zero(n), most);
            let tested = [32, 16, 8, 4, 2, 1].map(|m| if m <= n { candidates } else { 0 });
            for (search, t, counts) in [
                (1, 0, [0, 0, 0, 0, 0, candidates]),
                (2, 0, tested),
                (4, 66_585_600, [0, 0, 0, 0, 0, 1]),
            ] {
                let request = squares(Request {
                    n,
                    ..block_of_4(search, 16, t, 0, 0)
                });
                searched(group, what, &pair, request, found((0, 0), most, counts, 0));
            }
        }
    }
}

/// "It begins (0,0), (-1,0), [...] (2,0) and ends with (16,16)": the rival's order is the one that the rules mean.
fn preference_order(group: &mut Group) {
    let order = rival::preference_order(16);
    let begins = [
        (0, 0),
        (-1, 0),
        (0, -1),
        (0, 1),
        (1, 0),
        (-2, 0),
        (-1, -1),
        (-1, 1),
        (0, -2),
        (0, 2),
        (1, -1),
        (1, 1),
        (2, 0),
    ];
    let inputs = "the rival's own preference order: its length, begin and end";
    group.same(inputs, order.len(), 1089);
    group.same(inputs, &order[..begins.len()], &begins[..]);
    group.same(inputs, order.last(), Some(&(16, 16)));
}

/// All worked pairs; answers with the number of mismatches.
pub fn run() -> u64 {
    let mut group = Group::new("worked pairs");
    pair_a(&mut group);
    pair_b(&mut group);
    pair_c(&mut group);
    pair_d(&mut group);
    pairs_e_and_f(&mut group);
    fields_of_a_to_d(&mut group);
    pairs_g_and_h(&mut group);
    logs_of_b_c_and_i(&mut group);
    pair_j(&mut group);
    blocks_of_32(&mut group);
    by_squares(&mut group);
    preference_order(&mut group);
    group.end()
}
