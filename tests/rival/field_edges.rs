//! The edges of fields and of the track, with the expected numbers written down here: every refusal of a field and of a step from
//! both sides, their order, homings, steps of tracks built by hand, and what list and table hold after each.

use crate::archive;
use crate::edges::{choices, pair_of, pair_with_lengths, ABOVE_32, TOP_BIT};
use crate::fields::BEHIND;
use crate::group::Group;
use crate::question::{
    FieldAnswer, FieldRequest, Lent, Pair, Track, HELD_MOST, MEASURES, NO_MEASURES,
};
use crate::reckoning::{self, holding, NEW};
use crate::rival::Vector;
use crate::worked::{flat, frames_of_b};

/// What list and table hold before a call.
const NUMBER: i32 = -77_777_777;
pub const SUM: u32 = 3_141_592_653;

/// The ends of the track's range.
pub const END: i32 = 1_000_000;

/// Lent memory of these lengths.
pub fn lent(list_length: usize, table_length: usize) -> Lent {
    Lent {
        list: vec![NUMBER; list_length + BEHIND],
        list_length,
        table: vec![SUM; table_length + BEHIND],
        table_length,
    }
}

/// What a field of this pair needs of list and table.
pub fn needed(pair: &Pair, n: usize) -> (usize, usize) {
    let blocks = (pair.height / n) * (pair.width / n);
    (3 * blocks, (pair.width + 1) * (pair.height + 1))
}

fn asks(n: usize, search: u32, w: usize, t: u32, measure: u32) -> FieldRequest {
    FieldRequest {
        n,
        search,
        w,
        t,
        measure,
    }
}

/// What a track that stands somewhere holds.
const TRAVELS: [Vector; 2] = [(3, -4), (-16, 16)];

/// A track that holds two travels, with stray numbers in the places behind them.
pub fn stands(homed: bool, y: i32, x: i32, steps: u32) -> Track {
    let track = Track {
        homed,
        y,
        x,
        steps,
        travel_dy: [NUMBER; HELD_MOST],
        travel_dx: [NUMBER; HELD_MOST],
        ..NEW
    };
    holding(track, &TRAVELS)
}

/// The same after a step of this reading: its reverse is added to the place, and comes behind the two.
pub fn stepped_on(track: Track, (dy, dx): Vector) -> Track {
    let there = Track {
        y: track.y - dy as i32,
        x: track.x - dx as i32,
        steps: track.steps + 1,
        ..track
    };
    holding(there, &[TRAVELS[0], TRAVELS[1], (-dy, -dx)])
}

/// What 32 turns away, each alone, in a track that stands as above: its steps, more than 64 held, a held part outside -16..16, and a false sum.
pub const SPOILT: [fn(Track) -> Track; 6] = [
    |track| Track {
        steps: 1_000_000,
        ..track
    },
    |track| Track { held: 65, ..track },
    |mut track| {
        track.travel_dy[1] -= 1;
        track.sum_dy -= 1;
        track
    },
    |mut track| {
        track.travel_dx[1] += 1;
        track.sum_dx += 1;
        track
    },
    |mut track| {
        track.sum_dy += 1;
        track
    },
    |mut track| {
        track.sum_dx -= 1;
        track
    },
];

/// A track as homing leaves it: no travel held, all places and sums 0.
pub fn homed_at(y: i32, x: i32) -> Track {
    Track {
        homed: true,
        y,
        x,
        ..NEW
    }
}

/// A refused answer.
pub fn refused(refusal: i64) -> FieldAnswer {
    FieldAnswer {
        refusal,
        ..FieldAnswer::default()
    }
}

/// A field, and the same as a step of a homed track and of a new one, with so much of list and table. All must answer with this
/// refusal, the new track's step with 31 instead of 0; a refused call is all zeros and leaves track and lent memory as they were.
/// An accepted one is the rival's.
fn asked(
    group: &mut Group,
    pair: &Pair,
    request: FieldRequest,
    lengths: (usize, usize),
    refusal: i64,
) {
    let before = lent(lengths.0, lengths.1);
    let inputs = format!("{pair}, {request}, {before}");
    let (mut here, mut there) = (before.clone(), before.clone());
    let answer = archive::field(pair, &request, &mut here);
    let own = reckoning::field(pair, &request, &mut there);
    group.same(&inputs, answer.refusal, refusal);
    group.same(&inputs, answer, own);
    group.same(&inputs, &here, &there);
    if refusal != 0 {
        group.same(&inputs, answer, refused(refusal));
        group.same(&inputs, &here, &before);
    }
    let not_homed = if refusal == 0 { 31 } else { refusal };
    for (track, refusal) in [(stands(true, 5, -6, 7), refusal), (NEW, not_homed)] {
        let inputs = format!("{track:?}, {inputs}");
        let (mut here, mut there) = (before.clone(), before.clone());
        let stepped = archive::step(track, pair, &request, &mut here);
        let own = reckoning::step(track, pair, &request, &mut there);
        group.same(&inputs, stepped.0.refusal, refusal);
        group.same(&inputs, stepped, own);
        group.same(&inputs, &here, &there);
        if refusal != 0 {
            group.same(&inputs, stepped, (refused(refusal), track));
            group.same(&inputs, &here, &before);
        }
    }
}

/// Refusals 1, 2 and 3, by one measure.
fn pairs((measure, by): (u32, &str)) -> u64 {
    let mut group = Group::new(format!(
        "fields and steps, {by}, edges of sizes, frames and N"
    ));
    let plain = |n| asks(n, 1, 0, 0, measure);
    for (width, height, n, refusal) in [
        (4, 4, 4, 0),
        (3, 4, 4, 1),
        (4, 3, 4, 1),
        (1024, 4, 4, 0),
        (1025, 4, 4, 1),
        (4, 1024, 4, 0),
        (4, 1025, 4, 1),
        (1024, 1024, 16, 0),
        (8, 8, 8, 0),
        (7, 8, 8, 3),
        (8, 7, 8, 3),
        (16, 16, 16, 0),
        (15, 16, 16, 3),
        (16, 15, 16, 3),
        (32, 32, 32, 0),
        (31, 32, 32, 3),
        (32, 31, 32, 3),
        (1024, 1024, 32, 0),
    ] {
        let pair = pair_of(width, height);
        let lengths = needed(&pair, n);
        asked(&mut group, &pair, plain(n), lengths, refusal);
    }
    // Frames of a few pels, and of none, as many as are left of a product that wraps.
    for size in [0, ABOVE_32 + 8, TOP_BIT, usize::MAX] {
        for (width, height) in [(size, 4), (4, size), (size, size)] {
            for length in [0, 16] {
                let pair = pair_with_lengths(width, height, length, length);
                asked(&mut group, &pair, plain(4), (60, 60), 1);
            }
        }
    }
    for (older, newer) in [(47, 48), (49, 48), (48, 47), (48, 49), (0, 48), (48, 0)] {
        let pair = pair_with_lengths(8, 6, older, newer);
        asked(&mut group, &pair, plain(4), (60, 63), 2);
    }
    let pair = pair_of(64, 64);
    let small = [0, 1, 2, 3, 5, 7, 9, 12, 15, 17, 24, 31, 33, 48, 64];
    for n in small.into_iter().chain([usize::MAX]) {
        asked(&mut group, &pair, plain(n), (768, 4225), 3);
    }
    group.end()
}

/// Refusals 4, 51, 5 and 6.
fn requests() -> u64 {
    let mut group = Group::new("fields and steps, edges of search, measure, w and T");
    let pair = pair_of(64, 48);
    for (search, w, t, measure, refusal) in [
        (0, 1, 0, 1, 4),
        (5, 1, 0, 2, 4),
        (u32::MAX, 1, 0, 1, 4),
        (0, 1, 0, 3, 4),
        (1, 0, 0, 1, 0),
        (1, 16, 0, 1, 0),
        (1, 16, 0, 2, 0),
        (1, 17, 0, 1, 5),
        (1, 17, 0, 2, 5),
        (2, 0, 0, 1, 0),
        (2, 0, 0, 2, 0),
        (2, 16, 0, 1, 0),
        (2, 16, 0, 2, 0),
        (2, 17, 0, 1, 5),
        (2, 17, 0, 3, 51),
        (2, usize::MAX, 0, 1, 5),
        (3, 6, 0, 1, 5),
        (3, 7, 0, 1, 0),
        (3, 7, 0, 2, 0),
        (3, 8, 0, 1, 5),
        (4, 2, 0, 1, 0),
        (4, 3, 0, 1, 5),
        (4, 16, 0, 2, 0),
        (4, 32, 0, 2, 5),
        (4, 4, 65_281, 1, 0),
        (4, 4, 261_120, 1, 0),
        (4, 4, 261_121, 1, 6),
        (4, 4, 261_121, 2, 0),
        (4, 4, 66_585_600, 2, 0),
        (4, 4, 66_585_601, 2, 6),
        (4, 4, u32::MAX, 1, 6),
        (4, 4, u32::MAX, 2, 6),
        (4, 4, u32::MAX, 0, 51),
        (1, 7, 1, 1, 6),
        (2, 7, 1, 1, 6),
        (3, 7, 1, 1, 6),
        (1, 7, 1, 2, 6),
        (2, 7, 1, 2, 6),
        (3, 7, 1, 2, 6),
    ] {
        // 12 blocks, and 2.
        for (n, list) in [(16, 36), (32, 6)] {
            let request = asks(n, search, w, t, measure);
            asked(&mut group, &pair, request, (list, 3185), refusal);
        }
    }
    for measure in NO_MEASURES {
        for (search, w) in [(1, 7), (2, 7), (3, 7), (4, 8)] {
            let request = asks(16, search, w, 0, measure);
            asked(&mut group, &pair, request, (36, 3185), 51);
            // Before 9 and 10.
            asked(&mut group, &pair, request, (35, 0), 51);
        }
    }
    group.end()
}

/// Refusals 9 and 10: three numbers a block, and for search 2 (width + 1) × (height + 1) sums. The other searches need no table.
fn lengths() -> u64 {
    let mut group = Group::new("fields and steps, edges of list and table");
    let pair = pair_of(64, 48);
    for (search, w, measure) in [(1, 7, 1), (2, 7, 1), (2, 7, 2), (3, 7, 2), (4, 8, 2)] {
        let no_table = if search == 2 { 9 } else { 0 };
        for (n, list, table, refusal) in [
            (16, 36, 3185, 0),
            (16, 99, 4000, 0),
            (16, 36, 3184, no_table),
            (16, 36, 0, no_table),
            (16, 35, 3185, 10),
            (16, 0, 3185, 10),
            (32, 6, 3185, 0),
            (32, 6, 3184, no_table),
            (32, 5, 3185, 10),
        ] {
            let request = asks(n, search, w, 0, measure);
            asked(&mut group, &pair, request, (list, table), refusal);
        }
    }
    group.end()
}

/// The table of B's older frame, whose rows are 0 10 20 30 40.
fn table_of_b() -> Vec<u32> {
    let rows = (0..=4).map(|r| [0, 0, 10, 30, 60, 100].map(|sum| r * sum));
    rows.flatten().collect()
}

/// A step of B by search 2 whose lent memory is longer than it need be: refused so, or with 0 taken one to the left. With 0 and 33 the
/// list has B's block and the table its sums, else both are as they were. By squares all of this is the same.
fn step_of_b(group: &mut Group, track: Track, measure: u32, refusal: i64) {
    let wanted = match refusal {
        0 => {
            let answer = FieldAnswer::accepted((0, 1), (1, 1), [0, 0, 0, 2, 2, 1], 1);
            (answer, stepped_on(track, (0, 1)))
        }
        _ => (refused(refusal), track),
    };
    let mut kept = lent(14, 100);
    if refusal == 0 || refusal == 33 {
        kept.list[..3].copy_from_slice(&[0, 1, 0]);
        kept.table[..30].copy_from_slice(&table_of_b());
    }
    let request = asks(4, 2, 1, 0, measure);
    let (mut here, mut there) = (lent(14, 100), lent(14, 100));
    let stepped = archive::step(track, &frames_of_b(), &request, &mut here);
    let own = reckoning::step(track, &frames_of_b(), &request, &mut there);
    let inputs = format!("{track:?}, step of B, measure {measure}");
    group.same(&inputs, (stepped, own), (wanted, wanted));
    group.same(&inputs, (&here, &there), (&kept, &kept));
}

/// B asked so that any choice of rules is broken, 32 in every way: the first of them answers, the track's rules last. Its block votes no more where
/// each pel has a tenth of its grey, and still has (0,1), so that 33 would apply if it did vote.
fn order((measure, by): (u32, &str)) -> u64 {
    let mut group = Group::new(format!("fields and steps, {by}, order of refusals"));
    for rules in choices(&[1, 2, 3, 4, 51, 5, 6, 9, 10, 31, 32, 52, 33]) {
        let first = rules.first().copied().unwrap_or(0);
        let broken = |rule| rules.contains(&rule);
        let mut pair = frames_of_b();
        if broken(52) {
            pair.older.iter_mut().for_each(|pel| *pel /= 10);
            pair.newer.iter_mut().for_each(|pel| *pel /= 10);
        }
        if broken(1) {
            pair.width = 3;
        }
        if broken(2) {
            pair.newer.pop();
        }
        let n = if broken(3) { 5 } else { 4 };
        let search = if broken(4) { 0 } else { 2 };
        let w = if broken(5) { 17 } else { 1 };
        let measure = if broken(51) { measure + 256 } else { measure };
        let request = asks(n, search, w, u32::from(broken(6)), measure);
        let x = if broken(33) { -END } else { 20 };
        let mut tracks = vec![stands(!broken(31), 10, x, 0)];
        if broken(32) {
            tracks = SPOILT.map(|spoil| spoil(tracks[0])).to_vec();
        }
        let table_length = if broken(9) { 29 } else { 30 };
        let before = lent(if broken(10) { 2 } else { 3 }, table_length);

        let mut here = before.clone();
        let answer = archive::field(&pair, &request, &mut here);
        let wanted = if [31, 32, 52, 33].contains(&first) {
            0
        } else {
            first
        };
        let inputs = format!("{rules:?}, {pair}, {request}, {before}");
        group.same(&inputs, answer.refusal, wanted);
        group.same(&inputs, here != before, wanted == 0);

        for track in tracks {
            let mut here = before.clone();
            let (answer, after) = archive::step(track, &pair, &request, &mut here);
            let inputs = format!("{inputs}, {track:?}");
            group.same(&inputs, answer.refusal, first);
            group.same(&inputs, after != track, first == 0);
            let filled = [0, 52, 33].contains(&first);
            group.same(&inputs, here != before, filled);
        }
    }
    group.end()
}

/// A field by this search with these answers, the first numbers of its list, and its table the rival's.
fn field_of(
    group: &mut Group,
    pair: &Pair,
    request: FieldRequest,
    wanted: FieldAnswer,
    list: &[i32],
) {
    let inputs = format!("{pair}, {request}");
    let (list_length, table_length) = needed(pair, request.n);
    let mut here = lent(list_length + 8, table_length + 8);
    let mut there = here.clone();
    let answer = archive::field(pair, &request, &mut here);
    let own = reckoning::field(pair, &request, &mut there);
    group.same(&inputs, (answer, own), (wanted, wanted));
    let kept = [list, &vec![NUMBER; here.list.len() - list.len()]].concat();
    group.same(&inputs, (&here.list, &there.list), (&kept, &kept));
    group.same(&inputs, &here.table, &there.table);
    let sums = if request.search == 2 { table_length } else { 0 };
    let behind = here.table[sums..].iter().all(|&sum| sum == SUM);
    group.holds(&inputs, behind, &"the table behind its sums", &SUM);
}

/// Pels that no grid block has, the greatest sums there are, and the searches that fill no table.
fn whole_fields() -> u64 {
    let mut group = Group::new("fields, answers written down");
    let odd: Vec<u8> = (0..77).map(|i| (i * i % 255) as u8).collect();
    let pair = Pair {
        older: odd.clone(),
        newer: odd,
        width: 11,
        height: 7,
    };
    let wanted = FieldAnswer::accepted((0, 0), (2, 2), [0, 0, 0, 2, 2, 2], 0);
    for measure in [1, 2] {
        let request = asks(4, 2, 0, 0, measure);
        field_of(&mut group, &pair, request, wanted, &[0; 6]);
    }

    // The table has sums of pels by each measure. In flat frames no block votes.
    let pair = flat(1024, 1024, 255, 0);
    let of_16 = [0, 4096, 4096, 4096, 4096, 4096];
    for (n, measure, most, counts) in [
        (16, 1, 65_280, of_16),
        (16, 2, 16_646_400, of_16),
        (32, 1, 261_120, [1024; 6]),
        (32, 2, 66_585_600, [1024; 6]),
    ] {
        let request = asks(n, 2, 0, 0, measure);
        let wanted = FieldAnswer::accepted((0, 0), (0, 0), counts, 0);
        let list = [0, 0, most].repeat(counts[5] as usize);
        field_of(&mut group, &pair, request, wanted, &list);
        let mut lent = lent(list.len(), 1025 * 1025);
        archive::field(&pair, &request, &mut lent);
        let last = lent.table[1025 * 1025 - 1];
        group.same("the greatest sum", last, 267_386_880);
    }

    // The most voters that there can be, one more than two bytes hold, all with one vector.
    let mut pair = flat(1024, 1024, 40, 40);
    pair.newer.iter_mut().step_by(2).for_each(|pel| *pel = 48);
    pair.older.clone_from(&pair.newer);
    let all = (65_536, 65_536);
    let wanted = FieldAnswer::accepted((0, 0), all, [0, 0, 0, 0, 0, 65_536], 0);
    for measure in [1, 2] {
        let request = asks(4, 1, 0, 0, measure);
        field_of(&mut group, &pair, request, wanted, &[0; 3 * 65_536]);
    }

    let pair = flat(8, 8, 7, 7);
    for (search, w, t, count) in [(3, 7, 0, 28), (4, 2, 0, 16), (4, 2, 1, 4)] {
        let wanted = FieldAnswer::accepted((0, 0), (0, 0), [0, 0, 0, 0, 0, count], 0);
        for measure in [1, 2] {
            let request = asks(4, search, w, t, measure);
            field_of(&mut group, &pair, request, wanted, &[0; 12]);
        }
    }

    // Every pel 9 apart, 16 × 9 and 16 × 81: a T that is one more ends each block's search at (0,0), a T of just that does not.
    let pair = flat(8, 8, 7, 16);
    for (measure, distortion) in [(1, 144), (2, 1296)] {
        for (t, count) in [(distortion, 16), (distortion + 1, 4)] {
            let wanted = FieldAnswer::accepted((0, 0), (0, 0), [0, 0, 0, 0, 0, count], 0);
            let request = asks(4, 4, 2, t as u32, measure);
            let list = [0, 0, distortion].repeat(4);
            field_of(&mut group, &pair, request, wanted, &list);
        }
    }
    group.end()
}

/// Refusal 11: homings of tracks that are new, far on, or built by hand.
fn homing() -> u64 {
    let mut group = Group::new("homings");
    group.same("a new track", archive::new_track(), NEW);
    for track in [
        NEW,
        stands(true, 3, -4, 999_999),
        stands(false, i32::MIN, i32::MAX, u32::MAX),
    ] {
        for (y, x, refusal) in [
            (0, 0, 0),
            (-END, -END, 0),
            (END, END, 0),
            (12, -34, 0),
            (END + 1, 0, 11),
            (-END - 1, 0, 11),
            (0, END + 1, 11),
            (0, -END - 1, 11),
            (i32::MIN, 0, 11),
            (0, i32::MAX, 11),
        ] {
            let wanted = match refusal {
                0 => (0, homed_at(y, x)),
                _ => (11, track),
            };
            let inputs = format!("{track:?}, home ({y},{x})");
            group.same(&inputs, archive::home(track, y, x), wanted);
            group.same(&inputs, reckoning::home(track, y, x), wanted);
        }
    }
    group.end()
}

/// Refusals 31, 32 and 33, and steps by every search.
fn stepping() -> u64 {
    let mut group = Group::new("steps");
    for (track, refusal) in [
        (stands(true, 10, 20, 0), 0),
        (stands(true, 0, -END, 0), 33),
        (stands(true, 0, 1 - END, 0), 0),
        (NEW, 31),
        (stands(false, 0, 0, 1_000_000), 31),
        (stands(false, 0, -END, 0), 31),
        (stands(true, 0, 0, 999_999), 0),
        (stands(true, 0, 0, 1_000_000), 32),
        (stands(true, 0, 0, u32::MAX), 32),
        (stands(true, 0, -END, 1_000_000), 32),
        // 33 looks at the new place alone: back into the range, and not back.
        (stands(true, 0, END + 1, 0), 0),
        (stands(true, 0, END + 2, 0), 33),
        (stands(true, END + 1, 0, 0), 33),
        (stands(true, -END - 1, 0, 0), 33),
        (stands(true, 0, i32::MIN, 0), 33),
        (stands(true, i32::MAX, 0, 0), 33),
    ] {
        step_of_b(&mut group, track, 1, refusal);
        step_of_b(&mut group, track, 2, refusal);
    }
    // B turned by a right angle travels up.
    let turned = Pair {
        older: [[0; 4], [10; 4], [20; 4], [30; 4], [40; 4]].concat(),
        newer: [[10; 4], [20; 4], [30; 4], [40; 4], [99; 4]].concat(),
        width: 4,
        height: 5,
    };
    // C with two greys, so that its blocks vote.
    let mut c = flat(8, 8, 7, 7);
    for place in (0..64).step_by(2) {
        (c.older[place], c.newer[place]) = (15, 15);
    }
    let b = frames_of_b();
    let full = FieldAnswer::accepted((0, 1), (1, 1), [0, 0, 0, 0, 0, 2], 0);
    let up = FieldAnswer::accepted((1, 0), (1, 1), [0, 0, 0, 2, 2, 1], 1);
    let still = |count| FieldAnswer::accepted((0, 0), (4, 4), [0, 0, 0, 0, 0, count], 0);
    for (pair, request, answer, y, x) in [
        (&b, asks(4, 1, 1, 0, 1), full, 10, 19),
        (&b, asks(4, 1, 1, 0, 2), full, 10, 19),
        (&turned, asks(4, 2, 1, 0, 1), up, 9, 20),
        (&turned, asks(4, 2, 1, 0, 2), up, 9, 20),
        (&c, asks(4, 3, 7, 0, 1), still(28), 10, 20),
        (&c, asks(4, 3, 7, 0, 2), still(28), 10, 20),
        (&c, asks(4, 4, 2, 9, 1), still(4), 10, 20),
        (&c, asks(4, 4, 2, 9, 2), still(4), 10, 20),
    ] {
        let (list, table) = needed(pair, 4);
        let track = stands(true, 10, 20, 0);
        let stepped = archive::step(track, pair, &request, &mut lent(list, table));
        let own = reckoning::step(track, pair, &request, &mut lent(list, table));
        let there = stepped_on(track, (answer.dy, answer.dx));
        let wanted = (answer, Track { y, x, ..there });
        let inputs = format!("{track:?}, {pair}, {request}");
        group.same(&inputs, (stepped, own), (wanted, wanted));
    }
    group.end()
}

/// All edges of fields and of the track; answers with the number of mismatches.
pub fn run() -> u64 {
    let by_measure = MEASURES.map(|measure| pairs(measure) + order(measure));
    let mismatches: u64 = by_measure.into_iter().sum();
    mismatches + requests() + lengths() + whole_fields() + homing() + stepping()
}
