//! Which blocks vote, and what follows from it, with the expected numbers written down here: blocks whose pels are just 7 or 8 apart,
//! pels that do not count, blank blocks that would outvote the others, ties among voters, and steps of pairs without a voter. All with
//! every N and both measures, by all four searches or by those that find the exhaustive best.

use crate::archive;
use crate::field_edges::{lent, needed, refused, stands, stepped_on, END, SUM};
use crate::group::Group;
use crate::pictures::Chance;
use crate::question::{FieldRequest, Lent, Pair, SIZES};
use crate::reckoning::{self, NEW};
use crate::rival::Vector;
use crate::worked::flat;

/// Every N, search and measure; w is 2, with four-step 7.
fn all_requests() -> Vec<FieldRequest> {
    let mut all = Vec::new();
    for n in SIZES {
        for search in 1..=4 {
            for measure in [1, 2] {
                all.push(FieldRequest {
                    n,
                    search,
                    w: if search == 3 { 7 } else { 2 },
                    t: 0,
                    measure,
                });
            }
        }
    }
    all
}

/// Those that find the exhaustive best.
fn exhaustive_requests() -> Vec<FieldRequest> {
    let mut all = all_requests();
    all.retain(|request| request.search <= 2);
    all
}

/// Lent memory for any of the pairs here.
fn room(pair: &Pair, n: usize) -> Lent {
    let (list, table) = needed(pair, n);
    lent(list + 2, table + 2)
}

/// The vector that a list has for grid block k.
fn listed(lent: &Lent, k: usize) -> Vector {
    (lent.list[3 * k] as i64, lent.list[3 * k + 1] as i64)
}

/// Two blocks along and two down, with three columns and two rows left over, all of one grey.
fn four_blocks(n: usize, grey: u8) -> Pair {
    flat(2 * n + 3, 2 * n + 2, grey, grey)
}

/// A field of which no block votes but these, all with one vector. Both sides must read so; list, table and sums are the rival's.
fn only_vote(group: &mut Group, what: &str, pair: &Pair, request: &FieldRequest, voters: &[usize]) {
    let inputs = format!("{what}, {pair}, {request}");
    let (mut here, mut there) = (room(pair, request.n), room(pair, request.n));
    let answer = archive::field(pair, request, &mut here);
    let own = reckoning::field(pair, request, &mut there);
    group.same(&inputs, answer, own);
    group.same(&inputs, &here, &there);
    let reading = voters.first().map_or((0, 0), |&k| listed(&there, k));
    let count = voters.len() as i64;
    let read = (answer.refusal, (answer.dy, answer.dx));
    group.same(&inputs, read, (0, reading));
    group.same(&inputs, (answer.votes, answer.voters), (count, count));

    // A step goes by the same reading, or is refused by 52.
    let track = stands(true, 100, 200, 5);
    let mut lent = room(pair, request.n);
    let (stepped, after) = archive::step(track, pair, request, &mut lent);
    if voters.is_empty() {
        group.same(&inputs, (stepped, after), (refused(52), track));
    } else {
        let there = stepped_on(track, reading);
        group.same(&inputs, (stepped, after), (own, there));
    }
    group.same(&inputs, &lent, &here);
}

/// One pel decides: it stands in a corner, at a border or inside of one of four blocks, 7 or 8 lighter or darker than all others. In the
/// older frame it stood one pel further, so that its block has another vector than (0,0), whether it votes or not.
fn one_pel() -> u64 {
    let mut group = Group::new("voters, one pel 7 or 8 off");
    for request in all_requests() {
        let n = request.n;
        let last = n - 1;
        let inside = [
            (0, 0),
            (0, last),
            (last, 0),
            (last, last),
            (0, n / 2),
            (last, 1),
            (n / 2, 0),
            (1, last),
            (n / 2, n / 2),
        ];
        for k in 0..4 {
            for (r, c) in inside {
                for (off, votes) in [(7, false), (8, true), (-7, false), (-8, true)] {
                    let mut pair = four_blocks(n, 100);
                    let place = (k / 2 * n + r) * pair.width + k % 2 * n + c;
                    let pel = (100 + off) as u8;
                    pair.newer[place] = pel;
                    pair.older[place + pair.width] = pel;
                    let what = format!("block {k}, pel ({r},{c}) off by {off}");
                    let voters = if votes { &[k][..] } else { &[] };
                    only_vote(&mut group, &what, &pair, &request, voters);
                }
            }
        }
    }
    group.end()
}

/// The least and the largest pel of a block, each anywhere in it and at any grey: 7 apart, 8 apart and at the ends of what a byte holds.
fn least_and_largest() -> u64 {
    let mut group = Group::new("voters, the least and the largest pel of a block");
    let chance = &mut Chance::new(300_000);
    for request in all_requests() {
        let n = request.n as i64;
        for (least, largest) in [
            (0, 7),
            (0, 8),
            (248, 255),
            (247, 255),
            (0, 255),
            (124, 131),
            (124, 132),
            (120, 128),
            (121, 128),
        ] {
            let mut pair = flat(request.n, request.n, 50, 0);
            for pel in &mut pair.newer {
                *pel = chance.between(least + 1, largest - 1) as u8;
            }
            let low = chance.between(0, n * n - 1);
            let high = (low + chance.between(1, n * n - 1)) % (n * n);
            pair.newer[low as usize] = least as u8;
            pair.newer[high as usize] = largest as u8;
            let voters = if largest - least >= 8 { &[0][..] } else { &[] };
            let what = format!("pels of {least} to {largest}");
            only_vote(&mut group, &what, &pair, &request, voters);
        }
    }
    group.end()
}

/// Pels that do not make a block vote: those left over at the right and at the bottom, those of the blocks beside it, and the older frame's.
fn pels_that_do_not_count() -> u64 {
    let mut group = Group::new("voters, pels that do not count");
    for request in all_requests() {
        let n = request.n;
        let mut pair = four_blocks(n, 100);
        for (place, pel) in pair.newer.iter_mut().enumerate() {
            let (r, c) = (place / (2 * n + 3), place % (2 * n + 3));
            if r >= 2 * n || c >= 2 * n {
                *pel = if (r + c) % 2 == 0 { 0 } else { 255 };
            }
        }
        only_vote(&mut group, "pels left over", &pair, &request, &[]);

        let mut pair = four_blocks(n, 0);
        for (place, pel) in pair.newer.iter_mut().enumerate() {
            let (r, c) = (place / (2 * n + 3), place % (2 * n + 3));
            if (r / n + c / n) % 2 == 1 {
                *pel = 255;
            }
        }
        only_vote(&mut group, "black and white blocks", &pair, &request, &[]);

        let speckled: Vec<u8> = (0..n * n).map(|k| (k * 37 % 9) as u8).collect();
        let mut pair = flat(n, n, 4, 4);
        pair.older = speckled.clone();
        only_vote(&mut group, "newer frame blank", &pair, &request, &[]);
        let mut pair = flat(n, n, 4, 4);
        pair.newer = speckled;
        only_vote(&mut group, "older frame blank", &pair, &request, &[0]);
    }
    group.end()
}

/// A pair of so many blocks along and down of which a few have fibres and lay so far away in the older frame, all else being blank.
/// Blank blocks must lie around each of these; then its vector has distortion 0, and no other of window 2 has.
fn planted(
    chance: &mut Chance,
    n: usize,
    along: usize,
    down: usize,
    blocks: &[(usize, Vector)],
) -> Pair {
    let width = along * n + 1;
    let mut pair = flat(width, down * n + 3, 128, 128);
    for &(k, (dy, dx)) in blocks {
        let (row, column) = (k / along * n, k % along * n);
        for r in row..row + n {
            for c in column..column + n {
                let pel = chance.between(0, 255) as u8;
                let (from_r, from_c) = (r as i64 + dy, c as i64 + dx);
                pair.newer[r * width + c] = pel;
                pair.older[from_r as usize * width + from_c as usize] = pel;
            }
        }
    }
    pair
}

/// A few voters among blank blocks: the reading is theirs, by most votes and then by the order of vectors, however many blank blocks
/// there are.
fn few_voters() -> u64 {
    let mut group = Group::new("voters, a few among blank blocks");
    let chance = &mut Chance::new(310_000);
    let (up, left, right, down) = ((-1, 0), (0, -1), (0, 1), (1, 0));
    // The places 8, 10, 12, 22, 24, 26 of seven along and five down have blank blocks around them.
    for (vectors, reading, votes) in [
        (&[right][..], right, 1),
        (&[(2, -2)], (2, -2), 1),
        (&[right, right], right, 2),
        (&[(0, 0), right, right], right, 2),
        // Ties: the earlier in the order, whichever block comes first.
        (&[right, left], left, 1),
        (&[left, right], left, 1),
        (&[down, up], up, 1),
        (&[right, up, down, left], up, 1),
        (&[down, right], right, 1),
        (&[(1, 1), (-2, 0)], (-2, 0), 1),
        (&[(-2, -2), (2, 0), (0, 2)], (0, 2), 1),
        (&[right, (0, 0)], (0, 0), 1),
        (&[down, right, down, right], right, 2),
        (&[(2, 2), down, (2, 2), down, up], down, 2),
        // The later in the order where more have it.
        (&[up, (2, 2), (2, 2)], (2, 2), 2),
        (&[(0, 0), (0, 0), (2, -1), up, (2, -1), (2, -1)], (2, -1), 3),
        (&[up, up, down, down, down, up], up, 3),
    ] {
        for request in exhaustive_requests() {
            let places = [8, 10, 12, 22, 24, 26].into_iter();
            let blocks: Vec<(usize, Vector)> = places.zip(vectors.iter().copied()).collect();
            let pair = planted(chance, request.n, 7, 5, &blocks);
            let inputs = format!("{blocks:?}, {pair}, {request}");
            let (mut here, mut there) = (room(&pair, request.n), room(&pair, request.n));
            let answer = archive::field(&pair, &request, &mut here);
            let own = reckoning::field(&pair, &request, &mut there);
            group.same(&inputs, answer, own);
            group.same(&inputs, &here, &there);
            let read = ((answer.dy, answer.dx), answer.votes, answer.voters);
            let wanted = (reading, votes, vectors.len() as i64);
            group.same(&inputs, read, wanted);
            for &(k, vector) in &blocks {
                let entry = (listed(&here, k), here.list[3 * k + 2]);
                group.same(&inputs, entry, (vector, 0));
            }
            let track = stands(true, 0, 0, 0);
            let (stepped, after) = archive::step(track, &pair, &request, &mut there);
            let there = stepped_on(track, reading);
            group.same(&inputs, (stepped, after), (answer, there));
        }
    }
    group.end()
}

/// Steps of pairs without a voter whose blocks have (0,1) by searches 1 and 2, so that 33 would apply at the left end if they did vote:
/// 31 and 32 come before 52 and leave list and table as they were; 52 comes before 33 and leaves them filled. The track is the old one.
fn no_voter() -> u64 {
    let mut group = Group::new("voters, steps without one");
    for request in all_requests() {
        let n = request.n;
        // Stripes of 7 grey levels at most, one pel to the left of where they lay.
        let mut pair = flat(3 * n + 1, n, 0, 0);
        for place in 0..pair.newer.len() {
            let c = place % pair.width;
            pair.older[place] = 90 + (c * c % 11 % 8) as u8;
            pair.newer[place] = 90 + ((c + 1) * (c + 1) % 11 % 8) as u8;
        }
        let mut filled = room(&pair, n);
        let answer = archive::field(&pair, &request, &mut filled);
        let inputs = format!("{pair}, {request}");
        let read = (
            answer.refusal,
            answer.dy,
            answer.dx,
            answer.votes,
            answer.voters,
        );
        group.same(&inputs, read, (0, 0, 0, 0, 0));
        if request.search <= 2 {
            for k in 0..3 {
                group.same(&inputs, listed(&filled, k), (0, 1));
            }
        }
        // The other searches than 2 have no table.
        let table = filled.table.iter().filter(|&&sum| sum != SUM).count();
        let sums = if request.search == 2 {
            (3 * n + 2) * (n + 1)
        } else {
            0
        };
        group.same(&inputs, table, sums);
        for (track, refusal) in [
            (stands(true, 0, 0, 0), 52),
            (stands(true, -5, 6, 999_999), 52),
            (stands(true, 0, -END, 0), 52),
            (stands(true, END, END, 0), 52),
            (stands(true, -END - 1, 0, 0), 52),
            (stands(true, i32::MIN, i32::MAX, 0), 52),
            (stands(true, 0, 0, 1_000_000), 32),
            (stands(true, 0, -END, u32::MAX), 32),
            (NEW, 31),
            (stands(false, 0, -END, 1_000_000), 31),
        ] {
            let before = room(&pair, n);
            let kept = if refusal == 52 { &filled } else { &before };
            let (mut here, mut there) = (before.clone(), before.clone());
            let stepped = archive::step(track, &pair, &request, &mut here);
            let own = reckoning::step(track, &pair, &request, &mut there);
            let wanted = (refused(refusal), track);
            let inputs = format!("{track:?}, {inputs}");
            group.same(&inputs, (stepped, own), (wanted, wanted));
            group.same(&inputs, (&here, &there), (kept, kept));
        }
    }
    group.end()
}

/// All edges of voters; answers with the number of mismatches.
pub fn run() -> u64 {
    one_pel() + least_and_largest() + pels_that_do_not_count() + few_voters() + no_voter()
}
