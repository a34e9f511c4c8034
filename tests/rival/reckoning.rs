//! The rival's field, track and reckoning: the rules' words on them, written down as directly as they read. Fields are made of
//! the rival's own single-block searches; the reckoning knows no search, only candidates and distortions.

use crate::question::{FieldAnswer, FieldRequest, Lent, Pair, Request, Track, HELD_MOST};
use crate::rival::{preference_order, refused_request, search_block, Block, Vector};

/// "The grid has (height / N, rounded down) × (width / N, rounded down) blocks, row by row": the pel row and column of each.
pub fn grid(pair: &Pair, n: usize) -> Vec<(usize, usize)> {
    let mut places = Vec::new();
    for i in 0..pair.height / n {
        for j in 0..pair.width / n {
            places.push((i * n, j * n));
        }
    }
    places
}

/// The number of the first refusal that applies to a field, or 0: 1 2 3 4 51 5 6 9 10 in this order.
pub fn refused_field(
    pair: &Pair,
    request: &FieldRequest,
    list_length: usize,
    table_length: usize,
) -> i64 {
    let first = refused_request(pair, request);
    if first != 0 {
        return first;
    }
    // "9 search 2: table shorter than (width + 1) × (height + 1)".
    if request.search == 2 && table_length < (pair.width + 1) * (pair.height + 1) {
        return 9;
    }
    // "10 list shorter than three a block".
    if list_length < 3 * grid(pair, request.n).len() {
        return 10;
    }
    0
}

/// "Place r × (width + 1) + c holds the sum of older pels in rows before r and columns before c, r to height, c to width."
fn table_of_sums(pair: &Pair) -> Vec<u32> {
    let mut table = Vec::new();
    // By column: the sum of the pels in rows before r and columns before c.
    let mut before = vec![0; pair.width + 1];
    table.extend(&before);
    for row in pair.older.chunks(pair.width) {
        for (c, sum) in before.iter_mut().enumerate() {
            *sum += row[..c].iter().map(|&pel| pel as u32).sum::<u32>();
        }
        table.extend(&before);
    }
    table
}

/// "The reading is the vector of most blocks (equals: preference order) with its votes"; since "blank patches must not vote", of most
/// voters. "A field call without a voter reads (0,0), 0".
pub fn majority(vectors: &[Vector]) -> (Vector, i64) {
    let mut reading = ((0, 0), 0);
    for v in preference_order(16) {
        let votes = vectors.iter().filter(|&&has| has == v).count() as i64;
        if votes > reading.1 {
            reading = (v, votes);
        }
    }
    reading
}

/// The field call behind its refusals: "A field fills a lent list [...], three a grid block: dy, dx, distortion; it answers with
/// the reading and, summed over the blocks, counts and dropped. [...] Search 2 also fills a lent table [...] Searches 1, 3 and 4
/// leave that table unchanged. Places past the used part of any lent memory keep what they held." List, table and sums are of all
/// blocks, whether they vote or not.
fn filled(pair: &Pair, request: &FieldRequest, lent: &mut Lent) -> FieldAnswer {
    let mut answer = FieldAnswer::default();
    let mut of_voters = Vec::new();
    for (k, (row, column)) in grid(pair, request.n).into_iter().enumerate() {
        let question = Request {
            n: request.n,
            search: request.search,
            w: request.w,
            t: request.t,
            measure: request.measure,
            row,
            column,
        };
        let found = search_block(pair, &question);
        lent.list[3 * k] = found.dy as i32;
        lent.list[3 * k + 1] = found.dx as i32;
        lent.list[3 * k + 2] = found.distortion as i32;
        for (sum, count) in answer.counts.iter_mut().zip(found.counts) {
            *sum += count;
        }
        answer.dropped += found.dropped;
        if Block::new(pair, request.n, row, column, request.measure).votes() {
            of_voters.push((found.dy, found.dx));
        }
    }
    if request.search == 2 {
        let table = table_of_sums(pair);
        lent.table[..table.len()].copy_from_slice(&table);
    }
    ((answer.dy, answer.dx), answer.votes) = majority(&of_voters);
    answer.voters = of_voters.len() as i64;
    answer
}

/// "Refused calls answer with the number [...] and zeros elsewhere."
fn refused(refusal: i64) -> FieldAnswer {
    FieldAnswer {
        refusal,
        ..FieldAnswer::default()
    }
}

/// The field call.
pub fn field(pair: &Pair, request: &FieldRequest, lent: &mut Lent) -> FieldAnswer {
    let refusal = refused_field(pair, request, lent.list_length, lent.table_length);
    if refusal != 0 {
        return refused(refusal);
    }
    filled(pair, request, lent)
}

/// "New: not homed, 0, 0, 0", and no travel held: "all places and sums 0".
pub const NEW: Track = Track {
    homed: false,
    y: 0,
    x: 0,
    steps: 0,
    held: 0,
    travel_dy: [0; HELD_MOST],
    travel_dx: [0; HELD_MOST],
    sum_dy: 0,
    sum_dx: 0,
};

/// A place of the track lies "in -1,000,000..1,000,000".
fn in_range(place: i64) -> bool {
    (-1_000_000..=1_000_000).contains(&place)
}

/// "Home (y, x), each in -1,000,000..1,000,000: homed, that place, steps 0." "Homing empties [the travels], all places and sums 0."
pub fn home(track: Track, y: i32, x: i32) -> (i64, Track) {
    if !in_range(y as i64) || !in_range(x as i64) {
        return (11, track);
    }
    let homed = Track {
        homed: true,
        y,
        x,
        ..NEW
    };
    (0, homed)
}

/// The travels that a track holds, "oldest first". It holds 64 at most.
fn held(track: &Track) -> Vec<Vector> {
    (0..track.held as usize)
        .map(|place| (track.travel_dy[place] as i64, track.travel_dx[place] as i64))
        .collect()
}

/// "The sum of each part."
fn sums(travels: &[Vector]) -> Vector {
    let add = |(y, x), &(dy, dx)| (y + dy, x + dx);
    travels.iter().fold((0, 0), add)
}

/// The track with these travels in its first places, and their sums. The other places are kept.
pub fn holding(mut track: Track, travels: &[Vector]) -> Track {
    for (place, &(dy, dx)) in travels.iter().enumerate() {
        track.travel_dy[place] = dy as i32;
        track.travel_dx[place] = dx as i32;
    }
    let (sum_dy, sum_dx) = sums(travels);
    Track {
        held: travels.len() as u32,
        sum_dy: sum_dy as i32,
        sum_dx: sum_dx as i32,
        ..track
    }
}

/// "A track that holds more than 64, a held part outside -16..16 or a false sum."
fn is_false(track: &Track) -> bool {
    if track.held > 64 {
        return true;
    }
    let travels = held(track);
    let outside = |part: i64| part < -16 || part > 16;
    travels.iter().any(|&(dy, dx)| outside(dy) || outside(dx))
        || sums(&travels) != (track.sum_dy as i64, track.sum_dx as i64)
}

/// 31 and 32, "tested after all input refusals", or 0. 32 is "steps 1,000,000 or more", and since "the last 64 travels in the track" a false track
/// as well.
pub fn refused_state(track: Track) -> i64 {
    if !track.homed {
        31
    } else if track.steps >= 1_000_000 || is_false(&track) {
        32
    } else {
        0
    }
}

/// "Adds the travel to y, x and 1 to steps"; "travel is the reading with both signs turned". 33 where "the new y or x would leave
/// its range". The travel comes behind those held; "the sixty-fifth pushes out the oldest".
pub fn travelled(track: Track, (dy, dx): Vector) -> Result<Track, i64> {
    let (y, x) = (track.y as i64 - dy, track.x as i64 - dx);
    if !in_range(y) || !in_range(x) {
        return Err(33);
    }
    let mut travels = held(&track);
    travels.push((-dy, -dx));
    if travels.len() == 65 {
        travels.remove(0);
    }
    let there = Track {
        homed: true,
        y: y as i32,
        x: x as i32,
        steps: track.steps + 1,
        ..track
    };
    Ok(holding(there, &travels))
}

/// "Step (pair, search): adds the travel to y, x and 1 to steps, and answers with the track and all that the field call answers."
pub fn step(
    track: Track,
    pair: &Pair,
    request: &FieldRequest,
    lent: &mut Lent,
) -> (FieldAnswer, Track) {
    let mut refusal = refused_field(pair, request, lent.list_length, lent.table_length);
    if refusal == 0 {
        refusal = refused_state(track);
    }
    if refusal != 0 {
        return (refused(refusal), track);
    }
    // With 33, "list and table are then as after an accepted step". "52, step only, no block votes, tested after 32 and before 33; list and
    // table are filled as with 33."
    let answer = filled(pair, request, lent);
    if answer.voters == 0 {
        return (refused(52), track);
    }
    match travelled(track, (answer.dy, answer.dx)) {
        Ok(there) => (answer, there),
        Err(refusal) => (refused(refusal), track),
    }
}

/// "A block's exhaustive best is its candidate of least distortion (equals: preference order)": all vectors of the window are
/// looked at, row by row.
pub fn exhaustive_best(block: &Block, w: i64) -> (Vector, i64) {
    let mut best = None;
    for dy in -w..=w {
        for dx in -w..=w {
            if block.is_candidate(w, (dy, dx)) {
                let rank = (block.distortion((dy, dx)), dy.abs() + dx.abs(), dy, dx);
                best = Some(best.map_or(rank, |least| rank.min(least)));
            }
        }
    }
    let (distortion, _, dy, dx) = best.expect("(0,0) is always a candidate");
    ((dy, dx), distortion)
}

/// What the reckoning makes of a step: the number of its refusal, or 0, its own track after it, and for an accepted step its travel and each
/// grid block's exhaustive best with its distortion. It is fed the inputs alone, of list and table just the lengths.
pub struct Reckoned {
    pub refusal: i64,
    pub track: Track,
    pub travel: Vector,
    pub bests: Vec<(Vector, i64)>,
}

/// "A travel means the reverse of the most frequent exhaustive best among voters, ties by 01's order."
pub fn reckoned_step(
    track: Track,
    pair: &Pair,
    request: &FieldRequest,
    list_length: usize,
    table_length: usize,
) -> Reckoned {
    let mut refusal = refused_field(pair, request, list_length, table_length);
    if refusal == 0 {
        refusal = refused_state(track);
    }
    if refusal == 0 {
        let mut bests = Vec::new();
        let mut of_voters = Vec::new();
        for (row, column) in grid(pair, request.n) {
            let block = Block::new(pair, request.n, row, column, request.measure);
            let best = exhaustive_best(&block, request.w as i64);
            bests.push(best);
            if block.votes() {
                of_voters.push(best.0);
            }
        }
        let reading = majority(&of_voters).0;
        let there = if of_voters.is_empty() {
            Err(52)
        } else {
            travelled(track, reading)
        };
        match there {
            Ok(track) => {
                return Reckoned {
                    refusal: 0,
                    track,
                    travel: (-reading.0, -reading.1),
                    bests,
                }
            }
            Err(number) => refusal = number,
        }
    }
    Reckoned {
        refusal,
        track,
        travel: (0, 0),
        bests: Vec::new(),
    }
}
