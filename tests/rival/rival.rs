//! The rival: the rules of docs/REFERENCE.md for one block, written down as directly as they read and with no thought of speed.
//! Every function names the rules' sentence that it stands for. No table, no sums kept from one place to the next, i64 throughout.

use std::ops::RangeInclusive;

use crate::question::{
    Answer, Counts, FieldRequest, Half, Measured, Measuring, Pair, Request, Viewed, Viewing,
};

/// A vector (dy, dx).
pub type Vector = (i64, i64);

/// A size, row or column as i64. What i64 cannot hold is far beyond every limit of the rules and stays so.
pub fn plain(value: usize) -> i64 {
    i64::try_from(value).unwrap_or(i64::MAX)
}

/// One block of an accepted pair: "the newer frame's block at row y, column x"; and the measure, "1 absolute or 2 squares".
pub struct Block<'a> {
    older: &'a [u8],
    newer: &'a [u8],
    width: i64,
    height: i64,
    n: i64,
    y: i64,
    x: i64,
    measure: u32,
}

impl<'a> Block<'a> {
    /// The block at (row, column) of a pair that no refusal applies to, by a measure that is one.
    pub fn new(pair: &'a Pair, n: usize, row: usize, column: usize, measure: u32) -> Block<'a> {
        Block {
            older: &pair.older,
            newer: &pair.newer,
            width: plain(pair.width),
            height: plain(pair.height),
            n: plain(n),
            y: plain(row),
            x: plain(column),
            measure,
        }
    }

    /// "A frame is rows of pels, top row first": the pel of the older frame at row r, column c.
    fn older_pel(&self, r: i64, c: i64) -> i64 {
        self.older[(r * self.width + c) as usize] as i64
    }

    /// The same of the newer frame.
    fn newer_pel(&self, r: i64, c: i64) -> i64 {
        self.newer[(r * self.width + c) as usize] as i64
    }

    /// "It is a candidate for window w if both parts lie in -w..w and the older block is wholly inside its frame."
    pub fn is_candidate(&self, w: i64, (dy, dx): Vector) -> bool {
        let (top, left) = (self.y + dy, self.x + dx);
        -w <= dy
            && dy <= w
            && -w <= dx
            && dx <= w
            && 0 <= top
            && top + self.n <= self.height
            && 0 <= left
            && left + self.n <= self.width
    }

    /// How far two pels are apart, or two sums of pels: "the sum of squared differences beside the absolute sum".
    fn apart(&self, one: i64, other: i64) -> i64 {
        match self.measure {
            1 => (one - other).abs(),
            _ => (one - other) * (one - other),
        }
    }

    /// "Distortion is the sum of absolute pel differences"; by squares "the sum of squared differences".
    pub fn distortion(&self, v: Vector) -> i64 {
        self.sum_of_rows(self.n, v)
    }

    /// The same of the block's first rows alone, so many of them: "the sum" at the end of a row.
    pub fn sum_of_rows(&self, rows: i64, (dy, dx): Vector) -> i64 {
        let mut sum = 0;
        for r in self.y..self.y + rows {
            for c in self.x..self.x + self.n {
                sum += self.apart(self.newer_pel(r, c), self.older_pel(r + dy, c + dx));
            }
        }
        sum
    }

    /// "Up to [the ceiling], the distortion comes back; beyond it, only 'over'. [...] With either comes the number of rows measured: the
    /// first at whose end the sum passes the ceiling, else N."
    fn measured(&self, v: Vector, ceiling: i64) -> Measured {
        let distortion = self.distortion(v);
        let is_over = distortion > ceiling;
        let passes = |rows: &i64| self.sum_of_rows(*rows, v) > ceiling;
        Measured {
            refusal: 0,
            distortion: if is_over { 0 } else { distortion },
            over: i64::from(is_over),
            rows: (1..=self.n).find(passes).unwrap_or(self.n),
        }
    }

    /// "A value between two pels is (a + b + 1) / 2, between four (a + b + c + d + 2) / 4, rounded down": the older frame's value at a row
    /// and a column in half pels, which may be a pel's own; none where a pel that it needs is not "inside the older frame".
    fn half_value(&self, half_r: i64, half_c: i64) -> Option<i64> {
        let (mut sum, mut pels) = (0, 0);
        for r in around(half_r) {
            for c in around(half_c) {
                if r < 0 || r >= self.height || c < 0 || c >= self.width {
                    return None;
                }
                sum += self.older_pel(r, c);
                pels += 1;
            }
        }
        Some(match pels {
            1 => sum,
            2 => (sum + 1) / 2,
            _ => (sum + 2) / 4,
        })
    }

    /// The distortion of a vector in half pels, "by the same measure". "A neighbour counts exactly if all pels it needs are inside the
    /// older frame, whatever the window": none where it does not count.
    pub fn half_distortion(&self, (half_dy, half_dx): Vector) -> Option<i64> {
        let mut sum = 0;
        for r in self.y..self.y + self.n {
            for c in self.x..self.x + self.n {
                let older = self.half_value(2 * r + half_dy, 2 * c + half_dx)?;
                sum += self.apart(self.newer_pel(r, c), older);
            }
        }
        Some(sum)
    }

    /// "Cut a block into m × m squares; its distance at m is the sum over squares of the absolute difference of pel sums"; by squares
    /// "the sum over squares of the squared difference of pel sums".
    pub fn distance(&self, m: i64, (dy, dx): Vector) -> i64 {
        let mut sum = 0;
        for i in 0..self.n / m {
            for j in 0..self.n / m {
                let (top, left) = (self.y + i * m, self.x + j * m);
                let (mut in_newer, mut in_older) = (0, 0);
                for r in top..top + m {
                    for c in left..left + m {
                        in_newer += self.newer_pel(r, c);
                        in_older += self.older_pel(r + dy, c + dx);
                    }
                }
                sum += self.apart(in_newer, in_older);
            }
        }
        sum
    }

    /// "Drop each whose distance exceeds E"; by squares "a vector is dropped when it exceeds m² × E".
    fn is_dropped(&self, m: i64, v: Vector, e: i64) -> bool {
        match self.measure {
            1 => self.distance(m, v) > e,
            _ => self.distance(m, v) > m * m * e,
        }
    }

    /// "A block votes exactly if its largest newer pel exceeds its smallest by 8 or more."
    pub fn votes(&self) -> bool {
        let mut pels = Vec::new();
        for r in self.y..self.y + self.n {
            for c in self.x..self.x + self.n {
                pels.push(self.newer_pel(r, c));
            }
        }
        pels.sort_unstable();
        pels[pels.len() - 1] >= pels[0] + 8
    }

    /// All candidates of window w, in preference order.
    pub fn candidates(&self, w: i64) -> Vec<Vector> {
        let mut all = preference_order(w);
        all.retain(|&v| self.is_candidate(w, v));
        all
    }
}

/// The rows, or columns, around a place in half pels: its own, or the one before it and the one behind it.
fn around(half: i64) -> RangeInclusive<i64> {
    half.div_euclid(2)..=(half + 1).div_euclid(2)
}

/// "Preference order: smaller |dy| + |dx| first, then smaller dy, then smaller dx": all vectors of window w, sorted by it.
pub fn preference_order(w: i64) -> Vec<Vector> {
    let mut all = Vec::new();
    for dy in -w..=w {
        for dx in -w..=w {
            all.push((dy, dx));
        }
    }
    all.sort_by_key(|&(dy, dx)| (dy.abs() + dx.abs(), dy, dx));
    all
}

/// The vector of least value with that value, the earlier one of equals. The list is in preference order and not empty.
fn least(list: &[Vector], value: impl Fn(Vector) -> i64) -> (Vector, i64) {
    let mut best = (list[0], value(list[0]));
    for &v in &list[1..] {
        let this = value(v);
        if this < best.1 {
            best = (v, this);
        }
    }
    best
}

/// The place of m's count: "counts become six, for m = 32 first", then "for m = 16, 8, 4, 2, 1".
fn place_of(m: i64) -> usize {
    [32, 16, 8, 4, 2, 1]
        .iter()
        .position(|&known| known == m)
        .unwrap()
}

/// An accepted answer in which nothing is counted but at m = 1.
fn probed((dy, dx): Vector, distortion: i64, probes: i64) -> Answer {
    Answer {
        refusal: 0,
        dy,
        dx,
        distortion,
        counts: [0, 0, 0, 0, 0, probes],
        dropped: 0,
    }
}

/// "1 full [...] the least distortion; equals go to the earlier in preference order. The m = 1 count is the number of
/// candidates."
fn full(block: &Block, w: i64) -> Answer {
    let candidates = block.candidates(w);
    let (best, distortion) = least(&candidates, |v| block.distortion(v));
    probed(best, distortion, candidates.len() as i64)
}

/// "2 pruned", step by step.
fn pruned(block: &Block, w: i64) -> Answer {
    let mut counts: Counts = [0; 6];
    let mut dropped = 0;

    // "Begin with all candidates and E = distortion of (0,0)."
    let mut remaining = block.candidates(w);
    let mut e = block.distortion((0, 0));

    // "At m = N, drop each whose distance exceeds E." "Each count is how many were tested at that m."
    let mut m = block.n;
    counts[place_of(m)] = remaining.len() as i64;
    let before = remaining.len();
    remaining.retain(|&v| !block.is_dropped(m, v, e));
    dropped += (before - remaining.len()) as i64;

    // "For m = N/2, then halved each time, down to 2: find the remaining vector of least distance (equals: preference order),
    // lower E to its distortion if that is less, then drop each whose distance exceeds E."
    m /= 2;
    while m >= 2 {
        counts[place_of(m)] = remaining.len() as i64;
        let (nearest, _) = least(&remaining, |v| block.distance(m, v));
        e = e.min(block.distortion(nearest));
        let before = remaining.len();
        remaining.retain(|&v| !block.is_dropped(m, v, e));
        dropped += (before - remaining.len()) as i64;
        m /= 2;
    }

    // "Measure the rest and choose as full does."
    counts[place_of(1)] = remaining.len() as i64;
    let ((dy, dx), distortion) = least(&remaining, |v| block.distortion(v));
    Answer {
        refusal: 0,
        dy,
        dx,
        distortion,
        counts,
        dropped,
    }
}

/// What searches 3 and 4 know on their way: the best point so far, and how many points were measured.
struct Walk<'a> {
    block: &'a Block<'a>,
    w: i64,
    best: Vector,
    distortion: i64,
    probes: i64,
}

impl<'a> Walk<'a> {
    /// Begins at (0,0), measured and counted.
    fn begin(block: &'a Block<'a>, w: i64) -> Walk<'a> {
        Walk {
            block,
            w,
            best: (0, 0),
            distortion: block.distortion((0, 0)),
            probes: 1,
        }
    }

    /// "In 3 and 4 a point that is no candidate is neither measured nor counted. A point met again in a later step is measured
    /// and counted again." "Only a strictly smaller distortion replaces."
    fn probe(&mut self, point: Vector) {
        if !self.block.is_candidate(self.w, point) {
            return;
        }
        self.probes += 1;
        let distortion = self.block.distortion(point);
        if distortion < self.distortion {
            self.best = point;
            self.distortion = distortion;
        }
    }

    fn answer(&self) -> Answer {
        probed(self.best, self.distortion, self.probes)
    }
}

/// "The eight around it, row by row, at distance" d.
fn eight_around((dy, dx): Vector, d: i64) -> Vec<Vector> {
    let mut points = Vec::new();
    for a in [-d, 0, d] {
        for b in [-d, 0, d] {
            if (a, b) != (0, 0) {
                points.push((dy + a, dx + b));
            }
        }
    }
    points
}

/// "3 four-step, w exactly 7", after Po and Ma's paper on the four-step search.
fn four_step(block: &Block) -> Answer {
    // Step 1: "centre, then the eight around it, row by row, at distance 2".
    let mut walk = Walk::begin(block, 7);
    let mut centre = (0, 0);
    for point in eight_around(centre, 2) {
        walk.probe(point);
    }

    // "Steps 2 and 3 measure the pattern points that were not in the pattern just before; a centre that stays leads to step 4
    // [...] Step 3 always leads to step 4."
    let mut step = 2;
    while step <= 3 && walk.best != centre {
        let mut just_before = eight_around(centre, 2);
        just_before.push(centre);
        centre = walk.best;
        for point in eight_around(centre, 2) {
            if !just_before.contains(&point) {
                walk.probe(point);
            }
        }
        step += 1;
    }

    // Step 4: "the eight at distance 1, again row by row".
    for point in eight_around(walk.best, 1) {
        walk.probe(point);
    }
    walk.answer()
}

/// The end points of a St. Andrew's cross, in the order of Ghanbari's paper on the cross search.
fn x_cross((i, j): Vector, p: i64) -> [Vector; 4] {
    [
        (i - p, j - p),
        (i - p, j + p),
        (i + p, j - p),
        (i + p, j + p),
    ]
}

/// The end points of a Greek cross, in that paper's order: up, left, down, right.
fn greek_cross((m, n): Vector) -> [Vector; 4] {
    [(m - 1, n), (m, n - 1), (m + 1, n), (m, n + 1)]
}

/// "4 cross [...] steps 1 to 8, its i and m for dy, its j and n for dx", of the same paper.
fn cross(block: &Block, w: i64, t: i64) -> Answer {
    // Step 1. "The threshold T is on the sum: distortion of (0,0) below T ends the search."
    let mut walk = Walk::begin(block, w);
    if walk.distortion < t {
        return walk.answer();
    }

    // Steps 2 to 5.
    let mut p = w / 2;
    let (i, j) = loop {
        let centre = walk.best;
        for point in x_cross(centre, p) {
            walk.probe(point);
        }
        if p == 1 {
            break centre;
        }
        p /= 2;
    };

    // Steps 6 to 8.
    let end = walk.best;
    let last = if end == (i, j) || end == (i - 1, j - 1) || end == (i + 1, j + 1) {
        greek_cross(end)
    } else {
        x_cross(end, 1)
    };
    for point in last {
        walk.probe(point);
    }
    walk.answer()
}

/// "1 width or height outside its range": "Width and height are 4 to 1,024".
pub fn is_refused_size(width: i64, height: i64) -> bool {
    width < 4 || width > 1024 || height < 4 || height > 1024
}

/// "3 N not allowed or too big": "Block size N is 4, 8 or 16, at most width and height", and "N may be 32".
pub fn is_refused_n(width: i64, height: i64, n: i64) -> bool {
    (n != 4 && n != 8 && n != 16 && n != 32) || n > width || n > height
}

/// "4 search not 1 to 4".
pub fn is_refused_search(search: i64) -> bool {
    search < 1 || search > 4
}

/// "5 w not allowed for the search", asked of a search that 4 lets through.
pub fn is_refused_window(search: i64, w: i64) -> bool {
    match search {
        1 | 2 => w < 0 || w > 16,
        3 => w != 7,
        _ => w != 2 && w != 4 && w != 8 && w != 16,
    }
}

/// "51, measure not 1 or 2".
pub fn is_refused_measure(measure: u32) -> bool {
    measure != 1 && measure != 2
}

/// "T may go [...] to 261,120, or 66,585,600 with squares".
pub fn largest_threshold(measure: u32) -> u32 {
    match measure {
        1 => 261_120,
        _ => 66_585_600,
    }
}

/// "6 T over" its limit, "or not 0 with search 1, 2 or 3".
fn is_refused_threshold(search: i64, measure: u32, t: u32) -> bool {
    t > largest_threshold(measure) || (t != 0 && search != 4)
}

/// Refusals 1, 2 and 3, which all calls on a pair test first.
fn refused_pair(pair: &Pair, n: usize) -> i64 {
    let (width, height, n) = (plain(pair.width), plain(pair.height), plain(n));
    if is_refused_size(width, height) {
        return 1;
    }
    // "2 a frame of another length": "the lent slice has exactly width × height bytes".
    if plain(pair.older.len()) != width * height || plain(pair.newer.len()) != width * height {
        return 2;
    }
    if is_refused_n(width, height, n) {
        return 3;
    }
    0
}

/// "7 single block: not wholly inside the newer frame", asked of sizes that 1 and 3 let through.
fn refused_place(pair: &Pair, n: usize, row: usize, column: usize) -> i64 {
    let last_row = plain(pair.height) - plain(n);
    let last_column = plain(pair.width) - plain(n);
    if plain(row) > last_row || plain(column) > last_column {
        return 7;
    }
    0
}

/// The number of the first of 1 2 3 4 51 5 6 that applies to a pair and a request, or 0: 51 is "tested after 4".
pub fn refused_request(pair: &Pair, request: &FieldRequest) -> i64 {
    let first = refused_pair(pair, request.n);
    if first != 0 {
        return first;
    }
    let (search, w) = (request.search as i64, plain(request.w));
    if is_refused_search(search) {
        return 4;
    }
    if is_refused_measure(request.measure) {
        return 51;
    }
    if is_refused_window(search, w) {
        return 5;
    }
    if is_refused_threshold(search, request.measure, request.t) {
        return 6;
    }
    0
}

/// The number of the first refusal that applies to a single-block search, or 0: 1 2 3 4 51 5 6 7 in this order.
fn refused_search(pair: &Pair, request: &Request) -> i64 {
    let first = refused_request(pair, &request.of_field());
    if first != 0 {
        return first;
    }
    refused_place(pair, request.n, request.row, request.column)
}

/// The single-block search.
pub fn search_block(pair: &Pair, request: &Request) -> Answer {
    let refusal = refused_search(pair, request);
    if refusal != 0 {
        return Answer {
            refusal,
            ..Answer::default()
        };
    }
    let (row, column) = (request.row, request.column);
    let block = Block::new(pair, request.n, row, column, request.measure);
    let w = plain(request.w);
    match request.search {
        1 => full(&block, w),
        2 => pruned(&block, w),
        3 => four_step(&block),
        _ => cross(&block, w, request.t as i64),
    }
}

/// What the search to half a pel answers where the search itself has found this: "refuses as that does and tries the eight half-pel
/// neighbours of its vector"; "least distortion wins, the centre first on ties, then the offset earlier in preference order".
pub fn refined(pair: &Pair, request: &Request, found: Answer) -> Half {
    if found.refusal != 0 {
        return Half {
            found,
            ..Half::default()
        };
    }
    let mut half = Half {
        found,
        half_dy: 2 * found.dy,
        half_dx: 2 * found.dx,
        half_distortion: found.distortion,
    };
    let (row, column) = (request.row, request.column);
    let block = Block::new(pair, request.n, row, column, request.measure);
    for (oy, ox) in preference_order(1).into_iter().skip(1) {
        let (half_dy, half_dx) = (2 * found.dy + oy, 2 * found.dx + ox);
        match block.half_distortion((half_dy, half_dx)) {
            Some(half_distortion) if half_distortion < half.half_distortion => {
                half = Half {
                    found,
                    half_dy,
                    half_dx,
                    half_distortion,
                }
            }
            _ => {}
        }
    }
    half
}

/// The search to half a pel.
pub fn search_half(pair: &Pair, request: &Request) -> Half {
    refined(pair, request, search_block(pair, request))
}

/// The measuring call: refusals 1 2 3 51 7 8, "8 measuring one vector: not a candidate of window 16". No ceiling is refused.
pub fn measure(pair: &Pair, question: &Measuring) -> Measured {
    let (n, row, column) = (question.n, question.row, question.column);
    let mut refusal = refused_pair(pair, n);
    if refusal == 0 && is_refused_measure(question.measure) {
        refusal = 51;
    }
    if refusal == 0 {
        refusal = refused_place(pair, n, row, column);
    }
    let vector = (question.dy as i64, question.dx as i64);
    if refusal == 0 {
        let block = Block::new(pair, n, row, column, question.measure);
        if block.is_candidate(16, vector) {
            return block.measured(vector, question.ceiling as i64);
        }
        refusal = 8;
    }
    Measured {
        refusal,
        ..Measured::default()
    }
}

/// The row view and its companion: refusals 1 2 3 12 7, "12 side not 0 or 1, before 7" and "row view: the N pels not inside one
/// row of the frame asked for".
pub fn row_view(pair: &Pair, question: &Viewing) -> Viewed {
    let refused = |refusal| Viewed {
        refusal,
        place: 0,
        length: 0,
    };
    let first = refused_pair(pair, question.n);
    if first != 0 {
        return refused(first);
    }
    if question.side > 1 {
        return refused(12);
    }
    let (width, height, n) = (plain(pair.width), plain(pair.height), plain(question.n));
    let (row, column) = (plain(question.row), plain(question.column));
    if row >= height || column > width - n {
        return refused(7);
    }
    Viewed {
        refusal: 0,
        place: row * width + column,
        length: n,
    }
}
