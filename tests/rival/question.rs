//! What both sides are asked and what they answer: the pair of frames, the request for one block or for a field, lent memory, the
//! track, and answers with every field that the rules give them. Numbers are plain i64 in the answers, so that no type hides a
//! wrong value.

use std::fmt;

/// The measures: "1 absolute or 2 squares".
pub const MEASURES: [(u32, &str); 2] = [(1, "absolute"), (2, "squares")];

/// Numbers that are none, some of which a careless narrowing would turn into one.
pub const NO_MEASURES: [u32; 10] = [0, 3, 4, 255, 256, 257, 258, 65_537, 1 << 31, u32::MAX];

/// Ceilings of measuring, "any unsigned 32-bit number": the ends of their range, and one that a careless change of sign would turn
/// into a negative number.
pub const FAR_CEILINGS: [u32; 4] = [0, 1, 1 << 31, u32::MAX];

/// "Block size N is 4, 8 or 16", and "N may be 32".
pub const SIZES: [usize; 4] = [4, 8, 16, 32];

/// "Counts become six, for m = 32 first": for m = 32, 16, 8, 4, 2, 1.
pub type Counts = [i64; 6];

/// The place of the count for m = 1.
pub const AT_1: usize = 5;

/// A pair as it is lent: two slices and the width and height that are said to go with them. Nothing here need be valid.
pub struct Pair {
    pub older: Vec<u8>,
    pub newer: Vec<u8>,
    pub width: usize,
    pub height: usize,
}

/// What a single-block search is asked, the pair apart.
#[derive(Clone, Copy)]
pub struct Request {
    pub n: usize,
    pub search: u32,
    pub w: usize,
    pub t: u32,
    pub measure: u32,
    pub row: usize,
    pub column: usize,
}

/// What a field is asked, pair and lent memory apart.
#[derive(Clone, Copy)]
pub struct FieldRequest {
    pub n: usize,
    pub search: u32,
    pub w: usize,
    pub t: u32,
    pub measure: u32,
}

impl Request {
    /// What it asks of a block, wherever that stands.
    pub fn of_field(&self) -> FieldRequest {
        FieldRequest {
            n: self.n,
            search: self.search,
            w: self.w,
            t: self.t,
            measure: self.measure,
        }
    }
}

/// Lent memory: so many places of a list and of a table. Behind what is lent stand a few places more, to be left alone.
#[derive(Clone, PartialEq, Eq, Debug)]
pub struct Lent {
    pub list: Vec<i32>,
    pub list_length: usize,
    pub table: Vec<u32>,
    pub table_length: usize,
}

/// What measuring one vector is asked, the pair apart.
#[derive(Clone, Copy)]
pub struct Measuring {
    pub n: usize,
    pub row: usize,
    pub column: usize,
    pub dy: i32,
    pub dx: i32,
    pub measure: u32,
    pub ceiling: u32,
}

/// What a row view is asked, the pair apart.
#[derive(Clone, Copy)]
pub struct Viewing {
    pub n: usize,
    pub side: u32,
    pub row: usize,
    pub column: usize,
}

/// "The result of a search carries a vector, a distortion and [...] counts [...] It also carries the number dropped." A refused call
/// answers "with the number [...] and zeros elsewhere".
#[derive(Clone, Copy, PartialEq, Eq, Debug, Default)]
pub struct Answer {
    pub refusal: i64,
    pub dy: i64,
    pub dx: i64,
    pub distortion: i64,
    pub counts: Counts,
    pub dropped: i64,
}

/// "The answer is the search's result, then the winner's vector, in half pels, and its distortion."
#[derive(Clone, Copy, PartialEq, Eq, Debug, Default)]
pub struct Half {
    pub found: Answer,
    pub half_dy: i64,
    pub half_dx: i64,
    pub half_distortion: i64,
}

/// "It answers with the reading and, summed over the blocks, counts and dropped"; "the reading gives votes and voters".
#[derive(Clone, Copy, PartialEq, Eq, Debug, Default)]
pub struct FieldAnswer {
    pub refusal: i64,
    pub dy: i64,
    pub dx: i64,
    pub votes: i64,
    pub voters: i64,
    pub counts: Counts,
    pub dropped: i64,
}

impl FieldAnswer {
    /// An accepted answer: the reading with its votes and the voters, and the sums.
    pub fn accepted(
        (dy, dx): (i64, i64),
        (votes, voters): (i64, i64),
        counts: Counts,
        dropped: i64,
    ) -> FieldAnswer {
        FieldAnswer {
            refusal: 0,
            dy,
            dx,
            votes,
            voters,
            counts,
            dropped,
        }
    }
}

/// "The track holds the last 64 travels."
pub const HELD_MOST: usize = 64;

/// "The track holds homed or not, y, x and steps"; and how many travels, "oldest first", their parts, which stand in the first places, "and the
/// sum of each part". Laid out as the header's gauge_track.
#[derive(Clone, Copy, PartialEq, Eq, Debug)]
#[repr(C)]
pub struct Track {
    pub homed: bool,
    pub y: i32,
    pub x: i32,
    pub steps: u32,
    pub held: u32,
    pub travel_dy: [i32; HELD_MOST],
    pub travel_dx: [i32; HELD_MOST],
    pub sum_dy: i32,
    pub sum_dx: i32,
}

/// A log's head: "width and height (2 bytes each), N, w, search (1 each)", and the measure, "1 after command 1". Laid out as the header's
/// gauge_head.
#[derive(Clone, Copy, PartialEq, Eq, Debug, Default)]
#[repr(C)]
pub struct Head {
    pub width: usize,
    pub height: usize,
    pub n: usize,
    pub w: usize,
    pub search: u32,
    pub measure: u32,
}

/// "Writing answers with the log's length"; a refused call with "the number, its place where named, and zeros elsewhere".
#[derive(Clone, Copy, PartialEq, Eq, Debug, Default)]
pub struct Written {
    pub refusal: i64,
    pub place: i64,
    pub length: i64,
}

/// "Another call reads a whole log into a list and answers with the head's numbers."
#[derive(Clone, Copy, PartialEq, Eq, Debug, Default)]
pub struct LogRead {
    pub refusal: i64,
    pub place: i64,
    pub head: Head,
}

/// Where a walker stands, as the header's gauge_cursor: phase 0 before the head, 1 among the blocks, 2 after the end, any other
/// number after a refusal.
#[derive(Clone, Copy, PartialEq, Eq, Debug, Default)]
#[repr(C)]
pub struct Cursor {
    pub at: usize,
    pub phase: u32,
    pub head: Head,
    pub blocks: usize,
}

/// "A walker over a lent log hands out one command a call": 1 or 6 head, 2 or 5 block, 3 still block, 4 end, with its values; 0 with a
/// refusal.
#[derive(Clone, Copy, PartialEq, Eq, Debug, Default)]
pub struct Walked {
    pub refusal: i64,
    pub place: i64,
    pub command: i64,
    pub head: Head,
    pub dy: i64,
    pub dx: i64,
    pub distortion: i64,
    pub blocks: i64,
    pub next: Cursor,
}

/// "Up to [the ceiling], the distortion comes back; beyond it, only 'over'. [...] With either comes the number of rows measured".
/// Over is 0 or 1, and with it the distortion is 0.
#[derive(Clone, Copy, PartialEq, Eq, Debug, Default)]
pub struct Measured {
    pub refusal: i64,
    pub distortion: i64,
    pub over: i64,
    pub rows: i64,
}

/// "The call hands back N pels as the very part of that frame": where the part begins and how long it is.
#[derive(Clone, Copy, PartialEq, Eq, Debug, Default)]
pub struct Viewed {
    pub refusal: i64,
    pub place: i64,
    pub length: i64,
}

impl fmt::Display for Pair {
    fn fmt(&self, out: &mut fmt::Formatter) -> fmt::Result {
        write!(
            out,
            "width {}, height {}, older of {} bytes, newer of {} bytes",
            self.width,
            self.height,
            self.older.len(),
            self.newer.len()
        )
    }
}

impl fmt::Display for Request {
    fn fmt(&self, out: &mut fmt::Formatter) -> fmt::Result {
        write!(
            out,
            "N {}, search {}, w {}, T {}, measure {}, row {}, column {}",
            self.n, self.search, self.w, self.t, self.measure, self.row, self.column
        )
    }
}

impl fmt::Display for FieldRequest {
    fn fmt(&self, out: &mut fmt::Formatter) -> fmt::Result {
        write!(
            out,
            "N {}, search {}, w {}, T {}, measure {}",
            self.n, self.search, self.w, self.t, self.measure
        )
    }
}

impl fmt::Display for Lent {
    fn fmt(&self, out: &mut fmt::Formatter) -> fmt::Result {
        write!(
            out,
            "list of {}, table of {}",
            self.list_length, self.table_length
        )
    }
}

impl fmt::Display for Measuring {
    fn fmt(&self, out: &mut fmt::Formatter) -> fmt::Result {
        write!(
            out,
            "measuring: N {}, row {}, column {}, vector ({},{}), measure {}, ceiling {}",
            self.n, self.row, self.column, self.dy, self.dx, self.measure, self.ceiling
        )
    }
}

impl fmt::Display for Viewing {
    fn fmt(&self, out: &mut fmt::Formatter) -> fmt::Result {
        write!(
            out,
            "row view: N {}, side {}, row {}, column {}",
            self.n, self.side, self.row, self.column
        )
    }
}
