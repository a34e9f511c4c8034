//! The four searches over made-up pairs, by both measures: every answer against the rival's, and what the rules say of the searches
//! among themselves. Blocks stand in corners, at borders and inside, on the grid and off it.

use crate::archive;
use crate::group::Group;
use crate::pictures::{made_up, rough_pair, Chance, Kind, KINDS};
use crate::question::{Answer, Measured, Measuring, Pair, Request, AT_1, MEASURES, SIZES};
use crate::rival::{self, largest_threshold, Block};

/// A made-up pair, the seed that it came from and the block size asked for.
pub struct Case {
    pub seed: u64,
    pub pair: Pair,
    pub n: usize,
}

impl Case {
    /// Asks the archive and the rival, holds the answers against each other, hands back the archive's.
    fn ask(&self, group: &mut Group, request: Request) -> Answer {
        let answer = archive::search_block(&self.pair, &request);
        let wanted = rival::search_block(&self.pair, &request);
        group.same(self.inputs(&request), answer, wanted);
        answer
    }

    pub fn inputs<'a>(&'a self, request: &'a Request) -> impl std::fmt::Display + 'a {
        Inputs {
            case: self,
            request,
        }
    }

    /// Corners, the four borders, inside, and two grid blocks, the last one among them.
    pub fn places(&self, chance: &mut Chance) -> Vec<(usize, usize)> {
        let (last_row, last_column) = (self.pair.height - self.n, self.pair.width - self.n);
        let mut row = || chance.between(0, last_row as i64) as usize;
        let rows = [row(), row(), row(), row()];
        let mut column = || chance.between(0, last_column as i64) as usize;
        let columns = [column(), column(), column(), column()];
        let on_grid = |place: usize| place / self.n * self.n;
        vec![
            (0, 0),
            (0, last_column),
            (last_row, 0),
            (last_row, last_column),
            (0, columns[0]),
            (last_row, columns[1]),
            (rows[0], 0),
            (rows[1], last_column),
            (rows[2], columns[2]),
            (last_row / 2, last_column / 2),
            (on_grid(rows[3]), on_grid(columns[3])),
            (on_grid(last_row), on_grid(last_column)),
        ]
    }
}

/// The inputs of one case, for the report of a mismatch.
struct Inputs<'a> {
    case: &'a Case,
    request: &'a Request,
}

impl std::fmt::Display for Inputs<'_> {
    fn fmt(&self, out: &mut std::fmt::Formatter) -> std::fmt::Result {
        write!(
            out,
            "{}, {}, seed {}",
            self.case.pair, self.request, self.case.seed
        )
    }
}

/// A made-up pair for blocks of size N and window w. Its frames are larger than a block by `room` at least; half of them hardly by
/// more, half reach up to 60, or as far as N 32 needs for window 16 all around.
pub fn case_of(seed: u64, kind: Kind, n: usize, w: usize, room: usize) -> (Case, Chance) {
    // Each kind has seeds of its own.
    let seed = seed + 100_000 * kind as u64;
    let mut chance = Chance::new(seed);
    let least = n + room;
    let reach = chance.one_of(&[9, (n + 44).max(60) as i64 - least as i64]);
    let width = least + chance.between(0, reach) as usize;
    let height = least + chance.between(0, reach) as usize;
    let pair = made_up(&mut chance, kind, width, height, w);
    (Case { seed, pair, n }, chance)
}

/// What the rules say of the searches among themselves, over all kinds of pairs, by one measure: "four-step and cross are held against
/// pruned by the same measure".
struct Relations {
    measure: u32,
    /// The measure's name.
    by: &'static str,
    /// What full finds, measured with its distortion as ceiling, and with one less: over.
    full: Group,
    /// Pruned finds what full finds; dropped and finally measured are the candidates.
    pruned: Group,
    /// Four-step is never lower than the exhaustive best of window 7 and measures at most 27.
    four_step: Group,
    /// "Unclipped, four-step counts are 17, 20, 22, 23, 25 or 27."
    unclipped: Group,
    /// How often each of these counts was met.
    met: [u64; 6],
    /// Cross is never lower than the exhaustive best of its window and measures at most 5 + 4 log2 w.
    cross: Group,
}

/// The rival's block.
fn block_of<'a>(case: &'a Case, request: &Request) -> Block<'a> {
    let Request { n, row, column, .. } = *request;
    Block::new(&case.pair, n, row, column, request.measure)
}

const UNCLIPPED_COUNTS: [i64; 6] = [17, 20, 22, 23, 25, 27];

impl Relations {
    fn new((measure, by): (u32, &'static str)) -> Relations {
        let group = |what: &str| Group::new(format!("{by}, {what}"));
        Relations {
            measure,
            by,
            full: group("full, measured up to its distortion"),
            pruned: group("pruned against full"),
            four_step: group("four-step against full"),
            unclipped: group("four-step, counts of blocks with the window inside"),
            met: [0; 6],
            cross: group("cross against full"),
        }
    }

    /// A group of searches by the measure.
    fn group(&self, what: &str) -> Group {
        Group::new(format!("{}, {what}", self.by))
    }

    fn of_full(&mut self, case: &Case, request: &Request, full: &Answer) {
        let question = |ceiling: i64| Measuring {
            n: request.n,
            row: request.row,
            column: request.column,
            dy: full.dy as i32,
            dx: full.dx as i32,
            measure: request.measure,
            ceiling: ceiling as u32,
        };
        let measured = archive::measure(&case.pair, &question(full.distortion));
        let wanted = Measured {
            refusal: 0,
            distortion: full.distortion,
            over: 0,
            rows: request.n as i64,
        };
        self.full.same(case.inputs(request), measured, wanted);
        if full.distortion > 0 {
            let less = question(full.distortion - 1);
            let measured = archive::measure(&case.pair, &less);
            let wanted = Measured {
                over: 1,
                ..rival::measure(&case.pair, &less)
            };
            self.full.same(case.inputs(request), measured, wanted);
        }
    }

    fn of_pruned(&mut self, case: &Case, request: &Request, pruned: &Answer, full: &Answer) {
        let block = block_of(case, request);
        let candidates = block.candidates(request.w as i64).len() as i64;
        let same = (pruned.dy, pruned.dx, pruned.distortion) == (full.dy, full.dx, full.distortion);
        let all =
            pruned.dropped + pruned.counts[AT_1] == candidates && full.counts[AT_1] == candidates;
        self.pruned
            .holds(case.inputs(request), same && all, pruned, full);
    }

    fn of_four_step(&mut self, case: &Case, request: &Request, found: &Answer, full: &Answer) {
        let probes = found.counts[AT_1];
        let fact = found.distortion >= full.distortion && (1..=27).contains(&probes);
        self.four_step
            .holds(case.inputs(request), fact, found, full);
        let block = block_of(case, request);
        if block.is_candidate(7, (-7, -7)) && block.is_candidate(7, (7, 7)) {
            let known = UNCLIPPED_COUNTS.iter().position(|&count| count == probes);
            let fact = known.is_some();
            self.unclipped
                .holds(case.inputs(request), fact, found, &UNCLIPPED_COUNTS);
            if let Some(k) = known {
                self.met[k] += 1;
            }
        }
    }

    fn of_cross(&mut self, case: &Case, request: &Request, found: &Answer, full: &Answer) {
        let most = match request.w {
            2 => 9,
            4 => 13,
            8 => 17,
            _ => 21,
        };
        let probes = found.counts[AT_1];
        let fact = found.distortion >= full.distortion && (1..=most).contains(&probes);
        self.cross.holds(case.inputs(request), fact, found, full);
    }

    /// Ends the groups. Each of the six counts must have been met, or the pairs would test too little.
    fn end(mut self) -> u64 {
        let met = self.met;
        let inputs = "blocks that met each of the six counts";
        self.unclipped
            .holds(inputs, met.iter().all(|&times| times > 0), &met, &"each");
        self.full.end()
            + self.pruned.end()
            + self.four_step.end()
            + self.unclipped.end()
            + self.cross.end()
    }
}

/// Searches 1 and 2, every N and every w.
fn full_and_pruned(kind: Kind, name: &str, relations: &mut Relations) -> u64 {
    let measure = relations.measure;
    let mut full_group = relations.group(&format!("full, {name}"));
    let mut pruned_group = relations.group(&format!("pruned, {name}"));
    for n in SIZES {
        for w in 0..=16 {
            for round in 0..4 {
                let seed = 10_000 + (n * 17 + w) as u64 * 4 + round;
                let (case, mut chance) = case_of(seed, kind, n, w, 0);
                let places = case.places(&mut chance);
                // Half of the places in each round, so that two rounds have them all.
                for (row, column) in places.into_iter().skip(round as usize % 2).step_by(2) {
                    let request = |search| Request {
                        n,
                        search,
                        w,
                        t: 0,
                        measure,
                        row,
                        column,
                    };
                    let full = case.ask(&mut full_group, request(1));
                    let pruned = case.ask(&mut pruned_group, request(2));
                    relations.of_full(&case, &request(1), &full);
                    relations.of_pruned(&case, &request(2), &pruned, &full);
                }
            }
        }
    }
    full_group.end() + pruned_group.end()
}

/// Search 3, every N.
fn four_step(kind: Kind, name: &str, relations: &mut Relations) -> u64 {
    let measure = relations.measure;
    let mut group = relations.group(&format!("four-step, {name}"));
    for n in SIZES {
        for round in 0..40 {
            let seed = 20_000 + n as u64 * 40 + round;
            // In every other round the whole window fits around the blocks in the middle.
            let room = if round % 2 == 0 { 0 } else { 14 };
            let (case, mut chance) = case_of(seed, kind, n, 7, room);
            for (row, column) in case.places(&mut chance) {
                let request = |search| Request {
                    n,
                    search,
                    w: 7,
                    t: 0,
                    measure,
                    row,
                    column,
                };
                let found = case.ask(&mut group, request(3));
                let full = archive::search_block(&case.pair, &request(1));
                relations.of_four_step(&case, &request(3), &found, &full);
            }
        }
    }
    group.end()
}

/// Search 4, every N, every w, and thresholds at the ends of their range and around the distortion of (0,0).
fn cross(kind: Kind, name: &str, relations: &mut Relations) -> u64 {
    let measure = relations.measure;
    let mut group = relations.group(&format!("cross, {name}"));
    for n in SIZES {
        for w in [2, 4, 8, 16] {
            for round in 0..12 {
                let seed = 30_000 + (n * 17 + w) as u64 * 12 + round;
                let (case, mut chance) = case_of(seed, kind, n, w, 0);
                let places = case.places(&mut chance);
                for (row, column) in places.into_iter().skip(round as usize % 2).step_by(2) {
                    let request = |search, t| Request {
                        n,
                        search,
                        w,
                        t,
                        measure,
                        row,
                        column,
                    };
                    let full = archive::search_block(&case.pair, &request(1, 0));
                    let block = Block::new(&case.pair, n, row, column, measure);
                    let d = block.distortion((0, 0)) as u32;
                    // The mean is near d / N²: a T that is held against it would end the search too soon or too late.
                    let mean = d / (n * n) as u32;
                    let most = largest_threshold(measure);
                    let edges = [0, 1, d.saturating_sub(1), d, d + 1, most];
                    for t in edges.into_iter().chain([mean, mean + 1]) {
                        let found = case.ask(&mut group, request(4, t));
                        if found.refusal == 0 {
                            relations.of_cross(&case, &request(4, t), &found, &full);
                        }
                    }
                }
            }
        }
    }
    group.end()
}

/// Rough pairs moved by a vector of window w, with a block around which that whole window lies inside: full and pruned find that
/// very vector, with distortion 0, and still do where the window asked for is larger.
fn known_vectors(relations: &Relations) -> u64 {
    let measure = relations.measure;
    let mut group = relations.group("full and pruned, known vectors");
    for n in SIZES {
        for w in [1, 3, 16] {
            for round in 0..40 {
                let seed = 40_000 + (n * 17 + w) as u64 * 40 + round;
                let mut chance = Chance::new(seed);
                let reach = w as i64;
                let vector = (chance.between(-reach, reach), chance.between(-reach, reach));
                let (width, height) = (n + 2 * w + 3, n + 2 * w + 2);
                let pair = rough_pair(&mut chance, width, height, vector);
                let case = Case { seed, pair, n };
                for search in [1, 2] {
                    for larger in [w, 16] {
                        let request = Request {
                            n,
                            search,
                            w: larger,
                            t: 0,
                            measure,
                            row: w + 1,
                            column: w + 2,
                        };
                        let found = archive::search_block(&case.pair, &request);
                        let answer = (found.refusal, found.dy, found.dx, found.distortion);
                        let wanted = (0, vector.0, vector.1, 0);
                        group.same(case.inputs(&request), answer, wanted);
                    }
                }
            }
        }
    }
    group.end()
}

/// Small blocks of two pel values: distortions are few and most answers are decided among equals.
fn ties(relations: &Relations) -> u64 {
    let measure = relations.measure;
    let mut group = relations.group("all searches, ties");
    for seed in 60_000..60_800 {
        let (case, mut chance) = case_of(seed, Kind::TwoValued, 4, 3, 14);
        for (row, column) in case.places(&mut chance).into_iter().skip(7).step_by(2) {
            for (search, w) in [(1, 1), (1, 5), (2, 5), (3, 7), (4, 2), (4, 4), (4, 8)] {
                let request = Request {
                    n: case.n,
                    search,
                    w,
                    t: 0,
                    measure,
                    row,
                    column,
                };
                case.ask(&mut group, request);
            }
        }
    }
    group.end()
}

/// Frames at the upper end of the sizes, a few blocks of each.
fn large_frames(relations: &mut Relations) -> u64 {
    let measure = relations.measure;
    let mut group = relations.group("all searches, large frames");
    let sizes = [
        (640, 480),
        (1024, 4),
        (4, 1024),
        (1024, 17),
        (16, 1023),
        (1024, 35),
        (32, 1023),
        (1024, 1024),
    ];
    for (index, (width, height)) in sizes.into_iter().enumerate() {
        for n in SIZES {
            if n > width || n > height {
                continue;
            }
            let seed = 50_000 + (index * 20 + n) as u64;
            let mut chance = Chance::new(seed);
            let kind = chance.one_of(&[Kind::Moved, Kind::Noisy, Kind::TwoValued, Kind::Extreme]);
            let pair = made_up(&mut chance, kind, width, height, 9);
            let case = Case { seed, pair, n };
            for (row, column) in case.places(&mut chance) {
                let request = |search, w| Request {
                    n,
                    search,
                    w,
                    t: 0,
                    measure,
                    row,
                    column,
                };
                for w in [0, 2, 7, 16] {
                    let full = case.ask(&mut group, request(1, w));
                    let pruned = case.ask(&mut group, request(2, w));
                    relations.of_pruned(&case, &request(2, w), &pruned, &full);
                    if w == 7 {
                        let found = case.ask(&mut group, request(3, w));
                        relations.of_four_step(&case, &request(3, w), &found, &full);
                    } else if w != 0 {
                        let found = case.ask(&mut group, request(4, w));
                        relations.of_cross(&case, &request(4, w), &found, &full);
                    }
                }
            }
        }
    }
    group.end()
}

/// All searches by one measure.
fn by_measure(mut relations: Relations) -> u64 {
    let mut mismatches = 0;
    for (kind, name) in KINDS {
        mismatches += full_and_pruned(kind, name, &mut relations);
    }
    for (kind, name) in KINDS {
        mismatches += four_step(kind, name, &mut relations);
    }
    for (kind, name) in KINDS {
        mismatches += cross(kind, name, &mut relations);
    }
    mismatches += known_vectors(&relations);
    mismatches += ties(&relations);
    mismatches += large_frames(&mut relations);
    mismatches + relations.end()
}

/// All searches; answers with the number of mismatches.
pub fn run() -> u64 {
    MEASURES
        .into_iter()
        .map(|measure| by_measure(Relations::new(measure)))
        .sum()
}
