//! Fields over made-up pairs, by both measures: every answer, every place of the lent list and of the lent table, and a few places behind them, must
//! be what the rival's field leaves there. How often the pairs put the voters' rule to the test is counted.

use crate::archive;
use crate::group::Group;
use crate::pictures::{made_up, Chance, Kind, KINDS};
use crate::question::{FieldAnswer, FieldRequest, Lent, Pair, MEASURES, NO_MEASURES, SIZES};
use crate::reckoning::{self, majority};
use crate::rival::{largest_threshold, Block, Vector};

/// So many places stand behind what is lent.
pub const BEHIND: usize = 5;

/// Lent memory of these lengths, filled by chance.
pub fn lend(chance: &mut Chance, list_length: usize, table_length: usize) -> Lent {
    let list = (0..list_length + BEHIND).map(|_| chance.next() as i32);
    let list = list.collect();
    let table = (0..table_length + BEHIND).map(|_| chance.next() as u32);
    Lent {
        list,
        list_length,
        table: table.collect(),
        table_length,
    }
}

/// A length around the one that is needed: mostly that or more, sometimes one short, sometimes nothing.
pub fn length_around(chance: &mut Chance, needed: usize) -> usize {
    match chance.between(0, 19) {
        0 => 0,
        1 => needed.saturating_sub(1),
        2..=9 => needed,
        _ => needed + chance.between(1, 9) as usize,
    }
}

/// Lent memory for a field of this pair, mostly enough. Searches 1, 3 and 4 may be lent any table.
pub fn lend_for(chance: &mut Chance, pair: &Pair, request: &FieldRequest) -> Lent {
    let blocks = (pair.width / request.n.max(1)) * (pair.height / request.n.max(1));
    let list_length = length_around(chance, 3 * blocks.min(4096));
    let needed = (pair.width.min(1024) + 1) * (pair.height.min(1024) + 1);
    let table_length = if request.search == 2 {
        length_around(chance, needed)
    } else {
        chance.one_of(&[0, 1, needed])
    };
    lend(chance, list_length, table_length)
}

/// A request that is accepted, for blocks of size N. All but T is the same by each measure.
pub fn good_request(chance: &mut Chance, n: usize, search: u32, measure: u32) -> FieldRequest {
    let w = match search {
        1 | 2 => chance.one_of(&[0, 1, 2, 3, 5, 7, 8, 16]),
        3 => 7,
        _ => chance.one_of(&[2, 4, 8, 16]),
    };
    let t = match search {
        4 => chance.one_of(&[0, 0, 1, 100, 5000, largest_threshold(measure)]),
        _ => 0,
    };
    FieldRequest {
        n,
        search,
        w,
        t,
        measure,
    }
}

/// Now and then one thing about a pair or a request is set wrong.
pub fn spoil(chance: &mut Chance, pair: &mut Pair, request: &mut FieldRequest) {
    match chance.between(0, 8) {
        0 => pair.width = chance.one_of(&[0, 3, 1025, usize::MAX]),
        1 => pair.height = chance.one_of(&[0, 3, 1025, usize::MAX]),
        2 => drop(pair.older.pop()),
        3 => pair.newer.push(0),
        4 => request.n = chance.one_of(&[0, 2, 5, 12, 32, 64]),
        5 => request.search = chance.one_of(&[0, 5, u32::MAX]),
        6 => request.w = chance.one_of(&[17, 6, 32, usize::MAX]),
        7 => request.measure = chance.one_of(&NO_MEASURES),
        _ => {
            let over = largest_threshold(request.measure) + 1;
            request.t = chance.one_of(&[1, over, u32::MAX]);
        }
    }
}

/// A made-up pair of a few blocks of size N.
pub fn few_blocks(chance: &mut Chance, kind: Kind, n: usize, w: usize) -> Pair {
    let most = [5, 3, 2, 2][n.trailing_zeros() as usize - 2] * n as i64;
    let width = chance.between(n as i64, most + 3) as usize;
    let height = chance.between(n as i64, most + 3) as usize;
    made_up(chance, kind, width, height, w)
}

/// How many accepted fields there were of each kind, by their voters.
#[derive(Default)]
struct Voters {
    /// No block votes.
    none: u64,
    /// Some do, some do not.
    some: u64,
    all: u64,
    /// A vote of all blocks would give another vector.
    outvoted: u64,
    /// The reading is one of several vectors that as many voters have.
    tied: u64,
}

impl Voters {
    /// Counts a field: what the rival answered, and its list.
    fn count(&mut self, pair: &Pair, request: &FieldRequest, answer: &FieldAnswer, list: &[i32]) {
        if answer.refusal != 0 {
            return;
        }
        let places = reckoning::grid(pair, request.n);
        let vectors: Vec<Vector> = list[..3 * places.len()]
            .chunks(3)
            .map(|entry| (entry[0] as i64, entry[1] as i64))
            .collect();
        match answer.voters {
            0 => self.none += 1,
            voters if voters == places.len() as i64 => self.all += 1,
            _ => self.some += 1,
        }
        let reading = (answer.dy, answer.dx);
        self.outvoted += u64::from(answer.votes > 0 && majority(&vectors).0 != reading);
        let others: Vec<Vector> = places
            .iter()
            .zip(vectors)
            .filter(|&(&(row, column), vector)| {
                let block = Block::new(pair, request.n, row, column, request.measure);
                block.votes() && vector != reading
            })
            .map(|(_, vector)| vector)
            .collect();
        self.tied += u64::from(answer.votes > 0 && majority(&others).1 == answer.votes);
    }

    /// A line with the numbers. Each must have been met a hundred times, or the pairs would test too little.
    fn end(self) -> u64 {
        let met = [self.none, self.some, self.all, self.outvoted, self.tied];
        let mut group = Group::new(format!(
            "fields in which no block votes {}, some do {}, all do {}; blank blocks would outvote the voters {}; voters tie {}",
            self.none, self.some, self.all, self.outvoted, self.tied
        ));
        for times in met {
            group.holds("fields by their voters", times >= 100, &met, &100);
        }
        group.end()
    }
}

/// Asks both sides and holds answer, list and table against each other; hands back the rival's.
fn hold_field(
    group: &mut Group,
    seed: u64,
    pair: &Pair,
    request: &FieldRequest,
    lent: &Lent,
) -> (FieldAnswer, Vec<i32>) {
    let (mut here, mut there) = (lent.clone(), lent.clone());
    let answer = archive::field(pair, request, &mut here);
    let wanted = reckoning::field(pair, request, &mut there);
    let inputs = format!("{pair}, {request}, {lent}, seed {seed}");
    group.same(&inputs, answer, wanted);
    group.same(&inputs, &here.list, &there.list);
    group.same(&inputs, here.table, there.table);
    (wanted, there.list)
}

/// One search by one measure over all kinds of pairs, every N, and lent memory of all lengths.
fn by_search(
    search: u32,
    name: &str,
    (measure, by): (u32, &str),
    rounds: u64,
    voters: &mut Voters,
) -> u64 {
    let mut group = Group::new(format!("fields, {by}, {name}"));
    for seed in 0..rounds {
        let seed = 80_000 + 2_000 * search as u64 + seed;
        let chance = &mut Chance::new(seed);
        let (kind, _) = KINDS[seed as usize % KINDS.len()];
        let n = chance.one_of(&[4, 4, 4, 8, 8, 16, 32]);
        let request = good_request(chance, n, search, measure);
        let pair = few_blocks(chance, kind, n, request.w);
        let lent = lend_for(chance, &pair, &request);
        let (answer, list) = hold_field(&mut group, seed, &pair, &request, &lent);
        voters.count(&pair, &request, &answer, &list);
    }
    group.end()
}

/// Pairs and requests of which one thing is wrong.
fn spoilt() -> u64 {
    let mut group = Group::new("fields, refused");
    for seed in 90_000..92_000 {
        let chance = &mut Chance::new(seed);
        let n = chance.one_of(&[4, 8]);
        let search = chance.between(1, 4) as u32;
        let measure = chance.one_of(&[1, 2]);
        let mut request = good_request(chance, n, search, measure);
        request.w = request.w.min(8);
        let mut pair = few_blocks(chance, Kind::Noisy, n, 2);
        spoil(chance, &mut pair, &mut request);
        let lent = lend_for(chance, &pair, &request);
        hold_field(&mut group, seed, &pair, &request, &lent);
    }
    group.end()
}

/// List and table just long enough and one short, for every search and many sizes.
fn edges() -> u64 {
    let mut group = Group::new("fields, list and table one short");
    let small = [(4, 4), (5, 4), (7, 9), (8, 8), (16, 16), (17, 35), (31, 8)];
    let sizes = small.into_iter().chain([(32, 32), (35, 70)]);
    for (width, height) in sizes {
        for n in SIZES {
            if n > width || n > height {
                continue;
            }
            let seed = (92_000 + width * 100 + n) as u64;
            let chance = &mut Chance::new(seed);
            let pair = made_up(chance, Kind::Moved, width, height, 2);
            let list = 3 * (width / n) * (height / n);
            let table = (width + 1) * (height + 1);
            for search in 1..=4 {
                let measure = chance.one_of(&[1, 2]);
                let mut request = good_request(chance, n, search, measure);
                request.w = [2, 2, 7, 2][search as usize - 1];
                for (list_length, table_length) in [
                    (list, table),
                    (list - 1, table),
                    (list, table - 1),
                    (list - 1, table - 1),
                    (list, 0),
                    (0, table),
                ] {
                    let lent = lend(chance, list_length, table_length);
                    hold_field(&mut group, seed, &pair, &request, &lent);
                }
            }
        }
    }
    group.end()
}

/// Pairs at the ends of the sizes, with small windows.
fn large_frames() -> u64 {
    let mut group = Group::new("fields, large frames");
    let thin = [(1024, 5), (6, 1024), (1024, 19), (1024, 33), (33, 1024)];
    let sizes = thin.into_iter().chain([(640, 480), (1024, 1024)]);
    for (index, (width, height)) in sizes.enumerate() {
        for n in SIZES {
            if n > width || n > height || (width * height > 40_000 && n < 16) {
                continue;
            }
            let seed = 95_000 + (index * 20 + n) as u64;
            let chance = &mut Chance::new(seed);
            let kind = chance.one_of(&[Kind::Noisy, Kind::Extreme, Kind::Moved]);
            let pair = made_up(chance, kind, width, height, 1);
            let blocks = (width / n) * (height / n);
            let lent = lend(chance, 3 * blocks, (width + 1) * (height + 1));
            for (measure, _) in MEASURES {
                let request = FieldRequest {
                    n,
                    search: 2,
                    w: 1,
                    t: 0,
                    measure,
                };
                hold_field(&mut group, seed, &pair, &request, &lent);
            }
        }
    }
    group.end()
}

/// All fields; answers with the number of mismatches.
pub fn run() -> u64 {
    let mut mismatches = 0;
    let mut voters = Voters::default();
    for measure in MEASURES {
        for (search, name) in [(1, "full"), (2, "pruned"), (3, "four-step"), (4, "cross")] {
            mismatches += by_search(search, name, measure, 1500, &mut voters);
        }
    }
    mismatches + voters.end() + spoilt() + edges() + large_frames()
}
