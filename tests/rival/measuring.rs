//! The measuring call, by both measures, and the row view over made-up pairs, places and vectors, good ones and bad ones; and the ceiling of
//! measuring, around the sum at the end of every row.

use crate::archive;
use crate::group::Group;
use crate::pictures::{made_up, rough_pair, Chance, KINDS};
use crate::question::{Measured, Measuring, Pair, Viewing, FAR_CEILINGS, NO_MEASURES, SIZES};
use crate::rival::{self, Block};

/// A place along one side of a frame: mostly inside, sometimes just or far outside.
fn place(chance: &mut Chance, size: usize, n: usize) -> usize {
    let last = size - n;
    match chance.between(0, 9) {
        0 => 0,
        1 => last,
        2 => last + chance.between(1, 20) as usize,
        3 => usize::MAX - chance.between(0, 20) as usize,
        _ => chance.between(0, last as i64) as usize,
    }
}

/// One part of a vector: mostly in window 16, sometimes just or far outside.
fn part(chance: &mut Chance) -> i32 {
    match chance.between(0, 19) {
        0 => i32::MIN,
        1 => i32::MAX,
        2 => chance.between(i32::MIN as i64, i32::MAX as i64) as i32,
        3 => chance.one_of(&[-17, -16, 16, 17]),
        4..=9 => chance.between(-2, 2) as i32,
        _ => chance.between(-17, 17) as i32,
    }
}

/// The largest distortion: 255 × N², and by squares "largest sum is 65,025 × N²".
fn largest(n: usize, measure: u32) -> i64 {
    let of_a_pel = if measure == 1 { 255 } else { 65_025 };
    of_a_pel * (n * n) as i64
}

/// Any ceiling: a far one, or one of any size up to the largest distortion.
fn any_ceiling(chance: &mut Chance, largest: i64) -> u32 {
    match chance.between(0, 5) {
        0 => chance.one_of(&FAR_CEILINGS),
        _ => {
            let most = largest >> chance.between(0, 14);
            chance.between(0, most) as u32
        }
    }
}

/// "Hands back N pels as the very part of that frame, starting at that place": the part that the archive names holds what stands in
/// that row of that frame from that column on. A refused call hands back an empty part.
fn names_the_row(pair: &Pair, question: &Viewing) -> bool {
    let viewed = archive::row_view(pair, question);
    if viewed.refusal != 0 {
        return viewed.length == 0;
    }
    let frame = if question.side == 0 {
        &pair.older
    } else {
        &pair.newer
    };
    let row = frame.chunks(pair.width).nth(question.row);
    let wanted = row.and_then(|row| row.get(question.column..)?.get(..question.n));
    let part = frame.get(viewed.place as usize..);
    let part = part.and_then(|rest| rest.get(..viewed.length as usize));
    part.is_some() && part == wanted
}

/// Measuring, by the largest distortion as ceiling and by any other, and row views.
fn made_up_questions() -> u64 {
    let mut measuring = Group::new("measuring");
    let mut viewing = Group::new("row view");
    let mut parts = Group::new("row view, the pels themselves");
    for seed in 70_000..70_900 {
        let chance = &mut Chance::new(seed);
        let (kind, _) = KINDS[seed as usize % KINDS.len()];
        let n = chance.one_of(&SIZES);
        let reach = chance.one_of(&[3, 20, 60]);
        let width = n + chance.between(0, reach) as usize;
        let height = n + chance.between(0, reach) as usize;
        let pair = made_up(chance, kind, width, height, 16);
        for _ in 0..150 {
            let (row, column) = (place(chance, height, n), place(chance, width, n));
            let (dy, dx) = (part(chance), part(chance));
            for measure in [1, 2, chance.one_of(&NO_MEASURES)] {
                let most = largest(n, measure);
                for ceiling in [most as u32, any_ceiling(chance, most)] {
                    let question = Measuring {
                        n,
                        row,
                        column,
                        dy,
                        dx,
                        measure,
                        ceiling,
                    };
                    let answer = archive::measure(&pair, &question);
                    let wanted = rival::measure(&pair, &question);
                    let inputs = format_args!("{pair}, {question}, seed {seed}");
                    measuring.same(inputs, answer, wanted);
                }
            }
        }
        for _ in 0..50 {
            let question = Viewing {
                n,
                side: chance.one_of(&[0, 0, 0, 1, 1, 1, 2, u32::MAX]),
                row: place(chance, height, 1),
                column: place(chance, width, n),
            };
            let answer = archive::row_view(&pair, &question);
            let wanted = rival::row_view(&pair, &question);
            let inputs = format!("{pair}, {question}, seed {seed}");
            viewing.same(&inputs, answer, wanted);
            let named = names_the_row(&pair, &question);
            parts.holds(&inputs, named, &answer, &"that part of the frame");
        }
    }
    measuring.end() + viewing.end() + parts.end()
}

/// A block of a pair and a vector by which it can be measured, and the seed that they came from.
struct Case {
    seed: u64,
    pair: Pair,
    question: Measuring,
}

impl Case {
    /// The case of this measure in which the older and the newer block have these pels by row and column. All other pels are rough.
    fn of(
        seed: u64,
        n: usize,
        measure: u32,
        mut pels: impl FnMut(usize, usize) -> (u8, u8),
    ) -> Case {
        let chance = &mut Chance::new(seed);
        let (width, height) = (
            n + chance.between(0, 5) as usize,
            n + chance.between(0, 5) as usize,
        );
        let mut pair = rough_pair(chance, width, height, (3, 5));
        let mut place = |size: usize| chance.between(0, (size - n) as i64) as usize;
        let (row, column) = (place(height), place(width));
        let (top, left) = (place(height), place(width));
        for r in 0..n {
            for c in 0..n {
                let (older, newer) = pels(r, c);
                pair.older[(top + r) * width + left + c] = older;
                pair.newer[(row + r) * width + column + c] = newer;
            }
        }
        let question = Measuring {
            n,
            row,
            column,
            dy: top as i32 - row as i32,
            dx: left as i32 - column as i32,
            measure,
            ceiling: 0,
        };
        Case {
            seed,
            pair,
            question,
        }
    }

    /// The sum at the end of each row, by the rival.
    fn sums(&self) -> Vec<i64> {
        let Measuring { n, row, column, .. } = self.question;
        let block = Block::new(&self.pair, n, row, column, self.question.measure);
        let vector = (self.question.dy as i64, self.question.dx as i64);
        let rows = 1..=n as i64;
        rows.map(|rows| block.sum_of_rows(rows, vector)).collect()
    }

    /// The question with this ceiling, if it is one.
    fn by(&self, ceiling: i64) -> Option<Measuring> {
        let ceiling = u32::try_from(ceiling).ok()?;
        Some(Measuring {
            ceiling,
            ..self.question
        })
    }

    /// Asks both sides by this ceiling and holds the answers against each other.
    fn ask(&self, group: &mut Group, ceiling: i64) {
        if let Some(question) = self.by(ceiling) {
            let answer = archive::measure(&self.pair, &question);
            let wanted = rival::measure(&self.pair, &question);
            let inputs = format_args!("{}, {question}, seed {}", self.pair, self.seed);
            group.same(inputs, answer, wanted);
        }
    }

    /// Both sides must give this distortion, over and rows by this ceiling.
    fn told(&self, group: &mut Group, ceiling: i64, (distortion, over, rows): (i64, i64, usize)) {
        if let Some(question) = self.by(ceiling) {
            let wanted = Measured {
                refusal: 0,
                distortion,
                over,
                rows: rows as i64,
            };
            let answer = archive::measure(&self.pair, &question);
            let own = rival::measure(&self.pair, &question);
            let inputs = format_args!("{}, {question}, seed {}", self.pair, self.seed);
            group.same(inputs, (answer, own), (wanted, wanted));
        }
    }
}

/// Small blocks of little contrast, in every other case with rows that do not differ: every ceiling from 0 to past the distortion.
fn every_ceiling() -> u64 {
    let mut group = Group::new("ceilings, every one");
    for seed in 71_000..71_600 {
        let chance = &mut Chance::new(seed);
        let (n, measure) = (chance.one_of(&[4, 8]), chance.one_of(&[1, 2]));
        let most = chance.one_of(&[1, 2, 3, 5, 9, 14]);
        let ground = chance.between(0, 255 - most);
        let still: Vec<bool> = (0..n)
            .map(|_| seed % 2 == 0 && chance.between(0, 1) == 0)
            .collect();
        let case = Case::of(seed, n, measure, |r, _| {
            let older = (ground + chance.between(0, most)) as u8;
            let newer = (ground + chance.between(0, most)) as u8;
            (older, if still[r] { older } else { newer })
        });
        for ceiling in 0..=case.sums()[n - 1] + 3 {
            case.ask(&mut group, ceiling);
        }
    }
    group.end()
}

/// Made-up pairs: the ceilings around the sum at the end of every row.
fn every_row() -> u64 {
    let mut group = Group::new("ceilings around every row's sum");
    for seed in 72_000..72_400 {
        let chance = &mut Chance::new(seed);
        let (kind, _) = KINDS[seed as usize % KINDS.len()];
        let n = chance.one_of(&SIZES);
        let pair = made_up(chance, kind, n + 9, n + 7, 4);
        for measure in [1, 2] {
            let case = Case::of(seed, n, measure, |r, c| {
                let at = (3 + r) * pair.width + 4 + c;
                (pair.older[at], pair.newer[at])
            });
            for sum in case.sums() {
                for ceiling in sum - 2..=sum + 2 {
                    case.ask(&mut group, ceiling);
                }
            }
        }
    }
    group.end()
}

/// Blocks that differ in one row alone, in one pel of it or in all, or in none: worked out by hand.
fn one_row() -> u64 {
    let mut group = Group::new("ceilings, one row that differs");
    for (n, measure) in SIZES.into_iter().flat_map(|n| [(n, 1), (n, 2)]) {
        let of_a_pel = |off: i64| if measure == 1 { off } else { off * off };
        for row in 0..n {
            for (off, pels) in [(1, 1), (7, n), (255, 1), (255, n)] {
                let seed = 73_000 + (n + row) as u64;
                let case = Case::of(seed, n, measure, |r, c| {
                    let differs = r == row && (c + row) % n < pels;
                    (if differs { off as u8 } else { 0 }, 0)
                });
                let sum = of_a_pel(off) * pels as i64;
                for ceiling in [0, 1, sum / 2, sum - 2, sum - 1] {
                    if ceiling < sum {
                        case.told(&mut group, ceiling, (0, 1, row + 1));
                    }
                }
                for ceiling in [sum, sum + 1, largest(n, measure), i64::from(u32::MAX)] {
                    case.told(&mut group, ceiling, (sum, 0, n));
                }
            }
        }
        let alike = Case::of(73_000, n, measure, |r, c| ((r * c) as u8, (r * c) as u8));
        for ceiling in FAR_CEILINGS {
            alike.told(&mut group, ceiling as i64, (0, 0, n));
        }
    }
    group.end()
}

/// 0 against 255: "a ceiling at the largest distortion gives the old distortion".
fn largest_distortions() -> u64 {
    let mut group = Group::new("ceilings at the largest distortion");
    for (n, measure) in SIZES.into_iter().flat_map(|n| [(n, 1), (n, 2)]) {
        for pels in [(0, 255), (255, 0)] {
            let case = Case::of(74_000 + n as u64, n, measure, |_, _| pels);
            let most = largest(n, measure);
            for ceiling in [most, most + 1, 1 << 31, i64::from(u32::MAX)] {
                case.told(&mut group, ceiling, (most, 0, n));
            }
            for row in 1..=n {
                let sum = most / n as i64 * row as i64;
                case.told(&mut group, sum - 1, (0, 1, row));
                if row < n {
                    case.told(&mut group, sum, (0, 1, row + 1));
                }
            }
            case.told(&mut group, 0, (0, 1, 1));
        }
    }
    group.end()
}

/// Measuring and row views; answers with the number of mismatches.
pub fn run() -> u64 {
    made_up_questions() + every_ceiling() + every_row() + one_row() + largest_distortions()
}
