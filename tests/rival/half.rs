//! The search to half a pel: small pairs worked out by hand, the borders of the frame and of the window, made-up pairs, and pairs that are
//! moved by half pels. That it refuses as the single-block search does is tested in edges.rs.

use crate::archive;
use crate::group::Group;
use crate::pictures::{half_pel_pair, made_up, rough_pair, Chance, Kind, KINDS};
use crate::question::{Answer, Half, Pair, Request, SIZES};
use crate::rival::{self, preference_order, Block, Vector};
use crate::searching::{case_of, Case};

/// What the archive answers of the search must be the single-block call's answer, which searching.rs holds against the rival's; the rest
/// must be what the rival makes of that. Hands out the answer.
fn ask(group: &mut Group, case: &Case, request: &Request) -> Half {
    let half = archive::search_half(&case.pair, request);
    let found = archive::search_block(&case.pair, request);
    let wanted = rival::refined(&case.pair, request, found);
    group.same(case.inputs(request), half, wanted);
    half
}

/// The offsets of the eight neighbours, in half pels, in preference order.
const EIGHT: [Vector; 8] = [
    (-1, 0),
    (0, -1),
    (0, 1),
    (1, 0),
    (-1, -1),
    (-1, 1),
    (1, -1),
    (1, 1),
];

/// A request for the block at a place, with window 0 and no threshold.
fn request_at((row, column): (usize, usize), n: usize, search: u32, measure: u32) -> Request {
    Request {
        n,
        search,
        w: 0,
        t: 0,
        measure,
        row,
        column,
    }
}

/// Each of the one with each of the other.
fn pairs<A: Copy, B>(
    one: impl IntoIterator<Item = A>,
    other: impl IntoIterator<Item = B> + Clone,
) -> impl Iterator<Item = (A, B)> {
    let one = one.into_iter();
    one.flat_map(move |a| other.clone().into_iter().map(move |b| (a, b)))
}

/// A pair of which each frame's pels are made from row and column.
fn pair_of(
    (width, height): (usize, usize),
    older: impl Fn(usize, usize) -> u8,
    newer: impl Fn(usize, usize) -> u8,
) -> Pair {
    let frame = |pel: &dyn Fn(usize, usize) -> u8| {
        let places = 0..width * height;
        places.map(|k| pel(k / width, k % width)).collect()
    };
    Pair {
        older: frame(&older),
        newer: frame(&newer),
        width,
        height,
    }
}

/// Pairs worked out by hand, N 4 and window 0: where the block stands, which of the nine wins, and the distortions of the centre and of the
/// winner, by absolute and by squares. Both sides must answer so.
fn worked() -> u64 {
    let mut group = Group::new("half pel, worked pairs");
    let inputs = "the rival's own order of the eight";
    group.same(inputs, &preference_order(1)[1..], &EIGHT);
    let mut told = |what: &str, pair: &Pair, place: (usize, usize), winner, distortions: Two| {
        for (measure, (distortion, half_distortion)) in (1..).zip(distortions) {
            let (half_dy, half_dx) = winner;
            let wanted = Half {
                found: Answer {
                    distortion,
                    counts: [0, 0, 0, 0, 0, 1],
                    ..Answer::default()
                },
                half_dy,
                half_dx,
                half_distortion,
            };
            let request = request_at(place, 4, 1, measure);
            let inputs = format!("{what}: {pair}, {request}");
            group.same(&inputs, archive::search_half(pair, &request), wanted);
            let inputs = format!("the rival's own answer to {inputs}");
            group.same(&inputs, rival::search_half(pair, &request), wanted);
        }
    };

    // Older rows 0 10 20 30 40, newer ones 5 more or less: half a pel to the right or left, and in four rows none above or below. A block at
    // the border has none beyond it.
    let tens = |k: usize| 10 * k as u8;
    let fives = [(80, 0), (400, 0)];
    let none = [(80, 80), (400, 400)];
    let right = pair_of((5, 4), |_, c| tens(c), |_, c| tens(c) + 5);
    told("right", &right, (0, 0), (0, 1), fives);
    told("right", &right, (0, 1), (0, 0), none);
    let left = pair_of((5, 4), |_, c| tens(c) + 5, |_, c| tens(c));
    told("left", &left, (0, 0), (0, 0), none);
    told("left", &left, (0, 1), (0, -1), fives);
    let down = pair_of((4, 5), |r, _| tens(r), |r, _| tens(r) + 5);
    told("down", &down, (0, 0), (1, 0), fives);
    told("down", &down, (1, 0), (0, 0), none);
    let up = pair_of((4, 5), |r, _| tens(r) + 5, |r, _| tens(r));
    told("up", &up, (0, 0), (0, 0), none);
    told("up", &up, (1, 0), (-1, 0), fives);

    // "(a + b + 1) / 2": of 0 and 1 it is 1.
    let ones = pair_of((5, 4), |_, c| c as u8 % 2, |_, _| 1);
    told("0 and 1", &ones, (0, 0), (0, 1), [(8, 0), (8, 0)]);
    let zeros = pair_of((5, 4), |_, c| c as u8 % 2, |_, _| 0);
    told("0 and 1", &zeros, (0, 0), (0, 0), [(8, 8), (8, 8)]);
    let light = pair_of((4, 5), |r, _| 254 + r as u8 % 2, |_, _| 255);
    told("254 and 255", &light, (0, 0), (1, 0), [(8, 0), (8, 0)]);

    // "(a + b + c + d + 2) / 4": where the four make 1 it is 0, where they make 42 it is 11.
    let dots = |ground: u8, dot: u8| {
        let pels = [dot, ground, ground, ground];
        move |r: usize, c: usize| pels[r % 2 * 2 + c % 2]
    };
    let one = pair_of((5, 5), dots(0, 1), |_, _| 0);
    told("1 in four", &one, (0, 0), (1, 1), [(4, 0), (4, 0)]);
    let older = |r: usize, c: usize| tens(r + c) + c as u8 % 2;
    let two = pair_of((5, 5), older, |r, c| tens(r + c) + 11);
    told("2 in four", &two, (0, 0), (1, 1), [(168, 0), (1768, 0)]);
    let two = pair_of((5, 5), older, |r, c| tens(r + c) + 10);
    told("2 in four", &two, (0, 0), (1, 1), [(152, 16), (1448, 16)]);
    let light = pair_of((5, 5), dots(255, 253), |_, _| 255);
    told("253 in four", &light, (0, 0), (1, 1), [(8, 0), (16, 0)]);

    // All neighbours of a chequered block have 5: the first that counts.
    for (size, place, winner, distortions) in [
        ((6, 6), (1, 1), (-1, 0), fives),
        ((6, 6), (2, 2), (-1, 0), fives),
        ((6, 6), (0, 1), (0, -1), fives),
        ((6, 6), (0, 2), (0, -1), fives),
        ((6, 6), (0, 0), (0, 1), fives),
        ((5, 4), (0, 0), (0, 1), fives),
        ((5, 4), (0, 1), (0, -1), fives),
        ((4, 5), (0, 0), (1, 0), fives),
        ((4, 5), (1, 0), (-1, 0), fives),
        ((4, 4), (0, 0), (0, 0), none),
    ] {
        let pair = pair_of(size, |r, c| tens((r + c) % 2), |_, _| 5);
        told("chequered", &pair, place, winner, distortions);
    }

    // An 8 in four pels makes 2 between four, and 4 or 0 between two: the first diagonal one that counts, else the first of the others.
    let twos = [(48, 0), (192, 0)];
    for (size, place, winner, distortions) in [
        ((6, 6), (1, 1), (-1, -1), twos),
        ((6, 6), (2, 2), (-1, -1), twos),
        ((6, 6), (0, 1), (1, -1), twos),
        ((6, 6), (2, 0), (-1, 1), twos),
        ((6, 6), (0, 0), (1, 1), twos),
        ((4, 6), (1, 0), (-1, 0), [(48, 32), (192, 64)]),
        ((4, 6), (0, 0), (1, 0), [(48, 32), (192, 64)]),
        ((6, 4), (0, 1), (0, -1), [(48, 32), (192, 64)]),
        ((4, 4), (0, 0), (0, 0), [(48, 48), (192, 192)]),
    ] {
        let pair = pair_of(size, dots(0, 8), |_, _| 2);
        told("dotted", &pair, place, winner, distortions);
    }

    // All nine alike: the centre.
    let flat = pair_of((6, 6), |_, _| 7, |_, _| 9);
    told("flat", &flat, (1, 1), (0, 0), [(32, 32), (64, 64)]);
    let most = pair_of((6, 6), |_, _| 0, |_, _| 255);
    let largest = [(4080, 4080), (1_040_400, 1_040_400)];
    told("0 against 255", &most, (1, 1), (0, 0), largest);
    group.end()
}

/// Two distortions, by absolute and by squares.
type Two = [(i64, i64); 2];

/// The value that a neighbour has at a place in half pels if pels outside the frame are made up in this way: what the rules turn away, a
/// careless search would take.
fn value_with(pair: &Pair, half_r: i64, half_c: i64, outside: Outside) -> u8 {
    let (width, height) = (pair.width as i64, pair.height as i64);
    let pel = |r: i64, c: i64| {
        let at = match outside {
            Outside::Border => r.clamp(0, height - 1) * width + c.clamp(0, width - 1),
            Outside::NextRow => (r * width + c).rem_euclid(width * height),
        };
        pair.older[at as usize] as i64
    };
    let (top, left) = (half_r.div_euclid(2), half_c.div_euclid(2));
    let value = match (half_r.rem_euclid(2), half_c.rem_euclid(2)) {
        (0, 0) => pel(top, left),
        (0, _) => (pel(top, left) + pel(top, left + 1) + 1) / 2,
        (_, 0) => (pel(top, left) + pel(top + 1, left) + 1) / 2,
        _ => {
            let upper = pel(top, left) + pel(top, left + 1);
            let lower = pel(top + 1, left) + pel(top + 1, left + 1);
            (upper + lower + 2) / 4
        }
    };
    value as u8
}

/// Pels outside the frame: the nearest one inside, or what stands there in memory.
#[derive(Clone, Copy)]
enum Outside {
    Border,
    NextRow,
}

const OUTSIDES: [Outside; 2] = [Outside::Border, Outside::NextRow];

/// A rough older frame, and in the newer one a block that is just what the vector in half pels gives.
fn fitting(
    seed: u64,
    (width, height): (usize, usize),
    n: usize,
    (row, column): (usize, usize),
    (half_dy, half_dx): Vector,
    outside: Outside,
) -> Case {
    let mut pair = rough_pair(&mut Chance::new(seed), width, height, (3, 5));
    for r in row..row + n {
        for c in column..column + n {
            let (half_r, half_c) = (2 * r as i64 + half_dy, 2 * c as i64 + half_dx);
            pair.newer[r * width + c] = value_with(&pair, half_r, half_c, outside);
        }
    }
    Case { seed, pair, n }
}

/// Frames of N, N + 1 and N + 2 in both directions, every place of the block, and each of the nine as the one that fits: it wins, with
/// distortion 0, exactly if the block has the row or column that it needs, though the window is 0 or T ends the search.
fn borders() -> u64 {
    let mut group = Group::new("half pel, borders of the frame");
    let places = |wider, higher| {
        let rows = 0..=higher;
        rows.flat_map(move |row| (0..=wider).map(move |column| (row, column)))
    };
    for (n, (wider, higher)) in pairs(SIZES, places(2, 2)) {
        for (row, column) in places(wider, higher) {
            for ((oy, ox), outside) in pairs(preference_order(1), OUTSIDES) {
                let has_row = (oy != -1 || row > 0) && (oy != 1 || row < higher);
                let has_column = (ox != -1 || column > 0) && (ox != 1 || column < wider);
                let seed = 80_000 + (n * 100 + wider * 10 + higher) as u64;
                let (size, place) = ((n + wider, n + higher), (row, column));
                let case = fitting(seed, size, n, place, (oy, ox), outside);
                for measure in [1, 2] {
                    let most = rival::largest_threshold(measure);
                    for (search, w, t) in [(1, 0, 0), (2, 0, 0), (4, 2, most)] {
                        let request = Request {
                            w,
                            t,
                            ..request_at(place, n, search, measure)
                        };
                        let half = ask(&mut group, &case, &request);
                        let wins = (half.half_dy, half.half_dx, half.half_distortion);
                        let fits = wins == (oy, ox, 0);
                        group.same(case.inputs(&request), fits, has_row && has_column);
                    }
                }
            }
        }
    }
    group.end()
}

/// Every window, and the neighbour that fits half a pel beyond its end, in one part or in both: "whatever the window", so that by window 16
/// parts reach -33 and 33.
fn windows() -> u64 {
    let mut group = Group::new("half pel, borders of the window");
    for w in 1..=16 {
        let end = 2 * w as i64 + 1;
        let mut met = [[0; 2]; 2];
        for (n, (dy, dx)) in pairs(SIZES, EIGHT) {
            let (size, place) = ((n + 36, n + 35), (17, 18));
            let seed = 81_000 + (n * 17 + w) as u64;
            let case = fitting(seed, size, n, place, (end * dy, end * dx), Outside::Border);
            for (search, measure) in [(1, 1), (2, 2)] {
                let request = Request {
                    w,
                    ..request_at(place, n, search, measure)
                };
                let half = ask(&mut group, &case, &request);
                for (part, met) in [half.half_dy, half.half_dx].into_iter().zip(&mut met) {
                    met[0] += u64::from(part == -end);
                    met[1] += u64::from(part == end);
                }
            }
        }
        let inputs = format!("how often dy and dx were {} and {end}", -end);
        let fact = met.iter().flatten().all(|&times| times > 0);
        group.holds(inputs, fact, &met, &"each");
    }
    group.end()
}

/// How often each of the nine won, in preference order of their offsets.
type Winners = [u64; 9];

fn count(winners: &mut Winners, half: &Half) {
    let offset = (
        half.half_dy - 2 * half.found.dy,
        half.half_dx - 2 * half.found.dx,
    );
    let place = preference_order(1)
        .iter()
        .position(|&known| known == offset);
    winners[place.unwrap_or(0)] += 1;
}

/// Every N, all searches with small and large windows, both measures. Cross has a T of 0, of (0,0)'s distortion and of 1 more, which ends the
/// search: what that has found is refined all the same.
fn made_up_pairs(kind: Kind, name: &str, winners: &mut Winners) -> u64 {
    let mut group = Group::new(format!("half pel, {name}"));
    let full_and_pruned = [(1, 0), (1, 3), (1, 16), (2, 1), (2, 16)];
    let searches = full_and_pruned.into_iter();
    let searches = searches.chain([(3, 7), (4, 2), (4, 8), (4, 16)]);
    for (n, (search, w)) in pairs(SIZES, searches) {
        for round in 0..4 {
            let seed = 82_000 + (n * 17 + w) as u64 * 16 + u64::from(search) * 4 + round;
            let (case, mut chance) = case_of(seed, kind, n, w, 0);
            let places = case.places(&mut chance);
            let places = places.into_iter().skip(round as usize % 2).step_by(2);
            for (place, measure) in pairs(places, [1, 2]) {
                let block = Block::new(&case.pair, n, place.0, place.1, measure);
                let d = block.distortion((0, 0)) as u32;
                let thresholds: &[u32] = if search == 4 { &[0, d, d + 1] } else { &[0] };
                for &t in thresholds {
                    let request = Request {
                        w,
                        t,
                        ..request_at(place, n, search, measure)
                    };
                    count(winners, &ask(&mut group, &case, &request));
                }
            }
        }
    }
    group.end()
}

/// Frames at the upper end of the sizes: the last places, and others.
fn large_frames() -> u64 {
    let mut group = Group::new("half pel, large frames");
    for (width, height) in [(1024, 4), (4, 1024), (1024, 33), (33, 1024), (1024, 1024)] {
        for n in SIZES.into_iter().filter(|&n| n <= width && n <= height) {
            let seed = 83_000 + (width + n) as u64;
            let mut chance = Chance::new(seed);
            let pair = made_up(&mut chance, Kind::MovedOutside, width, height, 2);
            let case = Case { seed, pair, n };
            for place in case.places(&mut chance) {
                for (search, w, measure) in [(1, 2, 1), (2, 2, 2), (3, 7, 1), (4, 2, 2)] {
                    let request = Request {
                        w,
                        ..request_at(place, n, search, measure)
                    };
                    ask(&mut group, &case, &request);
                }
            }
        }
    }
    group.end()
}

/// Pairs moved by half pels, in one part or in both: the answer is the rival's, and in four of five cases at least that very vector. (It is in
/// all but a few with N 4.) Then each of the nine must have won, or all these pairs would test too little.
fn half_pels(winners: &mut Winners) -> u64 {
    let mut group = Group::new("half pel, moved by half pels");
    for n in SIZES {
        // In a large window a block of 16 pels has many like it.
        let w = if n == 4 { 4 } else { 16 };
        let (mut right, mut all) = (0, 0);
        for round in 0..30 {
            let seed = 84_000 + n as u64 * 30 + round;
            let mut chance = Chance::new(seed);
            let mut part = |odd: i64| 2 * chance.between(-w, w - odd) + odd;
            let (odd_dy, odd_dx) = [(0, 1), (1, 0), (1, 1)][round as usize % 3];
            let vector = (part(odd_dy), part(odd_dx));
            let pair = half_pel_pair(&mut chance, n + 36, n + 35, vector);
            let case = Case { seed, pair, n };
            for (search, measure) in [(1, 1), (1, 2), (2, 1), (2, 2)] {
                let request = Request {
                    w: w as usize,
                    ..request_at((17, 18), n, search, measure)
                };
                let half = ask(&mut group, &case, &request);
                count(winners, &half);
                right += i64::from((half.half_dy, half.half_dx) == vector);
                all += 1;
            }
        }
        let inputs = format!("how many blocks of {n} have that vector");
        group.holds(inputs, 5 * right >= 4 * all, &right, &all);
    }
    let fact = winners.iter().all(|&times| times > 0);
    group.holds("how often each won", fact, winners, &"each");
    group.end()
}

/// The search to half a pel; answers with the number of mismatches.
pub fn run() -> u64 {
    let mut winners = [0; 9];
    let mut mismatches = worked() + borders() + windows();
    for (kind, name) in KINDS {
        mismatches += made_up_pairs(kind, name, &mut winners);
    }
    mismatches + large_frames() + half_pels(&mut winners)
}
