//! Lists of calls, as the rules' promise on them has it: homings and steps of search 2, each step by either measure, refused ones
//! among them, each with the track that the call before handed back. After every call the archive's track must be the reckoning's
//! own, in all parts, and the travels that it holds the last 64 accepted since it was homed; refusals must be the same, and answer, list and
//! table must be what the rival's step leaves, to the last place. Four-step and cross run beside accepted steps.

use crate::archive;
use crate::fields::{few_blocks, good_request, lend_for, spoil};
use crate::group::Group;
use crate::pictures::{one_voter, Chance, KINDS};
use crate::question::{FieldAnswer, FieldRequest, Lent, Pair, Request, Track, AT_1, HELD_MOST};
use crate::reckoning::{self, exhaustive_best, holding, reckoned_step, NEW};
use crate::rival::{largest_threshold, Block, Vector};
use crate::travel_edges::with_part;

/// How far a list of calls has come: the archive's track, the reckoning's own, and all travels accepted since the last accepted homing, or since
/// the track was new, oldest first. Those of a track built by hand are told from the first homing on.
struct Standing {
    archive: Track,
    own: Track,
    since: Option<Vec<Vector>>,
}

impl Standing {
    fn new() -> Standing {
        Standing {
            archive: archive::new_track(),
            own: NEW,
            since: Some(Vec::new()),
        }
    }

    fn built_by_hand(track: Track) -> Standing {
        Standing {
            archive: track,
            own: track,
            since: None,
        }
    }
}

/// The groups of one run, and how often each refusal was met in it.
struct Calls {
    /// The track and the refusal of every call, against the reckoning.
    tracks: Group,
    /// The travels that the track holds after every call, and their sums.
    held: Group,
    /// The answer of every step, against the rival's step.
    answers: Group,
    /// List and table after every step.
    lent: Group,
    /// An accepted step's list has each block's exhaustive best with its distortion; dropped and finally measured are the
    /// candidates.
    bests: Group,
    /// Four-step and cross at places of an accepted step's frames, on the grid or off it.
    bounds: Group,
    /// How many steps were accepted, and how many of each refusal came.
    met: [u64; 53],
    /// How many travels were accepted since one homing, at most.
    most: usize,
}

impl Calls {
    fn new(name: &str) -> Calls {
        let group = |what: &str| Group::new(format!("{name}, {what}"));
        Calls {
            tracks: group("tracks"),
            held: group("travels held"),
            answers: group("answers"),
            lent: group("list and table"),
            bests: group("exhaustive bests"),
            bounds: group("four-step and cross"),
            met: [0; 53],
            most: 0,
        }
    }

    /// One Home.
    fn home(&mut self, inputs: &str, standing: &mut Standing, y: i32, x: i32) {
        let inputs = format!("{inputs}, {:?}, home ({y},{x})", standing.archive);
        let (refusal, track) = archive::home(standing.archive, y, x);
        let (wanted, own) = reckoning::home(standing.own, y, x);
        self.tracks.same(&inputs, (refusal, track), (wanted, own));
        if refusal == 11 {
            self.met[11] += 1;
        }
        (standing.archive, standing.own) = (track, own);
        if wanted == 0 {
            standing.since = Some(Vec::new());
        }
        self.hold(&inputs, standing);
    }

    /// One step.
    fn step(
        &mut self,
        chance: &mut Chance,
        inputs: &str,
        standing: &mut Standing,
        pair: &Pair,
        request: &FieldRequest,
        lent: &Lent,
    ) {
        let (before, own) = (standing.archive, standing.own);
        let inputs = format!("{inputs}, {before:?}, {pair}, {request}, {lent}");
        let (mut here, mut there) = (lent.clone(), lent.clone());
        let (answer, track) = archive::step(before, pair, request, &mut here);
        let reckoned = reckoned_step(own, pair, request, lent.list_length, lent.table_length);
        let after = (reckoned.refusal, reckoned.track);
        self.tracks.same(&inputs, (answer.refusal, track), after);
        let wanted = reckoning::step(own, pair, request, &mut there);
        self.answers.same(&inputs, (answer, track), wanted);
        self.lent.same(&inputs, &here, &there);
        if let Some(times) = self.met.get_mut(answer.refusal as usize) {
            *times += 1;
        }
        (standing.archive, standing.own) = (track, reckoned.track);
        if reckoned.refusal == 0 {
            if let Some(since) = &mut standing.since {
                since.push(reckoned.travel);
            }
            self.accepted(&inputs, pair, request, &here, &reckoned.bests, &answer);
            self.beside(chance, &inputs, pair, request);
        }
        self.hold(&inputs, standing);
    }

    /// "For every list of calls the held ones are the last 64 accepted since homing, and the sums are theirs." Behind them all places are 0.
    fn hold(&mut self, inputs: &str, standing: &Standing) {
        let Some(since) = &standing.since else {
            return;
        };
        self.most = self.most.max(since.len());
        let last = &since[since.len().saturating_sub(HELD_MOST)..];
        let emptied = Track {
            travel_dy: [0; HELD_MOST],
            travel_dx: [0; HELD_MOST],
            ..standing.archive
        };
        self.held
            .same(inputs, standing.archive, holding(emptied, last));
    }

    /// What an accepted step lists and sums up, from candidates and distortions alone.
    fn accepted(
        &mut self,
        inputs: &str,
        pair: &Pair,
        request: &FieldRequest,
        lent: &Lent,
        bests: &[((i64, i64), i64)],
        answer: &FieldAnswer,
    ) {
        let mut candidates = 0;
        for (row, column) in reckoning::grid(pair, request.n) {
            let block = Block::new(pair, request.n, row, column, request.measure);
            candidates += block.candidates(request.w as i64).len() as i64;
        }
        let listed: Vec<((i64, i64), i64)> = lent.list[..3 * bests.len()]
            .chunks(3)
            .map(|entry| ((entry[0] as i64, entry[1] as i64), entry[2] as i64))
            .collect();
        self.bests.same(inputs, &listed[..], bests);
        let all = answer.dropped + answer.counts[AT_1];
        self.bests.same(inputs, all, candidates);
    }

    /// Four-step where the step's w is 7 or more, cross where it is one of cross's, by the same measure: unrefused, never lower, and few
    /// probes.
    fn beside(&mut self, chance: &mut Chance, inputs: &str, pair: &Pair, request: &FieldRequest) {
        let (n, w, measure) = (request.n, request.w, request.measure);
        let row = chance.between(0, (pair.height - n) as i64) as usize;
        let column = chance.between(0, (pair.width - n) as i64) as usize;
        let block = Block::new(pair, n, row, column, measure);
        let (_, least) = exhaustive_best(&block, w as i64);
        let t = chance.one_of(&[0, 1, 500, largest_threshold(measure)]);
        let mut searches = Vec::new();
        if w >= 7 {
            searches.push((3, 7, 0, 27));
        }
        if w == 2 || w == 4 || w == 8 || w == 16 {
            searches.push((4, w, t, [9, 13, 17, 21][w.trailing_zeros() as usize - 1]));
        }
        for (search, w, t, most) in searches {
            let question = Request {
                n,
                search,
                w,
                t,
                measure,
                row,
                column,
            };
            let found = archive::search_block(pair, &question);
            let probes = found.counts[AT_1];
            let fact = found.refusal == 0 && found.distortion >= least && probes <= most;
            let inputs = format!("{inputs}, {question}");
            self.bounds.holds(&inputs, fact, &found, &(least, most));
        }
    }

    /// Ends the groups. Each of these refusals must have been met, or the lists would test too little.
    fn end(mut self, wanted: &[usize]) -> u64 {
        let inputs = "calls that met each refusal of the lists";
        let all = wanted.iter().all(|&refusal| self.met[refusal] > 0);
        self.tracks.holds(inputs, all, &self.met, &wanted);
        self.tracks.end()
            + self.held.end()
            + self.answers.end()
            + self.lent.end()
            + self.bests.end()
            + self.bounds.end()
    }
}

/// A homing place: inside, at an end of the range, just outside it, or anywhere.
fn homing_part(chance: &mut Chance) -> i32 {
    match chance.between(0, 9) {
        0 => chance.one_of(&[-1_000_001, 1_000_001, i32::MIN, i32::MAX]),
        1..=3 => chance.one_of(&[-1_000_000, 1_000_000]),
        4 => chance.one_of(&[-999_999, 999_999, -999_990, 999_990]),
        5 => chance.between(-1_000_000, 1_000_000) as i32,
        _ => chance.between(-100, 100) as i32,
    }
}

/// The inputs of a step of search 2, now and then spoilt.
fn step_inputs(chance: &mut Chance, large: bool) -> (Pair, FieldRequest, Lent) {
    let (kind, _) = chance.one_of(&KINDS);
    let n = if large {
        chance.one_of(&[8, 16, 32])
    } else {
        chance.one_of(&[4, 4, 4, 4, 8])
    };
    let measure = chance.one_of(&[1, 2]);
    let mut request = good_request(chance, n, 2, measure);
    let mut pair = few_blocks(chance, kind, n, request.w.min(4));
    if chance.between(0, 11) == 0 {
        spoil(chance, &mut pair, &mut request);
        // The lists have steps of search 2 alone.
        if request.search != 2 {
            request.search = 2;
        }
    }
    let lent = lend_for(chance, &pair, &request);
    (pair, request, lent)
}

/// One list of calls from here on.
fn list_of_calls(calls: &mut Calls, chance: &mut Chance, inputs: &str, mut standing: Standing) {
    let length = chance.between(1, 12);
    let large = chance.between(0, 9) == 0;
    for index in 0..length {
        let inputs = format!("{inputs}, call {index}");
        if chance.between(0, 3) == 0 {
            let (y, x) = (homing_part(chance), homing_part(chance));
            calls.home(&inputs, &mut standing, y, x);
        } else {
            let (pair, request, lent) = step_inputs(chance, large);
            calls.step(chance, &inputs, &mut standing, &pair, &request, &lent);
        }
    }
}

/// Lists of calls from a new track.
fn from_new() -> u64 {
    let mut calls = Calls::new("calls");
    calls.tracks.same("a new track", archive::new_track(), NEW);
    for seed in 200_000..201_600 {
        let chance = &mut Chance::new(seed);
        let inputs = format!("seed {seed}");
        list_of_calls(&mut calls, chance, &inputs, Standing::new());
    }
    calls.end(&[0, 1, 2, 3, 5, 6, 9, 10, 11, 31, 33, 51, 52])
}

/// A homed track that holds so many travels, with any numbers in the places behind them.
fn travels_by_hand(chance: &mut Chance, y: i32, x: i32, steps: u32, held: usize) -> Track {
    let part = |chance: &mut Chance| chance.between(-16, 16);
    let travels: Vec<Vector> = (0..held).map(|_| (part(chance), part(chance))).collect();
    let track = Track {
        homed: true,
        y,
        x,
        steps,
        travel_dy: [0; HELD_MOST].map(|_| chance.next() as i32),
        travel_dx: [0; HELD_MOST].map(|_| chance.next() as i32),
        ..NEW
    };
    holding(track, &travels)
}

/// One thing about the travels of a track is changed, mostly so that it is wrong.
fn spoil_travels(chance: &mut Chance, track: &mut Track) {
    let place = chance.between(0, 63) as usize;
    let part = chance.one_of(&[16, -16, 17, -17, 33, 256, 65_536, i32::MIN, i32::MAX]);
    let off = chance.one_of(&[1, -1, 33, 256, -65_536, i32::MIN, i32::MAX]);
    match chance.between(0, 5) {
        0 => track.held = chance.one_of(&[65, 256, 65_536, 1 << 31, u32::MAX]),
        1 => track.held = chance.between(0, 64) as u32,
        2 => *track = with_part(*track, false, place, part),
        3 => *track = with_part(*track, true, place, part),
        4 => track.sum_dy = track.sum_dy.wrapping_add(off),
        _ => track.sum_dx = track.sum_dx.wrapping_add(off),
    }
}

/// Lists of calls from tracks built by hand: any numbers, steps near their end, travels and sums mostly true.
fn from_any() -> u64 {
    let mut calls = Calls::new("calls from tracks built by hand");
    for seed in 210_000..211_200 {
        let chance = &mut Chance::new(seed);
        let part = |chance: &mut Chance| match chance.between(0, 4) {
            0 => chance.one_of(&[-1_000_003, -1_000_001, 1_000_001, 1_000_003]),
            1 => chance.one_of(&[i32::MIN, i32::MAX, 2_000_000]),
            _ => homing_part(chance),
        };
        let (y, x) = (part(chance), part(chance));
        let steps = chance.one_of(&[0, 5, 999_998, 999_999, 1_000_000, 1_000_001, u32::MAX]);
        let held = chance.one_of(&[0, 1, 2, 33, 57, 62, 63, 64, 64, 64]);
        let mut track = travels_by_hand(chance, y, x, steps, held);
        track.homed = chance.between(0, 4) > 0;
        if chance.between(0, 3) == 0 {
            spoil_travels(chance, &mut track);
        }
        let inputs = format!("seed {seed}");
        let standing = Standing::built_by_hand(track);
        list_of_calls(&mut calls, chance, &inputs, standing);
    }
    calls.end(&[0, 1, 2, 3, 5, 6, 9, 10, 11, 31, 32, 33, 51, 52])
}

/// The inputs of a step of search 2 that is mostly accepted, by any travel of window 16.
fn travelling_inputs(chance: &mut Chance) -> (Pair, FieldRequest, Lent) {
    if chance.between(0, 7) == 0 {
        return step_inputs(chance, false);
    }
    let most = chance.one_of(&[1, 3, 16]);
    let part = |chance: &mut Chance| match chance.between(0, 3) {
        0 => chance.one_of(&[-most, most]),
        _ => chance.between(-most, most),
    };
    let vector = (part(chance), part(chance));
    let request = FieldRequest {
        n: 4,
        search: 2,
        w: chance.between(most, 16) as usize,
        t: 0,
        measure: chance.one_of(&[1, 2]),
    };
    let mut pair = one_voter(chance, vector);
    if chance.between(0, 19) == 0 {
        pair.newer.fill(100);
    }
    let lent = lend_for(chance, &pair, &request);
    (pair, request, lent)
}

/// Lists of calls that push out all 64 travels more than twice before the track is homed again: from a new track, and from one built by hand whose
/// steps come to their end. Refused homings and steps stand among them.
fn long_lists() -> u64 {
    let mut calls = Calls::new("long lists of calls");
    for seed in 230_000..230_024 {
        let chance = &mut Chance::new(seed);
        let mut standing = Standing::new();
        let mut home_at = vec![2, chance.between(310, 340)];
        if seed % 3 == 0 {
            let held = chance.between(0, 64) as usize;
            let track = travels_by_hand(chance, 5, -7, 999_850, held);
            standing = Standing::built_by_hand(track);
            home_at.remove(0);
        }
        for index in 0..430 {
            let inputs = format!("seed {seed}, call {index}");
            if home_at.contains(&index) {
                // Anywhere, or near the end of the range.
                let (y, x) = chance.one_of(&[(0, 0), (-999_990, 3), (17, 999_995)]);
                calls.home(&inputs, &mut standing, y, x);
            } else if chance.between(0, 19) == 0 {
                let far = chance.one_of(&[-1_000_001, 1_000_001, i32::MIN, i32::MAX]);
                let (y, x) = chance.one_of(&[(far, 0), (0, far)]);
                calls.home(&inputs, &mut standing, y, x);
            } else {
                let (pair, request, lent) = travelling_inputs(chance);
                calls.step(chance, &inputs, &mut standing, &pair, &request, &lent);
            }
        }
    }
    let most = calls.most;
    let inputs = "travels accepted since one homing";
    calls
        .held
        .holds(inputs, most > 3 * HELD_MOST, &most, &(3 * HELD_MOST));
    calls.end(&[0, 1, 2, 3, 5, 6, 9, 10, 11, 31, 32, 33, 51, 52])
}

/// Steps of the other searches, which stand in no list of calls, from a track built by hand.
fn other_searches() -> u64 {
    let mut group = Group::new("steps of searches 1, 3 and 4");
    let mut no_voter = 0;
    for seed in 220_000..221_500 {
        let chance = &mut Chance::new(seed);
        let (kind, _) = KINDS[seed as usize % KINDS.len()];
        let n = chance.one_of(&[4, 4, 4, 8, 8, 32]);
        let search = chance.one_of(&[1, 3, 4]);
        let measure = chance.one_of(&[1, 2]);
        let request = good_request(chance, n, search, measure);
        let pair = few_blocks(chance, kind, n, request.w.min(4));
        let lent = lend_for(chance, &pair, &request);
        let (y, x) = (homing_part(chance), homing_part(chance));
        let held = chance.one_of(&[0, 1, 63, 64]);
        let track = travels_by_hand(chance, y, x, 0, held);
        let (mut here, mut there) = (lent.clone(), lent.clone());
        let stepped = archive::step(track, &pair, &request, &mut here);
        let wanted = reckoning::step(track, &pair, &request, &mut there);
        let inputs = format!("{track:?}, {pair}, {request}, {lent}, seed {seed}");
        group.same(&inputs, stepped, wanted);
        group.same(&inputs, here, there);
        no_voter += u64::from(wanted.0.refusal == 52);
    }
    group.holds("steps without a voter", no_voter >= 100, &no_voter, &100);
    group.end()
}

/// All lists of calls; answers with the number of mismatches.
pub fn run() -> u64 {
    from_new() + from_any() + long_lists() + other_searches()
}
