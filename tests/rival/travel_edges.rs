//! The last 64 travels of a track, with the expected numbers written down here: where a step puts its travel and which one it pushes out, what
//! homing empties, what refused calls leave alone, and which tracks built by hand 32 turns away. Steps by all four searches and both measures, or by
//! those that find any vector.

use std::array;

use crate::archive;
use crate::field_edges::{homed_at, lent, needed, refused, stands, END, SPOILT};
use crate::group::Group;
use crate::pictures::{one_voter, rough_pair, Chance};
use crate::question::{FieldAnswer, FieldRequest, Lent, Pair, Track, HELD_MOST};
use crate::reckoning::{self, holding, refused_state, travelled, NEW};
use crate::rival::Vector;

/// A pair, what is asked of it, and the field that a step of it goes by: the rival's answer, list and table.
struct Field {
    pair: Pair,
    request: FieldRequest,
    answer: FieldAnswer,
    filled: Lent,
}

impl Field {
    /// By N 4.
    fn new(pair: Pair, search: u32, w: usize, measure: u32) -> Field {
        let request = FieldRequest {
            n: 4,
            search,
            w,
            t: 0,
            measure,
        };
        let mut filled = room(&pair);
        let answer = reckoning::field(&pair, &request, &mut filled);
        Field {
            pair,
            request,
            answer,
            filled,
        }
    }

    /// A step must be refused so and hand the old track back, or with 0 lead there, by the rival too. List and table are filled with 0, 52 and 33,
    /// else as they were.
    fn steps(&self, group: &mut Group, what: &str, track: Track, refusal: i64, there: Track) {
        let mut here = room(&self.pair);
        let stepped = archive::step(track, &self.pair, &self.request, &mut here);
        let (wanted, own) = match refusal {
            0 => {
                let own = travelled(track, (self.answer.dy, self.answer.dx));
                ((self.answer, there), own)
            }
            _ => ((refused(refusal), track), Ok(track)),
        };
        let kept = if [0, 52, 33].contains(&refusal) {
            self.filled.clone()
        } else {
            room(&self.pair)
        };
        group.same(
            format_args!("{what}, {track:?}, {}, {}", self.pair, self.request),
            (stepped, own, here),
            (wanted, Ok(wanted.1), kept),
        );
    }
}

/// Lent memory, a few places more than a field of N 4 needs.
fn room(pair: &Pair) -> Lent {
    let (list, table) = needed(pair, 4);
    lent(list + 2, table + 2)
}

/// A pair of 5 × 5 whose block lay so far away, each part 0 or 1, as every search finds out: by each, and by both measures.
fn by_every_search(vector: Vector, pels: fn(u8) -> u8) -> Vec<Field> {
    let mut all = Vec::new();
    for (search, w) in [(1, 1), (2, 1), (3, 7), (4, 2)] {
        for measure in [1, 2] {
            let mut pair = rough_pair(&mut Chance::new(320_000), 5, 5, vector);
            pair.older.iter_mut().for_each(|pel| *pel = pels(*pel));
            pair.newer.iter_mut().for_each(|pel| *pel = pels(*pel));
            all.push(Field::new(pair, search, w, measure));
        }
    }
    all
}

/// The first of 64 travels: all sizes from -16 to 16 come, none is (0,0), and no two numbers of them have the same sums.
fn travels(held: usize) -> Vec<Vector> {
    (0..held as i64)
        .map(|i| (5 * i % 33 - 16, 16 - (5 * i + 5 * i * i / 32) % 33))
        .collect()
}

/// A homed track that holds none, with a stray number in every place, another in each.
fn stray() -> Track {
    Track {
        travel_dy: array::from_fn(|place| 1_000_000 + place as i32),
        travel_dx: array::from_fn(|place| -2_000_000 - place as i32),
        steps: 7,
        ..homed_at(30, -40)
    }
}

/// "The sixty-fifth pushes out the oldest": three steps on from every number held, whatever the steps are. Places behind the held ones are kept but
/// for the one that a step writes.
fn pushed() -> u64 {
    let mut group = Group::new("travels, every number held");
    let moves = [(0, 1), (1, 0), (1, 1)];
    let fields = moves.map(|vector| by_every_search(vector, |pel| pel));
    for (k, (dy, dx)) in moves.into_iter().enumerate() {
        for field in &fields[k] {
            let read = ((field.answer.dy, field.answer.dx), field.answer.voters);
            group.same(&field.request, read, ((dy, dx), 1));
        }
    }
    for held in 0..=HELD_MOST {
        for steps in [0, held as u32, 999_997] {
            let track = Track { steps, ..stray() };
            for by in 0..fields[0].len() {
                let mut all = travels(held);
                let mut before = holding(track, &all);
                for (k, (dy, dx)) in moves.into_iter().enumerate() {
                    all.push((-dy, -dx));
                    let last = &all[all.len().saturating_sub(64)..];
                    let mut there = holding(track, last);
                    there.steps = steps + k as u32 + 1;
                    (there.y, there.x) = [(30, -41), (29, -41), (28, -42)][k];
                    fields[k][by].steps(&mut group, "pushed in", before, 0, there);
                    before = there;
                }
            }
        }
    }
    group.end()
}

/// Travels of 16 and -16 come, and such are pushed out: sums up to 1,024 and down to -1,024.
fn largest() -> u64 {
    let mut group = Group::new("travels, the largest");
    let chance = &mut Chance::new(330_000);
    let mut fields = Vec::new();
    for dy in [-16, -1, 0, 1, 16] {
        for dx in [-16, -1, 0, 1, 16] {
            for (search, measure) in [(1, 1), (1, 2), (2, 1), (2, 2)] {
                let pair = one_voter(chance, (-dy, -dx));
                let field = Field::new(pair, search, 16, measure);
                let read = (field.answer.dy, field.answer.dx);
                group.same(&field.request, read, (-dy, -dx));
                fields.push(((dy, dx), field));
            }
        }
    }
    for same in [(16, 16), (-16, -16), (16, -16), (-16, 0), (0, 16)] {
        for held in [0, 1, 63, 64] {
            let before = holding(stray(), &vec![same; held]);
            let (sum_dy, sum_dx) = (before.sum_dy, before.sum_dx);
            let wanted = (held as i32 * same.0 as i32, held as i32 * same.1 as i32);
            group.same("the sums of equal travels", (sum_dy, sum_dx), wanted);
            for ((dy, dx), field) in &fields {
                let last = [vec![same; held.min(63)], vec![(*dy, *dx)]].concat();
                let there = Track {
                    y: 30 + *dy as i32,
                    x: -40 + *dx as i32,
                    steps: 8,
                    ..holding(before, &last)
                };
                field.steps(&mut group, "equal travels", before, 0, there);
            }
        }
    }
    group.end()
}

/// Homing looks at nothing of the old track: "Homing empties them, all places and sums 0." Refused, it hands the old track back.
fn homing() -> u64 {
    let mut group = Group::new("travels, homings");
    for held in [0, 1, 2, 63, 64, 65, 256, 1 << 31, u32::MAX] {
        for (sum_dy, sum_dx) in [(0, 0), (5, -6), (i32::MIN, i32::MAX)] {
            for homed in [true, false] {
                let full = holding(stray(), &travels(64));
                let at_once = Track { steps: 0, ..full };
                for base in [stray(), full, at_once, stands(true, 1, 2, 3), NEW] {
                    let track = Track {
                        homed,
                        held,
                        sum_dy,
                        sum_dx,
                        ..base
                    };
                    // Elsewhere, where the track stands, and out of range.
                    for (y, x, refusal) in [
                        (12, -34, 0),
                        (30, -40, 0),
                        (END + 1, 0, 11),
                        (0, -END - 1, 11),
                    ] {
                        let there = if refusal == 0 { homed_at(y, x) } else { track };
                        let wanted = (refusal, there);
                        let inputs = format!("{track:?}, home ({y},{x})");
                        group.same(&inputs, archive::home(track, y, x), wanted);
                        group.same(&inputs, reckoning::home(track, y, x), wanted);
                    }
                }
            }
        }
    }
    group.end()
}

/// Tracks built by hand, whether 32 turns them away.
struct ByHand {
    group: Group,
    /// Fields whose travel is (0,-1), and others without a voter.
    left: Vec<Field>,
    blank: Vec<Field>,
}

impl ByHand {
    fn new(name: &str) -> ByHand {
        ByHand {
            group: Group::new(name),
            left: by_every_search((0, 1), |pel| pel),
            // 7 grey levels apart at most.
            blank: by_every_search((0, 1), |pel| pel / 32),
        }
    }

    /// A step of a homed track that has nothing else wrong must be accepted, or refused by 32, whatever its steps. 31 comes before 32, and so does a
    /// short list; 52 and 33 come behind it. Nothing in a refused step's track is changed.
    fn asked(&mut self, what: &str, track: Track, refusal: i64) {
        let group = &mut self.group;
        group.same(what, refused_state(track), refusal);
        let later = |number| if refusal == 0 { number } else { refusal };
        let all_steps = Track {
            steps: 1_000_000,
            ..track
        };
        let not_homed = Track {
            homed: false,
            ..track
        };
        let at_left_end = Track { x: -END, ..track };
        for (left, blank) in self.left.iter().zip(&self.blank) {
            for steps in [0, 1, 64, 999_999] {
                let before = Track { steps, ..track };
                let there = match refusal {
                    0 => travelled(before, (0, 1)).unwrap_or(before),
                    _ => before,
                };
                left.steps(group, what, before, refusal, there);
            }
            left.steps(group, what, all_steps, 32, track);
            left.steps(group, what, not_homed, 31, track);
            left.steps(group, what, at_left_end, later(33), track);
            blank.steps(group, what, track, later(52), track);
            let mut short = lent(2, 36);
            let stepped = archive::step(track, &left.pair, &left.request, &mut short);
            group.same(
                format_args!("{what}, {track:?}, a list of 2, {}", left.request),
                (stepped, short),
                ((refused(10), track), lent(2, 36)),
            );
        }
    }
}

/// So many travels, or as many of (0,0), with stray numbers behind them.
fn true_tracks() -> Vec<(usize, Track)> {
    let mut all = Vec::new();
    for held in [0, 1, 2, 33, 63, 64] {
        all.push((held, holding(stray(), &travels(held))));
        all.push((held, holding(stray(), &vec![(0, 0); held])));
    }
    all
}

/// The track with another part in one place, of its dy or its dx, and the sum that follows, as far as 32 bits hold it.
pub fn with_part(mut track: Track, is_dx: bool, place: usize, part: i32) -> Track {
    let (parts, sum) = match is_dx {
        false => (&mut track.travel_dy, &mut track.sum_dy),
        true => (&mut track.travel_dx, &mut track.sum_dx),
    };
    *sum = sum.wrapping_add(part.wrapping_sub(parts[place]));
    parts[place] = part;
    track
}

/// The track with other sums.
fn with_sums(track: Track, sum_dy: i32, sum_dx: i32) -> Track {
    Track {
        sum_dy,
        sum_dx,
        ..track
    }
}

/// "A held part outside -16..16", each alone and with its sum true: in the first, a middle and the last held place. Behind them it is no fault,
/// unless the sum counts it.
fn parts() -> u64 {
    let mut by_hand = ByHand::new("travels, 32 by a part");
    let near = [-18, -17, -16, -15, -1, 0, 1, 15, 16, 17, 18, 32, 33];
    let bytes = [127, 128, -128, -129, 240, 255, 256, -256, 272];
    let wide = [32_768, 65_520, 65_536, -65_536, 65_552];
    let far = [i32::MIN, i32::MIN + 16, i32::MAX, i32::MAX - 15];
    let parts = [&near[..], &bytes, &wide, &far].concat();
    for (held, track) in true_tracks() {
        for is_dx in [false, true] {
            for &part in &parts {
                let fits = (-16..=16).contains(&part);
                let mut places = vec![0, held / 2, held.saturating_sub(1)];
                places.retain(|&place| place < held);
                places.dedup();
                for place in places {
                    let what = format!("part {part} in place {place} of {held}, dx {is_dx}");
                    let track = with_part(track, is_dx, place, part);
                    by_hand.asked(&what, track, if fits { 0 } else { 32 });
                }
                if held < HELD_MOST {
                    let what = format!("part {part} behind {held}, dx {is_dx}");
                    let (sum_dy, sum_dx) = (track.sum_dy, track.sum_dx);
                    let not_counted = with_sums(with_part(track, is_dx, held, 0), sum_dy, sum_dx);
                    let counted = with_part(not_counted, is_dx, held, part);
                    let refusal = if part == 0 { 0 } else { 32 };
                    by_hand.asked(&what, counted, refusal);
                    by_hand.asked(&what, with_sums(counted, sum_dy, sum_dx), 0);
                }
            }
        }
    }
    // In each place, and in the last of each number held.
    for held in 1..=HELD_MOST {
        for is_dx in [false, true] {
            for part in [17, -17] {
                let what = format!("part {part} in place {} of 64 and of {held}", held - 1);
                let full = holding(stray(), &travels(64));
                let track = with_part(full, is_dx, held - 1, part);
                by_hand.asked(&what, track, 32);
                let track = holding(stray(), &travels(held));
                let track = with_part(track, is_dx, held - 1, part);
                by_hand.asked(&what, track, 32);
            }
        }
    }
    // Two that make up for each other, or whose sum has more than 32 bits.
    for (one, other) in [
        (17, -17),
        (-33, 33),
        (i32::MAX, -i32::MAX),
        (i32::MIN, i32::MIN),
        (i32::MAX, i32::MAX),
    ] {
        for is_dx in [false, true] {
            for (here, there) in [(0, 1), (63, 0), (31, 32)] {
                let what = format!("parts {one} and {other} in places {here} and {there}");
                let track = holding(stray(), &[(0, 0); 64]);
                let track = with_part(track, is_dx, here, one);
                let track = with_part(track, is_dx, there, other);
                by_hand.asked(&what, track, 32);
            }
        }
    }
    by_hand.group.end()
}

/// "A false sum", all else being right.
fn sums() -> u64 {
    let mut by_hand = ByHand::new("travels, 32 by a sum");
    let small = [1, -1, 2, -2, 16, 17, 64];
    let wide = [128, 255, 256, -256, 512, 32_768, 65_535, 65_536, -65_536];
    let far = [1 << 24, 1 << 30, i32::MIN, i32::MAX];
    let offs = [&small[..], &wide, &far].concat();
    for (held, track) in true_tracks() {
        let (dy, dx) = (track.sum_dy, track.sum_dx);
        by_hand.asked("true sums", track, 0);
        for &off in &offs {
            let (more, less) = (off, 0i32.wrapping_sub(off));
            for (off_dy, off_dx) in [(more, 0), (0, more), (more, more), (more, less)] {
                let what = format!("sums of {held} off by ({off_dy},{off_dx})");
                let track = with_sums(track, dy.wrapping_add(off_dy), dx.wrapping_add(off_dx));
                by_hand.asked(&what, track, 32);
            }
        }
        // Each sum alone or both: exchanged, with the sign turned, at the ends of the type; of all 64 places, with the place behind those held, and
        // without the last or the first of them.
        let all = |parts: [i32; HELD_MOST]| parts.iter().sum::<i32>();
        let at = |place: usize| (track.travel_dy[place], track.travel_dx[place]);
        let mut others = vec![
            ("exchanged", dx, dy),
            ("turned", -dy, -dx),
            ("least", i32::MIN, i32::MIN),
            ("largest", i32::MAX, i32::MAX),
            ("of all places", all(track.travel_dy), all(track.travel_dx)),
        ];
        if held < HELD_MOST {
            let (next_dy, next_dx) = at(held);
            others.push(("with the next", dy + next_dy, dx + next_dx));
        }
        if held > 0 {
            let ((first_dy, first_dx), (last_dy, last_dx)) = (at(0), at(held - 1));
            others.push(("without the first", dy - first_dy, dx - first_dx));
            others.push(("without the last", dy - last_dy, dx - last_dx));
        }
        for (what, other_dy, other_dx) in others {
            let what = format!("sums of {held}, {what}");
            for (sum_dy, sum_dx) in [(other_dy, dx), (dy, other_dx), (other_dy, other_dx)] {
                let is_true = (sum_dy, sum_dx) == (dy, dx);
                let track = with_sums(track, sum_dy, sum_dx);
                by_hand.asked(&what, track, if is_true { 0 } else { 32 });
            }
        }
    }
    by_hand.group.end()
}

/// "A track that holds more than 64", with the sums of those that a number cut short would stand for; and one that holds more or fewer than it
/// has sums of.
fn counts() -> u64 {
    let mut by_hand = ByHand::new("travels, 32 by the number held");
    for (right, track) in true_tracks() {
        for held in [
            65, 66, 127, 128, 129, 255, 256, 257, 258, 319, 320, 321, 65_535, 65_536, 65_537,
            65_600,
        ] {
            let what = format!("{held} held with the sums of {right}");
            by_hand.asked(&what, Track { held, ..track }, 32);
        }
        let top = 1 << 31;
        for held in [
            top,
            top + 1,
            top + 64,
            u32::MAX - 64,
            u32::MAX - 1,
            u32::MAX,
        ] {
            let what = format!("{held} held with the sums of {right}");
            by_hand.asked(&what, Track { held, ..track }, 32);
        }
    }
    for right in [0, 1, 2, 31, 32, 33, 62, 63, 64] {
        // A place of zeros is a travel as any other.
        let zeros = holding(homed_at(30, -40), &travels(right));
        let full = holding(stray(), &travels(64));
        for held in 0..=65 {
            let what = format!("{held} held with the sums of {right}");
            let refusal = if (right..=64).contains(&held) { 0 } else { 32 };
            let track = Track {
                held: held as u32,
                ..zeros
            };
            by_hand.asked(&what, track, refusal);
            let refusal = if held == right { 0 } else { 32 };
            let track = Track {
                held: held as u32,
                ..with_sums(full, zeros.sum_dy, zeros.sum_dx)
            };
            by_hand.asked(&what, track, refusal);
        }
    }
    by_hand.group.end()
}

/// Any choice of faults; the steps are tried with each.
fn together() -> u64 {
    let mut by_hand = ByHand::new("travels, 32 by several faults");
    let faults = &SPOILT[1..];
    for bits in 0..1 << faults.len() {
        let mut track = stands(true, 5, -6, 7);
        for (k, spoil) in faults.iter().enumerate() {
            if bits >> k & 1 == 1 {
                track = spoil(track);
            }
        }
        let what = format!("faults {bits:05b}");
        by_hand.asked(&what, track, if bits == 0 { 0 } else { 32 });
    }
    by_hand.group.end()
}

/// All edges of travels; answers with the number of mismatches.
pub fn run() -> u64 {
    pushed() + largest() + homing() + parts() + sums() + counts() + together()
}
