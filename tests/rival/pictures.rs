//! Made-up pairs from fixed seeds: still, moved by a known vector, noisy, flat, two-valued, gradients, checkerboards, extremes, and papers
//! with blank patches, or blank altogether; and pairs moved by half pels, or in one block alone. Every run makes the same ones.

use crate::question::Pair;
use crate::rival::Vector;

/// A small xorshift generator.
pub struct Chance {
    state: u64,
}

impl Chance {
    pub fn new(seed: u64) -> Chance {
        // Neighbouring seeds are spread apart; the state must not be 0.
        let mut chance = Chance {
            state: seed.wrapping_mul(0x9E37_79B9_7F4A_7C15) | 1,
        };
        for _ in 0..8 {
            chance.next();
        }
        chance
    }

    pub fn next(&mut self) -> u64 {
        self.state ^= self.state << 13;
        self.state ^= self.state >> 7;
        self.state ^= self.state << 17;
        self.state
    }

    /// A number from..=to.
    pub fn between(&mut self, from: i64, to: i64) -> i64 {
        from + ((self.next() >> 11) % (to - from + 1) as u64) as i64
    }

    /// One of the list.
    pub fn one_of<T: Copy>(&mut self, list: &[T]) -> T {
        list[self.between(0, list.len() as i64 - 1) as usize]
    }

    fn pel(&mut self) -> i64 {
        self.between(0, 255)
    }
}

/// The kinds of pairs.
#[derive(Clone, Copy, PartialEq, Eq)]
pub enum Kind {
    Still,
    Moved,
    MovedOutside,
    Noisy,
    Flat,
    TwoValued,
    Gradient,
    Checkerboard,
    Extreme,
    Patches,
}

pub const KINDS: [(Kind, &str); 10] = [
    (Kind::Still, "still"),
    (Kind::Moved, "moved"),
    (Kind::MovedOutside, "moved outside the window"),
    (Kind::Noisy, "noisy"),
    (Kind::Flat, "flat"),
    (Kind::TwoValued, "two-valued"),
    (Kind::Gradient, "gradients"),
    (Kind::Checkerboard, "checkerboards"),
    (Kind::Extreme, "extremes"),
    (Kind::Patches, "blank patches"),
];

/// A scene is larger than the frames cut from it by this much on each side.
const MARGIN: i64 = 40;

/// A scene of which a frame is a part.
struct Scene {
    width: i64,
    height: i64,
    pels: Vec<i64>,
}

impl Scene {
    /// The scene for frames of this size, each pel from its row and column.
    fn new(width: usize, height: usize, mut pel: impl FnMut(i64, i64) -> i64) -> Scene {
        let (width, height) = (width as i64 + 2 * MARGIN, height as i64 + 2 * MARGIN);
        let mut pels = Vec::new();
        for r in 0..height {
            for c in 0..width {
                pels.push(pel(r, c).clamp(0, 255));
            }
        }
        Scene {
            width,
            height,
            pels,
        }
    }

    fn at(&self, r: i64, c: i64) -> i64 {
        self.pels[(r.rem_euclid(self.height) * self.width + c.rem_euclid(self.width)) as usize]
    }

    /// Each pel becomes the mean of those at most `reach` away in its row and then in its column, with more contrast.
    fn smoothed(&self, reach: i64) -> Scene {
        let mean = |scene: &Scene, r: i64, c: i64, along: bool| {
            let sum: i64 = (-reach..=reach)
                .map(|k| {
                    if along {
                        scene.at(r, c + k)
                    } else {
                        scene.at(r + k, c)
                    }
                })
                .sum();
            sum / (2 * reach + 1)
        };
        let frame = (
            (self.width - 2 * MARGIN) as usize,
            (self.height - 2 * MARGIN) as usize,
        );
        let rows = Scene::new(frame.0, frame.1, |r, c| mean(self, r, c, true));
        Scene::new(frame.0, frame.1, |r, c| {
            128 + (mean(&rows, r, c, false) - 128) * (reach + 1)
        })
    }

    /// The frame of which the top left pel stands at (dy, dx) in the scene, counted from where the older frame's stands.
    fn frame(&self, (dy, dx): Vector) -> Vec<u8> {
        let mut bytes = Vec::new();
        for r in MARGIN..self.height - MARGIN {
            for c in MARGIN..self.width - MARGIN {
                bytes.push(self.at(r + dy, c + dx) as u8);
            }
        }
        bytes
    }

    /// The pair in which the newer block at (y, x) shows what the older one shows at (y + dy, x + dx).
    fn pair(&self, vector: Vector) -> Pair {
        Pair {
            older: self.frame((0, 0)),
            newer: self.frame(vector),
            width: (self.width - 2 * MARGIN) as usize,
            height: (self.height - 2 * MARGIN) as usize,
        }
    }
}

/// A scene of pels that have nothing to do with each other.
fn rough(chance: &mut Chance, width: usize, height: usize) -> Scene {
    Scene::new(width, height, |_, _| chance.pel())
}

/// A rough, a soft or a very soft scene, or a hill.
fn texture(chance: &mut Chance, width: usize, height: usize) -> Scene {
    match chance.between(0, 3) {
        0 => rough(chance, width, height),
        1 => rough(chance, width, height).smoothed(2),
        2 => rough(chance, width, height).smoothed(6),
        _ => {
            let top = MARGIN + chance.between(0, height as i64 - 1);
            let left = MARGIN + chance.between(0, width as i64 - 1);
            let slope = chance.between(2, 20);
            Scene::new(width, height, |r, c| {
                255 - ((r - top) * (r - top) + (c - left) * (c - left)) / slope
            })
        }
    }
}

/// Paper in patches: some have fibres, the others a ground of up to 15 grey levels of contrast, half of them less than the 8 that make a block
/// vote. Now and then it has no fibres at all, or no patch of 8 or more either.
fn patches(chance: &mut Chance, width: usize, height: usize) -> Scene {
    let fibres = rough(chance, width, height);
    let (high, wide) = (chance.between(3, 24), chance.between(3, 24));
    let (share, most) = chance.one_of(&[(60, 15), (30, 15), (10, 15), (10, 7), (0, 15), (0, 7)]);
    let ground = chance.between(0, 240);
    let contrasts: Vec<Option<i64>> = (0..64)
        .map(|_| match chance.between(0, 99) {
            at if at < share => None,
            _ => Some(chance.between(0, most)),
        })
        .collect();
    Scene::new(width, height, |r, c| {
        match contrasts[((r / high * 7 + c / wide) % 64) as usize] {
            None => fibres.at(r, c),
            Some(most) => ground + fibres.at(r, c) % (most + 1),
        }
    })
}

/// A vector of window w.
fn vector_inside(chance: &mut Chance, w: i64) -> Vector {
    (chance.between(-w, w), chance.between(-w, w))
}

/// A vector with one part or both outside window w, by 1 to 9.
fn vector_outside(chance: &mut Chance, w: i64) -> Vector {
    let beyond = (w + chance.between(1, 9)) * chance.one_of(&[-1, 1]);
    match chance.between(0, 2) {
        0 => (beyond, chance.between(-w, w)),
        1 => (chance.between(-w, w), beyond),
        _ => (beyond, (w + chance.between(1, 9)) * chance.one_of(&[-1, 1])),
    }
}

/// A rough pair moved by this vector.
pub fn rough_pair(chance: &mut Chance, width: usize, height: usize, vector: Vector) -> Pair {
    rough(chance, width, height).pair(vector)
}

/// A pair that is blank but for one grid block of N 4, the only voter, whose fibres lay this vector away in the older frame. It is as small as that
/// allows.
pub fn one_voter(chance: &mut Chance, (dy, dx): Vector) -> Pair {
    // So many pels that whole blocks fill them; the block stands at the end that the vector leads away from.
    let (down, along) = ((dy.abs() + 3) / 4 * 4, (dx.abs() + 3) / 4 * 4);
    let (width, height) = (along + 4, down + 4);
    let (row, column) = (
        if dy < 0 { down } else { 0 },
        if dx < 0 { along } else { 0 },
    );
    let mut pair = Pair {
        older: vec![128; (width * height) as usize],
        newer: vec![128; (width * height) as usize],
        width: width as usize,
        height: height as usize,
    };
    for r in row..row + 4 {
        for c in column..column + 4 {
            let pel = chance.pel() as u8;
            pair.newer[(r * width + c) as usize] = pel;
            pair.older[((r + dy) * width + c + dx) as usize] = pel;
        }
    }
    pair
}

/// A soft pair moved by this vector in half pels. A pel is the mean of the four places that it covers in a scene twice as fine.
pub fn half_pel_pair(chance: &mut Chance, width: usize, height: usize, vector: Vector) -> Pair {
    let fine = rough(chance, 2 * width, 2 * height).smoothed(2);
    let frame = |(dy, dx): Vector| {
        let mut bytes = Vec::new();
        for r in (MARGIN + dy..).step_by(2).take(height) {
            for c in (MARGIN + dx..).step_by(2).take(width) {
                let upper = fine.at(r, c) + fine.at(r, c + 1);
                let lower = fine.at(r + 1, c) + fine.at(r + 1, c + 1);
                bytes.push(((upper + lower) / 4) as u8);
            }
        }
        bytes
    };
    Pair {
        older: frame((0, 0)),
        newer: frame(vector),
        width,
        height,
    }
}

/// A pair of this kind and size, for window w.
pub fn made_up(chance: &mut Chance, kind: Kind, width: usize, height: usize, w: usize) -> Pair {
    let w = w as i64;
    match kind {
        Kind::Still => texture(chance, width, height).pair((0, 0)),
        Kind::Moved => {
            let vector = vector_inside(chance, w);
            texture(chance, width, height).pair(vector)
        }
        Kind::MovedOutside => {
            let vector = vector_outside(chance, w);
            texture(chance, width, height).pair(vector)
        }
        Kind::Noisy => {
            let vector = vector_inside(chance, w);
            let noise = chance.one_of(&[1, 4, 20, 90]);
            let mut pair = texture(chance, width, height).pair(vector);
            for pel in &mut pair.newer {
                *pel = (*pel as i64 + chance.between(-noise, noise)).clamp(0, 255) as u8;
            }
            pair
        }
        Kind::Flat => {
            let (older, newer) = (chance.pel() as u8, chance.pel() as u8);
            let newer = chance.one_of(&[older, newer]);
            Pair {
                older: vec![older; width * height],
                newer: vec![newer; width * height],
                width,
                height,
            }
        }
        Kind::TwoValued => {
            let (one, other) = (chance.pel(), chance.pel());
            let rare = chance.one_of(&[1, 2, 7, 30]);
            let scene = Scene::new(width, height, |_, _| {
                if chance.between(0, rare) == 0 {
                    one
                } else {
                    other
                }
            });
            let vector = vector_inside(chance, w);
            scene.pair(vector)
        }
        Kind::Gradient => {
            let (down, along) = (chance.between(-6, 6), chance.between(-6, 6));
            let start = chance.pel();
            let turns = chance.between(0, 1) == 0;
            let scene = Scene::new(width, height, |r, c| {
                let pel = start + down * (r - MARGIN) + along * (c - MARGIN);
                if turns {
                    pel.rem_euclid(256)
                } else {
                    pel
                }
            });
            let vector = vector_inside(chance, w);
            scene.pair(vector)
        }
        Kind::Checkerboard => {
            let (one, other) = (chance.pel(), chance.pel());
            let (high, wide) = (chance.between(1, 5), chance.between(1, 5));
            let scene = Scene::new(width, height, |r, c| {
                if (r / high + c / wide) % 2 == 0 {
                    one
                } else {
                    other
                }
            });
            let vector = vector_inside(chance, w);
            scene.pair(vector)
        }
        Kind::Extreme => match chance.between(0, 3) {
            0 => Pair {
                older: vec![0; width * height],
                newer: vec![255; width * height],
                width,
                height,
            },
            1 => Pair {
                older: vec![255; width * height],
                newer: vec![0; width * height],
                width,
                height,
            },
            2 => {
                let vector = vector_inside(chance, w);
                Scene::new(width, height, |_, _| chance.one_of(&[0, 255])).pair(vector)
            }
            _ => Pair {
                older: (0..width * height)
                    .map(|_| chance.one_of(&[0, 255]))
                    .collect(),
                newer: (0..width * height)
                    .map(|_| chance.one_of(&[0, 255]))
                    .collect(),
                width,
                height,
            },
        },
        Kind::Patches => {
            let vector = vector_inside(chance, w);
            patches(chance, width, height).pair(vector)
        }
    }
}
