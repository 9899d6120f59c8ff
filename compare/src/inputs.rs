//! The inputs: short ranges in full, the limits of every argument, and random numbers that crowd
//! around the places where an answer changes its course.

use crate::fx::{Function, Kind};
use std::f64::consts::TAU;

pub type Pair = (i64, i64);

/// How much of a stage is compared; a sample is for the files that its replay program is run on.
#[derive(Clone, Copy, PartialEq, Eq)]
pub enum Size {
    Sample,
    Short,
    Full,
}

/// As many as the run's size asks for.
pub fn times(size: Size, [sample, short, full]: [u64; 3]) -> u64 {
    match size {
        Size::Sample => sample,
        Size::Short => short,
        Size::Full => full,
    }
}

/// splitmix64: the same numbers from the same seed everywhere.
pub struct Random(pub u64);

impl Random {
    pub fn next(&mut self) -> u64 {
        self.0 = self.0.wrapping_add(0x9E37_79B9_7F4A_7C15);
        let z = (self.0 ^ (self.0 >> 30)).wrapping_mul(0xBF58_476D_1CE4_E5B9);
        let z = (z ^ (z >> 27)).wrapping_mul(0x94D0_49BB_1331_11EB);
        z ^ (z >> 31)
    }

    pub fn below(&mut self, n: u64) -> i64 {
        (u128::from(self.next()) * u128::from(n) >> 64) as i64
    }

    /// Small, of either sign: a distance from an edge.
    pub fn near(&mut self) -> i64 {
        self.below(7) - 3
    }

    /// Of any length up to `bits` (at most 62), so that small sizes are as frequent as great ones.
    pub fn positive(&mut self, bits: u64) -> i64 {
        let length = self.below(bits + 1);
        (self.next() & ((1 << length) - 1)) as i64
    }

    pub fn signed(&mut self, bits: u64) -> i64 {
        let size = self.positive(bits);
        if self.below(2) == 0 {
            size
        } else {
            -size
        }
    }

    /// A power of two of either sign, or close to one.
    pub fn by_power(&mut self) -> i64 {
        let power = 1 << self.below(63);
        let near = self.near();
        if self.below(2) == 0 {
            power + near
        } else {
            near - power
        }
    }

    /// Mostly accepted; one in sixteen may be anything.
    fn argument(&mut self, kind: Kind) -> i64 {
        let anything = self.below(16) == 0;
        match kind {
            Kind::Unused => 0,
            Kind::Angle => self.below(1 << 32),
            Kind::Shift if anything => self.positive(32),
            Kind::Shift => self.below(64),
            _ if anything => self.next() as i64,
            Kind::Divisor => self.positive(60),
            Kind::Cordic => self.signed(22),
            Kind::Wide => self.signed(60),
        }
    }

    /// One in four at an edge of the function.
    pub fn pair(&mut self, f: &Function) -> Pair {
        if self.below(4) == 0 {
            return self.edge(f);
        }
        (self.argument(f.kinds[0]), self.argument(f.kinds[1]))
    }

    fn edge(&mut self, f: &Function) -> Pair {
        match f.kinds {
            // just at a half, where rounding turns
            [Kind::Wide, Kind::Shift] => {
                let s = 1 + self.below(60);
                let q = self.signed(60 - s as u64);
                ((q << s) + (1 << (s - 1)) + self.near(), s)
            }
            [Kind::Wide, Kind::Divisor] => {
                let length = 1 + self.below(60);
                let b = self.positive(length as u64).max(1);
                let q = self.signed(60 - length as u64);
                (q * b + b / 2 + self.near(), b)
            }
            // where two sizes are about the same, or one is about zero
            [Kind::Cordic, Kind::Cordic] => {
                let a = self.argument(Kind::Cordic);
                self.beside(a)
            }
            [Kind::Wide, Kind::Wide] => {
                let a = self.by_power();
                if self.below(2) == 0 {
                    (a, self.by_power())
                } else {
                    self.beside(a)
                }
            }
            [Kind::Angle, _] => ((self.below(2048) * (1 << 21) + self.near()) & 0xFFFF_FFFF, 0),
            _ => (self.by_power(), 0),
        }
    }

    fn beside(&mut self, a: i64) -> Pair {
        let near = self.near();
        match self.below(4) {
            0 => (a, a.wrapping_add(near)),
            1 => (a, a.wrapping_neg().wrapping_add(near)),
            2 => (a, near),
            _ => (near, a),
        }
    }
}

pub fn pick<T: Copy>(r: &mut Random, from: &[T]) -> T {
    from[r.below(from.len() as u64) as usize]
}

/// Every limit of an argument of this kind, and its neighbours.
pub fn limits(kind: Kind) -> Vec<i64> {
    match kind {
        Kind::Unused => vec![0],
        Kind::Shift => (0..=70).chain(by_powers(32)).filter(|&s| (0..1 << 32).contains(&s)).collect(),
        Kind::Angle => {
            let steps = (0..2048).flat_map(|i| (-2..=2).map(move |d| (i * (1 << 21) + d) & 0xFFFF_FFFF));
            steps.chain(by_powers(31).map(|a| a & 0xFFFF_FFFF)).collect()
        }
        Kind::Divisor | Kind::Cordic | Kind::Wide => {
            let ends = [i64::MIN, i64::MIN + 1, i64::MIN + 2, i64::MAX - 1, i64::MAX];
            ends.into_iter().chain(by_powers(62)).collect()
        }
    }
}

/// 0 and the powers of two up to 2^most, of either sign, with their neighbours.
pub fn by_powers(most: u32) -> impl Iterator<Item = i64> {
    let sizes = std::iter::once(0).chain((0..=most).map(|k| 1i64 << k));
    sizes.flat_map(|p| [p, -p]).flat_map(|p| [p - 1, p, p + 1])
}

/// A range of either argument, the first with a step.
pub struct Grid {
    a: (i64, i64, usize),
    b: (i64, i64),
}

impl Grid {
    pub fn pairs(&self) -> impl Iterator<Item = Pair> {
        let (first, last) = self.b;
        let (from, to, step) = self.a;
        (from..=to).step_by(step).flat_map(move |a| (first..=last).map(move |b| (a, b)))
    }
}

fn line(middle: i64, reach: i64) -> Grid {
    Grid { a: (middle - reach, middle + reach, 1), b: (0, 0) }
}

fn square(re: i64, im: i64, reach: i64) -> Grid {
    Grid { a: (re - reach, re + reach, 1), b: (im - reach, im + reach) }
}

/// The ranges that are gone through in full.
pub fn ranges(f: &Function) -> Vec<Grid> {
    const CORDIC: i64 = 1 << 22;
    match f.kinds {
        [Kind::Wide, Kind::Shift] => vec![Grid { a: (-70_000, 70_000, 1), b: (0, 64) }],
        [Kind::Wide, Kind::Divisor] => vec![Grid { a: (-400, 400, 1), b: (-3, 400) }],
        [Kind::Cordic | Kind::Wide, Kind::Cordic | Kind::Wide] => {
            let corners = [-CORDIC, 0, CORDIC].into_iter().flat_map(|re| [-CORDIC, 0, CORDIC].map(|im| (re, im)));
            corners.map(|(re, im)| square(re, im, if (re, im) == (0, 0) { 300 } else { 100 })).collect()
        }
        [Kind::Angle, _] => {
            let ends = [2_000, 1 << 31, (1 << 32) - 2_001].map(|a| line(a, 2_000));
            ends.into_iter().chain([Grid { a: (0, (1 << 32) - 1, 1 << 10), b: (0, 0) }]).collect()
        }
        _ => [0, -1 << 31, 1 << 31].map(|v| line(v, 70_000)).into(),
    }
}

pub fn cosine_table() -> Vec<i16> {
    (0..1024).map(|i| (32767.0 * (TAU * f64::from(i) / 1024.0).cos()).round() as i16).collect()
}

/// Tables of the right length: a cosine, one whose entries tell their place, two of random contents.
pub fn right_tables(random: &mut Random) -> Vec<Vec<i16>> {
    let mut noise = || (0..1024).map(|_| random.next() as i16).collect();
    vec![cosine_table(), (0..1024).collect(), noise(), noise()]
}

/// Tables of a wrong length.
pub fn wrong_tables() -> Vec<Vec<i16>> {
    [0, 1, 1023, 1025, 2048].map(|n| cosine_table().into_iter().cycle().take(n).collect()).into()
}
