//! Learning and what is in force, written from document 01 and docs/RANGES.md with other arithmetic than the Rust's. A slip
//! alters the rules.

/// Numbers of all sets of 1 to 5 bits together.
pub const NUMBERS: usize = 124;
pub const LABELS: usize = 62;

/// What can slip.
#[derive(Clone, Copy)]
pub struct Rules {
    pub by_label: bool,
    pub rounds_down: bool,
    pub every_label: bool,
    pub counts_size: bool,
    pub forgets_flags: bool,
    pub keeps_figure: bool,
    pub scales_new: bool,
    pub takes_learned: bool,
    pub lowest: i128,
    pub most: u32,
    pub most_samples: u32,
    pub sum_spare: i128,
    pub noise_spare: i128,
    pub figure_spare: i128,
    pub best_spare: i128,
    pub last_pilot: u64,
    pub bits_first: bool,
    pub range_first: bool,
    pub exact_slice: bool,
    pub least_noise: i128,
    pub room_for_all: bool,
    pub first_bit_first: bool,
}

pub const RULES: Rules = Rules {
    by_label: true,
    rounds_down: true,
    every_label: true,
    counts_size: true,
    forgets_flags: true,
    keeps_figure: true,
    scales_new: true,
    takes_learned: true,
    lowest: -32_768,
    most: 1 << 26,
    most_samples: 1 << 26,
    sum_spare: 0,
    noise_spare: 0,
    figure_spare: 0,
    best_spare: 0,
    last_pilot: 31,
    bits_first: true,
    range_first: true,
    exact_slice: true,
    least_noise: 256,
    room_for_all: true,
    first_bit_first: true,
};

#[derive(Debug, Clone, PartialEq, Eq)]
pub struct Learn {
    pub sum: Vec<i64>,
    pub count: Vec<u32>,
    pub noise: i64,
    pub samples: u32,
}

#[derive(Debug, Clone, Copy, PartialEq, Eq)]
pub struct Force {
    pub learned: [bool; 5],
    pub n0: i64,
    pub k: i64,
    pub from: Option<u32>,
}

/// Where the set of so many bits stands among the labels.
pub fn labels(bits: u64) -> std::ops::Range<usize> {
    let size = 1 << bits;
    size - 2..2 * size - 2
}

/// .. and among the numbers.
pub fn numbers(bits: u64) -> std::ops::Range<usize> {
    let l = labels(bits);
    2 * l.start..2 * l.end
}

/// The distance to a point, squared, less the size of the symbol, squared.
pub fn metric(y: [i16; 2], p: [i16; 2]) -> i64 {
    let part = |y: i16, p: i16| (i64::from(y) - i64::from(p)).pow(2) - i64::from(y).pow(2);
    part(y[0], p[0]) + part(y[1], p[1])
}

fn right_bits(bits: u64) -> bool {
    (1..=5).contains(&bits)
}

impl Learn {
    pub fn new() -> Self {
        Self { sum: vec![0; NUMBERS], count: vec![0; LABELS], noise: 0, samples: 0 }
    }
}

impl Default for Learn {
    fn default() -> Self {
        Self::new()
    }
}

impl Rules {
    /// The nearest whole number to a / b, the upper one of two.
    fn mean(&self, a: i64, b: u32) -> i128 {
        let (a, b) = (i128::from(a), i128::from(b));
        if self.rounds_down {
            (2 * a + b).div_euclid(2 * b)
        } else {
            (2 * a + b) / (2 * b)
        }
    }

    fn scale_of(&self, n0: i64) -> i64 {
        let n = i128::from(n0).max(self.least_noise);
        ((1i128 << 33) + n).div_euclid(2 * n) as i64
    }

    pub fn learn_in_range(&self, l: &Learn) -> bool {
        let sum = |&s: &i64| {
            let s = i128::from(s);
            (-(1 << 41) - self.sum_spare..=(1 << 41) - (1 << 26) + self.sum_spare).contains(&s)
        };
        let noise = -(1i128 << 59) - self.noise_spare..=(1i128 << 59) + (1 << 57) + self.noise_spare;
        l.sum.iter().all(sum)
            && l.count.iter().all(|&c| c <= 1 << 26)
            && noise.contains(&i128::from(l.noise))
            && l.samples <= 1 << 26
    }

    fn force_in_range(&self, f: &Force) -> bool {
        let n0 = -(1i128 << 33) - self.figure_spare..=(1i128 << 33) + (1 << 31) + self.figure_spare;
        n0.contains(&i128::from(f.n0)) && (0..=1 << 24).contains(&f.k)
    }

    pub fn pilot(&self, l: &mut Learn, bits: u64, t: u64, z: [i16; 2]) -> u8 {
        let (bad_bits, bad_range) = (!right_bits(bits), !self.learn_in_range(l));
        if bad_bits && (self.bits_first || !bad_range) {
            return 4;
        }
        if bad_range || t > self.last_pilot {
            return 6;
        }
        let size = 1u64 << bits;
        let label = if self.by_label { t % size } else { (t / 2) % size };
        let a = labels(bits).start + label as usize;
        if l.count[a] >= self.most {
            return 8;
        }
        l.sum[2 * a] += i64::from(z[0]);
        l.sum[2 * a + 1] += i64::from(z[1]);
        l.count[a] += 1;
        0
    }

    pub fn noise(&self, l: &mut Learn, y: [i16; 2], best: i64) -> u8 {
        let limit = (1i128 << 33) + self.best_spare;
        let full = l.samples >= self.most_samples;
        if full && !self.range_first {
            return 8;
        }
        if !self.learn_in_range(l) || i128::from(best).abs() > limit {
            return 6;
        }
        if full {
            return 8;
        }
        let size: i64 = if self.counts_size { y.iter().map(|&v| i64::from(v).pow(2)).sum() } else { 0 };
        l.noise += size + best;
        l.samples += 1;
        0
    }

    fn right_slice(&self, slice: &[i16]) -> bool {
        slice.len() == NUMBERS || !self.exact_slice && slice.len() > NUMBERS
    }

    fn set_points(&self, l: &Learn, bits: u64, learned: &mut [i16]) -> bool {
        let piloted = |c: &u32| *c > 0;
        let counts = &l.count[labels(bits)];
        let known = if self.every_label { counts.iter().all(piloted) } else { counts.iter().any(piloted) };
        if known {
            for i in numbers(bits) {
                let mean = self.mean(l.sum[i], l.count[i / 2].max(1));
                learned[i] = mean.clamp(self.lowest, 32_767) as i16;
            }
        }
        known
    }

    pub fn points(&self, l: &Learn, bits: u64, learned: &mut [i16]) -> (u8, bool) {
        if !self.right_slice(learned) || !right_bits(bits) {
            (4, false)
        } else if !self.learn_in_range(l) {
            (6, false)
        } else {
            (0, self.set_points(l, bits, learned))
        }
    }

    fn figure(&self, l: &Learn) -> Option<i64> {
        (l.samples > 0).then(|| self.mean(l.noise, l.samples) as i64)
    }

    pub fn n0(&self, l: &Learn) -> (u8, Option<i64>) {
        if self.learn_in_range(l) {
            (0, self.figure(l))
        } else {
            (6, None)
        }
    }

    pub fn start(&self) -> Force {
        Force { learned: [false; 5], n0: 52_556, k: self.scale_of(52_556), from: None }
    }

    pub fn next(&self, f: &mut Force, l: &Learn, frame: u32, learned: &mut [i16]) -> u8 {
        if !self.right_slice(learned) {
            return 4;
        }
        if !self.force_in_range(f) || !self.learn_in_range(l) {
            return 6;
        }
        let old = *f;
        for (bits, flag) in (1..).zip(&mut f.learned) {
            *flag = self.set_points(l, bits, learned) || *flag && !self.forgets_flags;
        }
        f.n0 = self.figure(l).unwrap_or(if self.keeps_figure { old.n0 } else { 52_556 });
        f.k = self.scale_of(if self.scales_new { f.n0 } else { old.n0 });
        f.from = Some(frame);
        0
    }

    fn soft(&self, y: [i16; 2], points: &[i16], bits: u64, k: i64, out: &mut [i8]) {
        for (b, out) in (0..bits).zip(out) {
            let place = if self.first_bit_first { bits - 1 - b } else { b };
            let least = |bit: usize| {
                let metrics = points.chunks_exact(2).enumerate().filter(|(label, _)| label >> place & 1 == bit);
                metrics.map(|(_, p)| metric(y, [p[0], p[1]])).min().expect("a point")
            };
            let scaled = i128::from(least(1) - least(0)) * i128::from(k);
            *out = (scaled + (1 << 31)).div_euclid(1 << 32).clamp(-127, 127) as i8;
        }
    }

    /// Two numbers to a symbol, and to a point.
    pub fn block(&self, symbols: &[i16], points: &[i16], bits: u64, k: i64, out: &mut [i8]) -> u8 {
        let symbols: Vec<_> = symbols.chunks_exact(2).map(|y| [y[0], y[1]]).collect();
        let count = if self.room_for_all { symbols.len() } else { symbols.len().min(1) };
        if (out.len() as u128) < count as u128 * u128::from(bits) {
            return 1;
        }
        if !right_bits(bits) || points.len() != 2 << bits {
            return 4;
        }
        if !(0..=1 << 24).contains(&k) {
            return 5;
        }
        for (y, out) in symbols.into_iter().zip(out.chunks_mut(bits as usize)) {
            self.soft(y, points, bits, k, out);
        }
        0
    }

    /// The chosen part, or the refusal.
    pub fn part<'a>(&self, f: &Force, bits: u64, learned: &'a [i16], nominal: &'a [i16]) -> Result<&'a [i16], u8> {
        if !self.right_slice(learned) || !self.right_slice(nominal) || !right_bits(bits) {
            return Err(4);
        }
        let chosen = if f.learned[bits as usize - 1] == self.takes_learned { learned } else { nominal };
        Ok(&chosen[numbers(bits)])
    }
}
