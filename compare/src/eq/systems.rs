//! Systems in f64 of any contents, for `solve` by itself: what document 01 says of them, what the model makes of them, and what the Rust does
//! wherever it takes the same pivots.

use super::kinds::any_system;
use super::model::{Rules, RULES};
use super::solver::{squared, Complex, Equations, Unknowns};
use crate::inputs::{pick, Random};
use crate::stage::{Counted, Least, BY_RUST};
use crate::unchanged::eq::solved;
use std::array::from_fn;

/// A kind of systems, and how many are compared at the gate.
pub struct Sort {
    pub name: &'static str,
    pub make: fn(&mut Random) -> System,
    pub times: u64,
    pub least: Least,
}

pub const SORTS: [Sort; 10] = [
    Sort { name: "solve, any", make: any, times: 8_000, least: &[("by the Rust", 4_000), ("other pivots", 0)] },
    Sort {
        name: "solve, exact",
        make: exact,
        times: 6_000,
        least: &[("by the Rust", 3_000), ("other pivots", 0), ("with a negative zero", 2_100)],
    },
    Sort {
        name: "solve, of sums",
        make: of_sums,
        times: 10_000,
        least: &[("by the Rust", 4_900), ("refused 10", 700)],
    },
    Sort { name: "solve, small numbers", make: small_numbers, times: 6_000, least: &[("by the Rust", 2_900)] },
    Sort {
        name: "solve, singular",
        make: singular,
        times: 4_000,
        least: &[("by the Rust", 2_000), ("other pivots", 0), ("refused 10", 2_000)],
    },
    Sort {
        name: "solve, huge and tiny",
        make: huge_and_tiny,
        times: 6_000,
        least: &[("by the Rust", 1_700), ("with a NaN", 1_100), ("refused 10", 1)],
    },
    Sort {
        name: "solve, denormal",
        make: denormal,
        times: 2_000,
        least: &[("by the Rust", 1_000), ("other pivots", 0), ("refused 10", 1_000)],
    },
    Sort {
        name: "solve, right side",
        make: right_side,
        times: 6_000,
        least: &[("by the Rust", 3_000), ("other pivots", 0), ("with a NaN", 2_500), ("with a negative zero", 74)],
    },
    Sort {
        name: "solve, no numbers",
        make: no_numbers,
        times: 10_000,
        least: &[("by the Rust", 1_200), ("with a NaN", 3_800), ("with a negative zero", 110), ("refused 10", 210)],
    },
    Sort {
        name: "solve, least pivots",
        make: least_pivots,
        times: 6_000,
        least: &[("by the Rust", 2_900), ("refused 10", 1_300)],
    },
];

/// What document 01 says of a system, without an elimination.
#[derive(Clone, Debug)]
pub enum Says {
    Nothing,
    /// 10.
    Refused,
    Taken,
    /// Taken, and all unknowns are these.
    Solution(Unknowns),
    /// Taken, and no unknown is a number.
    NoNumbers,
}

#[derive(Clone, Debug)]
pub struct System {
    pub all: Equations,
    pub says: Says,
}

/// The unknowns, real part before imaginary part; zeros behind a refusal.
#[derive(Clone, Copy, Debug)]
pub struct Solution {
    pub refusal: u8,
    pub x: [f64; 22],
}

/// Bit for bit, so that -0.0 is not 0.0; one NaN is as good as another.
impl PartialEq for Solution {
    fn eq(&self, other: &Self) -> bool {
        let same = |(a, b): (&f64, &f64)| a.to_bits() == b.to_bits() || a.is_nan() && b.is_nan();
        self.refusal == other.refusal && self.x.iter().zip(&other.x).all(same)
    }
}

impl From<Option<Unknowns>> for Solution {
    fn from(x: Option<Unknowns>) -> Self {
        match x {
            Some(x) => Self { refusal: 0, x: from_fn(|k| if k % 2 == 0 { x[k / 2].0 } else { x[k / 2].1 }) },
            None => Self { refusal: 10, x: [0.0; 22] },
        }
    }
}

#[derive(Default)]
pub struct Totals {
    compared: u64,
    refused: u64,
    /// Solutions with a NaN, and with a negative zero.
    no_numbers: u64,
    negative_zeros: u64,
    /// The Rust took the same pivots; it takes others; it was not asked, as it orders a NaN without a sign in another way.
    by_rust: u64,
    other_pivots: u64,
    /// Alike all the same, and refused in one alone.
    alike: u64,
    split: u64,
    unasked: u64,
}

impl Totals {
    fn count(&mut self, s: &Solution) {
        self.compared += 1;
        self.refused += u64::from(s.refusal != 0);
        self.no_numbers += u64::from(s.x.iter().any(|v| v.is_nan()));
        self.negative_zeros += u64::from(s.x.iter().any(|v| *v == 0.0 && v.is_sign_negative()));
    }
}

impl Counted for Totals {
    fn named(&self) -> Vec<(String, u64)> {
        let all = [
            ("compared", self.compared),
            ("refused 10", self.refused),
            ("with a NaN", self.no_numbers),
            ("with a negative zero", self.negative_zeros),
            (BY_RUST, self.by_rust),
            ("other pivots", self.other_pivots),
        ];
        all.map(|(name, n)| (name.to_string(), n)).into()
    }
}

impl std::fmt::Display for Totals {
    fn fmt(&self, out: &mut std::fmt::Formatter) -> std::fmt::Result {
        let Self { compared, refused, no_numbers, negative_zeros, by_rust, other_pivots, alike, split, unasked } = self;
        write!(
            out,
            "{compared:>9} compared, {by_rust:>9} by the Rust, {refused} refused 10, {no_numbers} with a NaN, "
        )?;
        write!(out, "{negative_zeros} with a negative zero")?;
        if other_pivots + unasked != 0 {
            write!(out, "; other pivots in {other_pivots} (reported only: {alike} alike, {split} refused in one), {unasked} not asked")?;
        }
        Ok(())
    }
}

impl Says {
    fn holds(&self, s: &Solution) -> bool {
        let owed = |x: &Unknowns| Solution::from(Some(*x)).x;
        match self {
            Says::Nothing => true,
            Says::Refused => s.refusal == 10,
            Says::Taken => s.refusal == 0,
            Says::Solution(x) => s.refusal == 0 && s.x == owed(x),
            Says::NoNumbers => s.refusal == 0 && s.x.iter().all(|v| v.is_nan()),
        }
    }
}

impl System {
    /// Matrix and right side, as the C function takes them.
    pub fn flat(&self) -> ([f64; 242], [f64; 22]) {
        let part = |r: usize, c: usize, im: bool| if im { self.all[r][c].1 } else { self.all[r][c].0 };
        (from_fn(|k| part(k / 22, k % 22 / 2, k % 2 == 1)), from_fn(|k| part(k / 2, 11, k % 2 == 1)))
    }

    /// The model's, which is held to document 01, and to the Rust where both take the same pivots.
    pub fn expected(&self, rules: &Rules, totals: &mut Totals) -> Solution {
        let by_model = Solution::from(rules.unknowns(self.all));
        assert!(self.says.holds(&by_model), "THE MODEL IS WRONG: {by_model:?}\nof {self:?}");
        totals.count(&by_model);
        // the sign of a NaN decides where the Rust puts it among pivots; those that arithmetic makes have it set
        let no_sign = |&(re, im): &Complex| [re, im].iter().any(|v| v.is_nan() && v.is_sign_positive());
        if self.all.iter().any(|row| row[..11].iter().any(no_sign)) {
            totals.unasked += 1;
            return by_model;
        }
        let by_rust = Solution::from(solved(&self.all));
        if rules.pivots_as_the_rust(self.all) {
            assert!(by_model == by_rust, "THE MODEL IS WRONG: {by_model:?}\nthe Rust: {by_rust:?}\nof {self:?}");
            totals.by_rust += 1;
        } else {
            totals.other_pivots += 1;
            totals.alike += u64::from(by_model == by_rust);
            totals.split += u64::from(by_model.refusal != by_rust.refusal);
        }
        by_model
    }
}

// ---- systems

/// From -1 to 1, with all bits of an f64.
fn fraction(r: &mut Random) -> f64 {
    (r.next() as i64) as f64 / 9_223_372_036_854_775_808.0
}

/// A number of this size.
fn sized(r: &mut Random, power: i32) -> f64 {
    // in two steps, as the smallest powers are denormal
    fraction(r) * 2f64.powi(power / 2) * 2f64.powi(power - power / 2)
}

fn filled(mut entry: impl FnMut(usize, usize) -> Complex) -> Equations {
    from_fn(|row| from_fn(|column| entry(row, column)))
}

fn says_nothing(all: Equations) -> System {
    System { all, says: Says::Nothing }
}

/// All of about one size.
fn any_equations(r: &mut Random) -> Equations {
    let power = r.below(90) as i32 - 30;
    filled(|_, _| (sized(r, power), sized(r, power)))
}

fn any(r: &mut Random) -> System {
    says_nothing(any_equations(r))
}

fn of_sums(r: &mut Random) -> System {
    says_nothing(RULES.equations(&any_system(r)))
}

/// Zeros of both signs are among them.
fn small(r: &mut Random) -> Complex {
    let mut part = || match r.below(8) - 3 {
        4 => -0.0,
        v => v as f64,
    };
    (part(), part())
}

/// Rows of one size are frequent.
fn small_numbers(r: &mut Random) -> System {
    says_nothing(filled(|_, _| small(r)))
}

fn shuffled<T>(r: &mut Random, list: &mut [T]) {
    (1..list.len()).for_each(|k| list.swap(k, r.below(k as u64 + 1) as usize));
}

fn sum_of_products(factors: impl Iterator<Item = (Complex, Complex)>) -> Complex {
    let products = factors.map(|((a, b), (c, d))| (a * c - b * d, a * d + b * c));
    products.fold((0.0, 0.0), |(a, b), (c, d)| (a + c, b + d))
}

/// Rows of L x U in any order, with whole numbers for unknowns: each entry of L below its diagonal of ones is half a unit or nothing, and
/// the diagonal of U is a unit times a power of two, so that every pivot is one of U's and no operation rounds.
fn exact(r: &mut Random) -> System {
    const UNITS: [Complex; 4] = [(1.0, 0.0), (0.0, 1.0), (-1.0, 0.0), (0.0, -1.0)];
    let scaled = |(a, b): Complex, by: f64| (a * by, b * by);
    let halves = UNITS.map(|unit| scaled(unit, 0.5));
    let zero = (0.0, 0.0);
    let mut lower = [[zero; 11]; 11];
    let mut upper = [[zero; 11]; 11];
    for row in 0..11 {
        for column in 0..row {
            lower[row][column] = if r.below(2) == 0 { zero } else { pick(r, &halves) };
            upper[column][row] = small(r);
        }
        lower[row][row] = (1.0, 0.0);
        upper[row][row] = scaled(pick(r, &UNITS), 2f64.powi(r.below(4) as i32));
    }
    let x: Unknowns = from_fn(|_| small(r));
    let entry = |row: usize, column: usize| sum_of_products((0..11).map(|k| (lower[row][k], upper[k][column])));
    let mut all = filled(|row, column| if column < 11 { entry(row, column) } else { zero });
    for row in &mut all {
        row[11] = sum_of_products(row.iter().copied().zip(x));
    }
    shuffled(r, &mut all);
    System { all, says: Says::Solution(x) }
}

/// A row or a column of zeros, or two rows of one matrix alike: what rounding leaves is exactly zero.
fn singular(r: &mut Random) -> System {
    let mut all = any_equations(r);
    let (a, b) = (r.below(11) as usize, r.below(10) as usize);
    match r.below(3) {
        0 => all[a][..11].fill((0.0, 0.0)),
        1 => all.iter_mut().for_each(|row| row[a] = (0.0, 0.0)),
        _ => all[(a + 1 + b) % 11] = all[a],
    }
    System { all, says: Says::Refused }
}

/// Each entry of any size that an f64 can have.
fn huge_and_tiny(r: &mut Random) -> System {
    let (least, sizes) = pick(r, &[(-1_074, 2_098), (-450, 900), (400, 624), (-200, 400), (480, 30)]);
    let mut part = || {
        let power = least + r.below(sizes) as i32;
        sized(r, power)
    };
    says_nothing(filled(|_, _| (part(), part())))
}

/// All under the least pivot, most of them denormal or such that their squares are.
fn denormal(r: &mut Random) -> System {
    let power = -1_074 + r.below(1_030) as i32;
    System { all: filled(|_, _| (sized(r, power), sized(r, power))), says: Says::Refused }
}

/// Into a part of an entry: NaN, more often with its sign set as arithmetic makes it, infinities, negative zeros, ends.
fn put_strange(r: &mut Random, all: &mut Equations, [row, column]: [usize; 2]) {
    let made = -f64::NAN;
    let strange = [made, made, f64::NAN, f64::INFINITY, -f64::INFINITY, -0.0, -0.0, f64::MAX, 5e-324];
    let entry = &mut all[row][column];
    *(if r.below(2) == 0 { &mut entry.0 } else { &mut entry.1 }) = pick(r, &strange);
}

fn any_numbers(r: &mut Random) -> Equations {
    match r.below(3) {
        0 => any_equations(r),
        1 => exact(r).all,
        _ => filled(|row, column| if row == column || column == 11 { (1.0, 0.0) } else { (0.0, 0.0) }),
    }
}

/// On the right side alone, where they decide nothing.
fn right_side(r: &mut Random) -> System {
    let mut all = any_numbers(r);
    for _ in 0..1 + r.below(4) {
        let row = r.below(11) as usize;
        put_strange(r, &mut all, [row, 11]);
    }
    System { all, says: Says::Taken }
}

/// In the matrix: anywhere, in the first row of a pivot's column, and below.
fn no_numbers(r: &mut Random) -> System {
    let mut all = any_numbers(r);
    for _ in 0..1 + r.below(3) {
        let [a, b] = [0, 1].map(|_| r.below(11) as usize);
        let place = match r.below(4) {
            0 => [a, b],
            1 => [a.max(b), a.min(b)],
            2 => [a, 0],
            _ => [a, a],
        };
        put_strange(r, &mut all, place);
    }
    // a first row that is no number stays the pivot, and is not too small
    let (re, im) = all[0][0];
    let says = if re.is_nan() || im.is_nan() { Says::NoNumbers } else { Says::Nothing };
    System { all, says }
}

/// A column whose only entry has a squared magnitude just under 1e-24, at it or just over, in the first row that may be its pivot or below.
fn least_pivots(r: &mut Random) -> System {
    let mut all = filled(|row, column| match column {
        11 => small(r),
        _ if row == column => pick(r, &[(1.0, 0.0), (0.0, -2.0)]),
        _ => (0.0, 0.0),
    });
    let (a, b) = (r.below(11) as usize, r.below(11) as usize);
    let near = |v: f64, r: &mut Random| f64::from_bits((v.to_bits() as i64 + r.below(13) - 6) as u64);
    let (re, im) =
        pick(r, &[(1e-12, 0.0), (0.0, 1e-12), (6e-13, 8e-13), (7.071_067_811_865_475e-13, 7.071_067_811_865_475e-13)]);
    let least = if re == 0.0 { (re, near(im, r)) } else { (near(re, r), -im) };
    let (column, row) = (a.min(b), a.max(b));
    all[column][column] = least;
    all.swap(column, row);
    System { all, says: if squared(least) < 1e-24 { Says::Refused } else { Says::Taken } }
}
