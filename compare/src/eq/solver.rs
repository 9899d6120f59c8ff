//! The solver, written from document 01: elimination by columns in f64, the pivot by squared magnitude. And the Rust's choice of a pivot, by
//! which it is known where both have to agree.

use super::calls::{Pairs, Sums};
use super::model::{upper, Rules};

pub type Complex = (f64, f64);

/// Eleven equations, each with its right-hand entry last.
pub type Equations = [[Complex; 12]; 11];

pub type Unknowns = [Complex; 11];

fn minus((a, b): Complex, (c, d): Complex) -> Complex {
    (a - c, b - d)
}

pub fn squared((a, b): Complex) -> f64 {
    a * a + b * b
}

fn norm((a, b): Complex) -> f64 {
    a.hypot(b)
}

/// The row that the Rust takes: of those with the greatest `norm` the last, unless it is under 1e-12.
fn by_norm(all: &Equations, c: usize) -> Option<usize> {
    let best = (c..11).max_by(|&x, &y| norm(all[x][c]).total_cmp(&norm(all[y][c])))?;
    let too_small = norm(all[best][c]) < 1e-12;
    (!too_small).then_some(best)
}

/// Whether document 01, which goes by squares, means another pivot of column c than the Rust, which goes by `norm`: the two entries have another
/// order in each, the one entry is too small in one alone, or a square is no number.
fn means_another(all: &Equations, c: usize, ours: Option<usize>, rusts: Option<usize>) -> bool {
    let square = |r: usize| squared(all[r][c]);
    let norm = |r: usize| norm(all[r][c]);
    match (ours, rusts) {
        (Some(x), Some(y)) => square(x).partial_cmp(&square(y)) != Some(norm(x).total_cmp(&norm(y))),
        (Some(x), None) | (None, Some(x)) => (square(x) < 1e-24) != (norm(x) < 1e-12) || square(x).is_nan(),
        (None, None) => false,
    }
}

impl Rules {
    fn product(&self, (a, b): Complex, (c, d): Complex) -> Complex {
        if self.products_rounded {
            (a * c - b * d, a * d + b * c)
        } else {
            (a.mul_add(c, -(b * d)), a.mul_add(d, b * c))
        }
    }

    fn quotient(&self, x: Complex, y: Complex) -> Complex {
        let (re, im) = (x.0 * y.0 + x.1 * y.1, x.1 * y.0 - x.0 * y.1);
        if self.divides {
            (re / squared(y), im / squared(y))
        } else {
            let part = 1.0 / squared(y);
            (re * part, im * part)
        }
    }

    pub fn equations(&self, s: &Sums) -> Equations {
        let pair = |v: &[i64]| (v[0] as f64, v[1] as f64);
        let mut all = [[(0.0, 0.0); 12]; 11];
        for ((r, c), v) in upper().zip(s.r.chunks(2)) {
            let (re, im) = pair(v);
            let turned = if r == c { self.diagonal_turned } else { self.lower_turned };
            all[r][c] = (re, im);
            all[c][r] = (re, if turned { -im } else { im });
        }
        for (row, v) in all.iter_mut().zip(s.p.chunks(2)) {
            row[11] = pair(v);
        }
        all
    }

    fn pivot(&self, all: &Equations, c: usize) -> Option<usize> {
        let mut best = (c, squared(all[c][c]));
        for (r, row) in all.iter().enumerate().skip(if self.pivots { c + 1 } else { 11 }) {
            let size = squared(row[c]);
            let gives_way = best.1.is_nan() && !self.no_number_stays;
            if size > best.1 || self.later_row && size == best.1 || gives_way {
                best = (r, size);
            }
        }
        let too_small = best.1 < self.tiny;
        (!too_small).then_some(best.0)
    }

    /// Column c, with its pivot in row p.
    fn eliminate(&self, all: &mut Equations, c: usize, p: usize) {
        all.swap(c, p);
        let top = all[c];
        for row in &mut all[c + 1..] {
            let f = self.quotient(row[c], top[c]);
            for k in c..12 {
                row[k] = minus(row[k], self.product(f, top[k]));
            }
        }
    }

    /// None where a pivot is too small.
    pub fn unknowns(&self, mut all: Equations) -> Option<Unknowns> {
        for c in 0..11 {
            let p = self.pivot(&all, c)?;
            self.eliminate(&mut all, c, p);
        }
        let mut x = [(0.0, 0.0); 11];
        for r in (0..11).rev() {
            let rest = (r + 1..11).fold(all[r][11], |rest, k| minus(rest, self.product(all[r][k], x[k])));
            x[r] = self.quotient(rest, all[r][r]);
        }
        Some(x)
    }

    /// Whether the Rust takes the same row in each column, or finds the same column's pivot too small. Where it does not, document 01 means it.
    pub fn pivots_as_the_rust(&self, mut all: Equations) -> bool {
        for c in 0..11 {
            let (p, rust) = (self.pivot(&all, c), by_norm(&all, c));
            if p != rust {
                let meant = means_another(&all, c, p, rust);
                assert!(meant, "THE MODEL IS WRONG: pivot {p:?}\nthe Rust: {rust:?}, in column {c} of {all:?}");
                return false;
            }
            let Some(p) = p else { return true };
            self.eliminate(&mut all, c, p);
        }
        true
    }

    fn tap(&self, v: f64) -> i16 {
        let v = v * 16_384.0;
        let whole = if self.halves_away { v.round() } else { (v + 0.5).floor() };
        // a NaN gives 0
        whole.clamp(self.lowest_tap, 32_767.0) as i16
    }

    /// Or the refusal.
    pub fn solve(&self, s: &Sums) -> Result<Pairs, u8> {
        let wide = |v: &i64| v.unsigned_abs() > self.entry.unsigned_abs();
        if s.count == 0 || s.count > self.limit || s.r.iter().chain(&s.p).any(wide) {
            return Err(9);
        }
        let x = self.unknowns(self.equations(s)).ok_or(10)?;
        Ok(std::array::from_fn(|k| self.tap(if k % 2 == 0 { x[k / 2].0 } else { x[k / 2].1 })))
    }
}
