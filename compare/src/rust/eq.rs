//! `Equaliser` of the Rust: its numbers as ours, and its whole state as `Debug` shows it. And the two solvers.

use super::phy::chain::eq::{solve_sums, Equaliser, Sums as Given};
use super::phy::eq::solve;
use super::phy::Cplx;
use crate::eq::beside::Beside;
use crate::eq::calls::{Pairs, Sums};
use crate::eq::solver::{Complex, Equations, Unknowns};

pub fn pairs(l: &Pairs) -> [[i16; 2]; 11] {
    std::array::from_fn(|k| [l[2 * k], l[2 * k + 1]])
}

fn flat(l: &[[i16; 2]; 11]) -> Pairs {
    std::array::from_fn(|k| l[k / 2][k % 2])
}

pub fn sums(s: &Sums) -> Given {
    let pairs = |list: &[i64]| list.chunks(2).map(|v| [v[0], v[1]]).collect();
    Given { frame: s.frame, count: s.count, r: pairs(&s.r), p: pairs(&s.p) }
}

pub fn sums_of(s: &Given) -> Sums {
    let (r, p) = (s.r.as_flattened().try_into().expect("132"), s.p.as_flattened().try_into().expect("22"));
    Sums { frame: s.frame, count: s.count, r, p }
}

impl Beside for Equaliser {
    fn restart(&mut self) {
        self.restart();
    }

    fn push(&mut self, y: [i16; 2]) -> Option<[i16; 2]> {
        self.push(y)
    }

    fn output(&self) -> [i16; 2] {
        self.output()
    }

    fn full(&self) -> bool {
        self.full()
    }

    fn open(&mut self, frame: u32) {
        self.open(frame);
    }

    fn train(&mut self, d: [i16; 2]) {
        self.train(d);
    }

    fn close(&mut self) -> Option<Sums> {
        self.close().as_ref().map(sums_of)
    }

    fn load(&mut self, taps: &Pairs, frame: u32) {
        self.load(pairs(taps), frame);
    }

    fn taps(&self) -> (Pairs, Option<u32>) {
        (flat(&self.taps), self.taps_from)
    }

    fn open_sums(&self) -> Option<Sums> {
        self.clone().close().as_ref().map(sums_of)
    }

    fn shown(&self) -> String {
        format!("{self:?}")
    }
}

/// By `solve_sums`.
pub fn solved_sums(s: &Sums) -> Option<Pairs> {
    solve_sums(&sums(s)).as_ref().map(flat)
}

/// By `solve`.
pub fn solved(all: &Equations) -> Option<Unknowns> {
    let number = |&(re, im): &Complex| Cplx::new(re, im);
    let a = all.iter().map(|row| row[..11].iter().map(number).collect()).collect();
    let b = all.iter().map(|row| number(&row[11])).collect();
    solve(a, b).map(|x| std::array::from_fn(|k| (x[k].re, x[k].im)))
}
