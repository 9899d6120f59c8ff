//! `Learn` and `InForce` of the Rust, with points as lists of numbers.

use super::phy::chain::demap::{InForce, Learn, MODULATIONS};
use crate::demap::beside::{points_of, Beside};
use crate::demap::model::Force;
use crate::demap::soft::pairs;
use isdbs3_core::params::{CodeRate, Modulation};
use isdbs3_core::slots::Slot;

/// The nominal points are those of this rate.
pub const RATE: CodeRate = CodeRate(81);

pub struct Learning {
    pub(super) learn: Learn,
    force: InForce,
}

fn modulation(bits: u64) -> Modulation {
    MODULATIONS[bits as usize - 1]
}

fn flat(points: &[[i16; 2]]) -> Vec<i16> {
    points.as_flattened().to_vec()
}

impl Learning {
    pub fn new() -> Self {
        Self { learn: Learn::new(), force: InForce::default() }
    }
}

impl Default for Learning {
    fn default() -> Self {
        Self::new()
    }
}

impl Beside for Learning {
    fn pilot(&mut self, bits: u64, t: u64, z: [i16; 2]) {
        self.learn.pilot(modulation(bits), t as usize, z);
    }

    fn noise(&mut self, y: [i16; 2], best: i64) {
        self.learn.noise(y, best);
    }

    fn points(&self, bits: u64) -> Option<Vec<i16>> {
        self.learn.points(modulation(bits)).map(|points| flat(&points))
    }

    fn n0(&self) -> Option<i64> {
        self.learn.n0()
    }

    fn next(&mut self, frame: u32) {
        self.force = self.force.next(&self.learn, frame);
    }

    fn put_force(&mut self, f: &Force, learned: &[i16]) {
        let learned = points_of(f, learned).map(|set| set.map(|points| pairs(&points)));
        self.force = InForce { learned, n0: f.n0, k: f.k, from: f.from };
    }

    fn force(&self) -> (Force, [Option<Vec<i16>>; 5]) {
        let InForce { learned, n0, k, from } = &self.force;
        let flags = std::array::from_fn(|b| learned[b].is_some());
        let points = std::array::from_fn(|b| learned[b].as_ref().map(|set| flat(set)));
        (Force { learned: flags, n0: *n0, k: *k, from: *from }, points)
    }

    fn part(&self, bits: u64) -> Vec<i16> {
        let (modulation, rate) = (modulation(bits), RATE);
        let slot = Slot { index: 0, mode: 0, modulation, rate, dummy: false, symbol_start: 0, symbols: 0 };
        flat(&self.force.points(&slot))
    }

    fn shown(&self) -> String {
        format!("{:?}", self.learn)
    }
}
