//! The Rust's `Learn` and `InForce` beside the model, unchanged or with opened fields, and what they show of their states.

use super::model::{numbers, Force, Learn};
use crate::seen::{self, text};

/// Both, since what is in force comes from what was learned.
pub trait Beside {
    fn pilot(&mut self, bits: u64, t: u64, z: [i16; 2]);
    fn noise(&mut self, y: [i16; 2], best: i64);
    fn points(&self, bits: u64) -> Option<Vec<i16>>;
    fn n0(&self) -> Option<i64>;
    fn next(&mut self, frame: u32);
    /// The fields of what is in force are public in the Rust too; its points are those of the slice.
    fn put_force(&mut self, force: &Force, learned: &[i16]);
    /// What is in force, and its points as the slice has them.
    fn force(&self) -> (Force, [Option<Vec<i16>>; 5]);
    /// The points of a set, as a slot of that modulation gets them.
    fn part(&self, bits: u64) -> Vec<i16>;
    /// All of what was learned.
    fn shown(&self) -> String;
}

/// The learned points of each set whose flag is on.
pub fn points_of(force: &Force, learned: &[i16]) -> [Option<Vec<i16>>; 5] {
    std::array::from_fn(|b| force.learned[b].then(|| learned[numbers(b as u64 + 1)].to_vec()))
}

#[track_caller]
pub fn agree_in_learning(shown: &str, l: &Learn) {
    let model = vec![
        seen::numbers("sum", &l.sum),
        seen::numbers("count", &l.count),
        text("noise", l.noise),
        text("samples", l.samples),
    ];
    seen::agree(shown, model, []);
}
