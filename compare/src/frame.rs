//! The slot map: the Rust's answer at each place, and document 01's refusal past the last. And the alignment: calls of the
//! replay program, what they owe, and the calls that are made, by kind.

pub mod beside;
pub mod calls;
pub mod desk;
pub mod kinds;
pub mod model;
pub mod player;
pub mod reference;
pub mod slips;

use crate::fx::Answer;
use isdbs3_phy::chain::frame::{part, Part};

pub const PLACES: usize = 9_296;

/// Places with what document 01 gives: its bench values as kind (0 sync, 1 pilot, 2 main, 3 TMCC) and index, and "slot index over 9,295".
pub const ASKED: [(usize, Answer); 11] = [
    (0, Answer { refusal: 0, x: 0, y: 0 }),
    (23, Answer { refusal: 0, x: 0, y: 23 }),
    (24, Answer { refusal: 0, x: 1, y: 0 }),
    (55, Answer { refusal: 0, x: 1, y: 31 }),
    (56, Answer { refusal: 0, x: 2, y: 0 }),
    (191, Answer { refusal: 0, x: 2, y: 135 }),
    (192, Answer { refusal: 0, x: 3, y: 0 }),
    (196, Answer { refusal: 0, x: 2, y: 136 }),
    (9_295, Answer { refusal: 0, x: 3, y: 263 }),
    (9_296, Answer { refusal: 6, x: 0, y: 0 }),
    (usize::MAX, Answer { refusal: 6, x: 0, y: 0 }),
];

pub fn part_of(j: usize) -> Answer {
    if j >= PLACES {
        return Answer::refused(6);
    }
    let (kind, index) = match part(j) {
        Part::Sync(k) => (0, k),
        Part::Pilot(k) => (1, k),
        Part::Main(k) => (2, k),
        Part::Tmcc(k) => (3, k),
    };
    Answer { refusal: 0, x: kind, y: index as i64 }
}
