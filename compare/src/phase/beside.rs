//! The Rust's carrier and slot phase beside the model, unchanged or with opened fields, and what they show of their states.

use super::calls::{Corrected, Head, Nco, Phase};
use crate::seen::{self, numbers, text, Owed};
use crate::unchanged::phase::head as rust_head;

pub trait Carrier {
    fn rotate(&mut self, x: [i8; 2]) -> [i16; 2];
    /// Whether the step was set.
    fn head(&mut self, head: &Head) -> bool;
    fn restart(&mut self);
    fn phase_and_step(&self) -> (u32, i32);
    /// All of its state.
    fn shown(&self) -> String;
}

pub trait Slot {
    fn push(&mut self, r: [i16; 2]);
    /// The corrected symbols of the slot that was due.
    fn head(&mut self, head: &Head) -> Vec<Corrected>;
    fn restart(&mut self);
    fn holding(&self) -> bool;
    /// All of its state.
    fn shown(&self) -> String;
}

/// Of an `Nco`.
#[track_caller]
pub fn agree_in_carrier(shown: &str, nco: &Nco, table: &[i16]) {
    let (sum, steps) = nco.trail.map_or((0, 0), |t| (t.sum, t.steps));
    let model = vec![
        numbers("cos", table),
        text("phase", nco.phase),
        text("freq", nco.freq),
        text("last_ss", nco.trail.map(|t| t.last)),
        text("sum", sum),
        text("steps", steps),
    ];
    seen::agree(shown, model, []);
}

/// Of a `SlotPhase`: its head, and the symbols that the slot store holds.
#[track_caller]
pub fn agree_in_slot(shown: &str, phase: &Phase, table: &[i16], store: &[i16]) {
    let [held] = seen::agree(shown, vec![numbers("cos", table)], ["cur"]);
    let Some(x) = phase else { return text("cur", None::<()>).1.held_to("cur", held) };
    let both = held.strip_prefix("Some((").and_then(|rest| rest.strip_suffix("))"));
    let (head, symbols) = both.and_then(|both| both.split_once(" }, ")).expect("a head and symbols");
    Owed::Text(format!("{:?}", rust_head(&x.head))).held_to("the held head", &format!("{head} }}"));
    numbers("", &store[..2 * x.count as usize]).1.held_to("the held symbols", symbols);
}
