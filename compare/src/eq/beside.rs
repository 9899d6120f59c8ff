//! The Rust's equaliser beside the model, unchanged where calls lead it to a state and with opened fields where the state was handed in, and
//! what it shows of its state.

use super::calls::{Call, Equaliser, Pairs, Sums};
use super::desk::{Desk, Said};
use super::model::{no_sums, RULES};
use crate::opened::handed_in;
use crate::seen::{self, numbers, text};
use crate::stage;
use crate::unchanged::eq::{pairs, sums as rust_sums};
use isdbs3_phy::chain::eq as rust;
use std::fmt::Debug;

pub trait Beside {
    fn restart(&mut self);
    fn push(&mut self, y: [i16; 2]) -> Option<[i16; 2]>;
    fn output(&self) -> [i16; 2];
    fn full(&self) -> bool;
    fn open(&mut self, frame: u32);
    fn train(&mut self, d: [i16; 2]);
    fn close(&mut self) -> Option<Sums>;
    fn load(&mut self, taps: &Pairs, frame: u32);
    /// The taps in use and the frame that they are of.
    fn taps(&self) -> (Pairs, Option<u32>);
    fn open_sums(&self) -> Option<Sums>;
    /// All of its state.
    fn shown(&self) -> String;
}

#[track_caller]
pub(crate) fn agree<T: PartialEq + Debug>(model: T, rust: T) {
    assert!(model == rust, "THE MODEL IS WRONG: {model:?}\nthe Rust: {rust:?}");
}

/// Calls that the Rust has too.
pub fn can_take(call: &Call) -> bool {
    !call.is_put() && !matches!(call, Call::Tell | Call::Keep | Call::Solve)
}

/// Whether calls lead there: the line behind the fill is then zeros, and open sums have summed nothing.
fn led_to(e: &Equaliser) -> bool {
    let summed = e.opened && e.sums != no_sums(e.sums.frame);
    e.line[2 * e.filled as usize..].iter().all(|&v| v == 0) && !summed
}

/// The unchanged Rust, led to this state by calls.
fn led(e: &Equaliser) -> rust::Equaliser {
    let mut eq = rust::Equaliser::new();
    for &y in pairs(&e.line)[..e.filled as usize].iter().rev() {
        eq.push(y);
    }
    (eq.taps, eq.taps_from) = (pairs(&e.taps), e.from);
    if e.opened {
        eq.open(e.sums.frame);
    }
    eq
}

/// The Rust in a state that was handed in, if it is in range: the unchanged one where calls lead there, else its opened copy.
pub fn in_state(e: &Equaliser) -> Option<stage::Beside<dyn Beside>> {
    if !RULES.in_range(e) {
        return None;
    }
    Some(if led_to(e) {
        stage::Beside::unchanged(Box::new(led(e)))
    } else {
        stage::Beside::opened(Box::new(handed_in::equaliser(e)))
    })
}

/// The Rust takes a call that the model took, which left the desk so: both say the same, have the same taps, and where the call may have
/// changed the open sums also the same sums.
#[track_caller]
pub fn follow(rust: &mut dyn Beside, call: &Call, said: &Said, desk: &Desk) {
    let e = &desk.eq;
    match *call {
        Call::New => {}
        Call::Restart => rust.restart(),
        Call::Push { y } => agree(*said, Said::Symbol(rust.push(y))),
        Call::Output => agree(*said, Said::Symbol(Some(rust.output()))),
        Call::Open { frame } => rust.open(frame),
        Call::Train { d } => rust.train(d),
        Call::Close => {
            let closed = rust.close();
            agree(*said, Said::Flag(closed.is_some()));
            agree(closed.is_some().then_some(desk.sums), closed);
        }
        Call::Load { frame, taps } => rust.load(&taps, frame),
        _ => unreachable!("no call of the Rust's"),
    }
    agree_in_taps(rust, e);
    if !matches!(call, Call::Push { .. } | Call::Output | Call::Load { .. }) {
        agree_in_sums(rust, e);
    }
}

#[track_caller]
pub fn agree_in_taps(rust: &dyn Beside, e: &Equaliser) {
    agree((e.taps, e.from), rust.taps());
    agree(e.filled >= 11, rust.full());
}

#[track_caller]
pub fn agree_in_sums(rust: &dyn Beside, e: &Equaliser) {
    agree(e.opened.then_some(e.sums), rust.open_sums());
}

/// The Rust counts the line's symbols on; the model stops at 11.
#[track_caller]
pub fn agree_in_fill(shown: &str, e: &Equaliser) {
    let filled = shown.parse::<u64>().expect("a number");
    assert!(filled.min(11) == u64::from(e.filled), "THE MODEL IS WRONG: fill {}\nthe Rust: {filled}", e.filled);
}

#[track_caller]
pub fn agree_in_state(shown: &str, e: &Equaliser) {
    let model = vec![
        numbers("line", &e.line),
        numbers("taps", &e.taps),
        text("taps_from", e.from),
        text("acc", e.opened.then(|| rust_sums(&e.sums))),
    ];
    let [filled] = seen::agree(shown, model, ["filled"]);
    agree_in_fill(filled, e);
}
