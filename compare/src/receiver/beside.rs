//! The Rust's stages, wired as a receiver, beside the model: unchanged while a receiver comes from `new` and keeps words and table, and with
//! opened fields where anything was handed in. And what they show of their states.

use super::calls::Call;
use super::desk::Desk;
use super::model::{Receiver, Run};
use crate::eq::beside::agree_in_state;
use crate::eq::calls::{Pairs, Sums};
use crate::phase::beside::{agree_in_carrier, agree_in_slot};
use crate::sync::beside::{agree as agree_in_sync, fits as sync_fits, More};
use crate::sync::calls::{Answer as SyncAnswer, Event};
use crate::sync::model::ones;

/// What a symbol told, and the carrier behind it.
pub struct Told {
    pub events: [Event; 3],
    pub runs: [Run; 2],
    pub corrected: usize,
    pub soft: Vec<i8>,
    pub carrier: (u32, i32),
    /// The last correlations and their accumulator.
    pub corr: ([i32; 2], [i32; 2], u32),
    /// `Chain` went along.
    pub chained: bool,
}

pub trait Beside {
    fn push(&mut self, x: [i8; 2]) -> Told;
    fn restart(&mut self, at: u64);
    fn load_points(&mut self, bits: u8, points: &[i16], k: i64);
    fn load_taps(&mut self, taps: &Pairs, frame: u32);
    fn open(&mut self, frame: u32);
    fn end(&mut self) -> Option<Sums>;
    fn accumulators(&self) -> &[u32];
    /// The position of the next symbol.
    fn next(&self) -> u64;
    /// The states of carrier, slot sync, slot phase and equaliser.
    fn shown(&self) -> [String; 4];
}

/// Whether the opened Rust can be handed in what is kept: all numbers in range, words of ones, and nothing at which it overflows where
/// document 01 decides otherwise.
pub fn fits(desk: &Desk) -> bool {
    sync_fits(&desk.receiver.sync.state) && desk.words.iter().all(ones) && desk.receiver.in_range()
}

/// The Rust beside, which of its builds it is, and what it shows that no receiver keeps.
pub struct Rust {
    pub stages: Box<dyn Beside>,
    pub opened: bool,
    more: More,
}

impl Rust {
    pub fn new(stages: Box<dyn Beside>, opened: bool) -> Self {
        Self { stages, opened, more: More::default() }
    }

    pub fn push(&mut self, x: [i8; 2]) -> Told {
        let told = self.stages.push(x);
        let (f, s, level) = told.corr;
        self.more.note(&SyncAnswer { refusal: 0, f, s, level, events: told.events });
        told
    }

    /// A call that was accepted; the sums that it ended.
    pub fn follow(&mut self, call: &Call) -> Option<Sums> {
        let stages = &mut self.stages;
        match call {
            Call::Restart { at, .. } => {
                stages.restart(*at);
                self.more = More::default();
            }
            Call::Points { bits, k, points, .. } => stages.load_points(*bits, &points[..2 << bits], *k),
            Call::Taps { frame, taps } => stages.load_taps(taps, *frame),
            Call::Open(frame) => stages.open(*frame),
            Call::End => return stages.end(),
            _ => {}
        }
        None
    }

    /// Every number of the stages' states is the model's.
    pub fn agree(&self, desk: &Desk) {
        let Receiver { nco, sync, phase, eq, .. } = &desk.receiver;
        let (table, acc) = (&desk.table[..1_024], &desk.acc[..9_296]);
        assert!(self.stages.accumulators() == acc, "accumulators");
        assert_eq!(u128::from(self.stages.next()), desk.receiver.next(), "the next position");
        let [carrier, slots, slot, equaliser] = self.stages.shown();
        agree_in_carrier(&carrier, nco, table);
        agree_in_sync(&slots, &sync.state, desk.words.each_ref(), acc, &self.more);
        agree_in_slot(&slot, phase, table, &desk.store);
        agree_in_state(&equaliser, eq);
    }
}
