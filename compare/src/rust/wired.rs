//! The Rust's `Nco`, `SlotSync`, `SlotPhase`, `Equaliser` and `demap`, wired as document 01, "The receiver", says. `Back` itself does not fit:
//! it asks for a frame number and a layout and trains on pilots. Its alignment and its reference for sync symbols are stated once more, here.
//!
//! It refuses nothing; words and table are those chosen at the shim when it is made. A slot has `MOD_SLOT` symbols.

use super::phy::chain::demap::demap;
use super::phy::chain::eq::{Equaliser, Sums, CENTRE};
use super::phy::chain::frame::{part, Part, SYNC_REF};
use super::phy::chain::phase::{Corrected, SlotPhase};
use super::phy::chain::sync::{word_symbols, Head, Nco, SlotSync, SyncEvent, SyncStats, Word};
use super::phy::eq::TAPS;
use isdbs3_core::params::{FSYNC, MOD_SLOT, SSYNC, SYNC_SYMBOLS};
use std::collections::VecDeque;

pub type Symbol = [i16; 2];

/// A loaded constellation: 2^bits points in the order of their labels.
#[derive(Debug, Clone, PartialEq, Eq)]
pub struct Points {
    pub bits: usize,
    pub points: Vec<Symbol>,
    pub k: i64,
}

/// The Rust's events, the loss with its restart position.
#[derive(Debug, Clone, Copy, PartialEq, Eq)]
pub enum Event {
    Head(Head),
    Period(SyncStats),
    Lost(u64),
}

/// A symbol as it comes out of the alignment: what it went in as, and its equalised value.
#[derive(Debug, Clone, Copy, PartialEq, Eq)]
pub struct Aligned {
    pub symbol: Corrected,
    pub z: Symbol,
}

/// Aligned symbols one after another: position and slot index of the first, how many, bits of a main symbol.
#[derive(Debug, Clone, Copy, PartialEq, Eq, Default)]
pub struct Run {
    pub at: u64,
    pub j: u16,
    pub count: usize,
    pub bits: usize,
}

/// What a symbol tells.
#[derive(Debug, Clone, PartialEq, Eq, Default)]
pub struct Told {
    pub events: Vec<Event>,
    pub corrected: Vec<Corrected>,
    pub aligned: Vec<Aligned>,
    /// Those that had waited, and those of the slot that was corrected.
    pub runs: [Run; 2],
    /// In order, from the buffer's start.
    pub soft: Vec<i8>,
}

pub struct Receiver {
    pub(super) f: [[i8; 2]; SYNC_SYMBOLS],
    pub(super) s: [[i8; 2]; SYNC_SYMBOLS],
    pub(super) nco: Nco,
    pub(super) sync: SlotSync,
    pub(super) phase: SlotPhase,
    pub(super) eq: Equaliser,
    /// The last 24 rotated symbols since the restart, the oldest first.
    pub(super) window: VecDeque<Symbol>,
    /// Corrected symbols whose equalised value is still to come.
    pub(super) waiting: VecDeque<Corrected>,
    pub(super) last_at: Option<u64>,
    pub(super) points: Option<Points>,
    /// The position of the next symbol, and symbols since the restart.
    pub(super) next: u64,
    pub(super) t: u64,
    /// As `last_corr` tells them, place by place.
    pub(super) accumulators: Vec<u32>,
}

impl Receiver {
    pub fn new(at: u64, step: i32) -> Self {
        let mut sync = SlotSync::new();
        sync.restart(at);
        Self {
            f: word_symbols(FSYNC),
            s: word_symbols(SSYNC),
            nco: Nco::new(step),
            sync,
            phase: SlotPhase::new(),
            eq: Equaliser::new(),
            window: VecDeque::with_capacity(SYNC_SYMBOLS + 1),
            waiting: VecDeque::with_capacity(CENTRE + 1),
            last_at: None,
            points: None,
            next: at,
            t: 0,
            accumulators: vec![0; MOD_SLOT],
        }
    }

    pub fn push(&mut self, x: [i8; 2]) -> Told {
        let mut told = Told::default();
        let r = self.nco.rotate(x);
        self.next += 1;
        self.t += 1;
        self.window.push_back(r);
        if self.window.len() > SYNC_SYMBOLS {
            self.window.pop_front();
        }
        let mut events = Vec::new();
        self.sync.push(r, &mut events);
        if self.window.len() == SYNC_SYMBOLS {
            let place = (self.t - SYNC_SYMBOLS as u64) % MOD_SLOT as u64;
            self.accumulators[place as usize] = self.sync.last_corr.2;
        }
        let mut lost = false;
        for event in events {
            match event {
                SyncEvent::Head(h) => {
                    told.events.push(Event::Head(h));
                    self.nco.head(&h);
                    self.phase.head(h, &mut told.corrected);
                }
                SyncEvent::Period(p) => told.events.push(Event::Period(p)),
                SyncEvent::Lost => {
                    told.events.push(Event::Lost(self.next));
                    lost = true;
                }
            }
        }
        self.align(&mut told);
        if lost {
            // the sync has restarted itself
            self.restart_others();
        } else if self.window.len() == SYNC_SYMBOLS {
            self.phase.push(self.window[0]);
        }
        told
    }

    /// A corrected slot as in `Back::push`, five symbols late.
    fn align(&mut self, told: &mut Told) {
        let Some(first) = told.corrected.first() else { return };
        let mut tail = if self.gap(first.at) { 0 } else { self.waiting.len() };
        for &c in &told.corrected {
            if self.gap(c.at) {
                self.restart_alignment();
            }
            self.last_at = Some(c.at);
            self.waiting.push_back(c);
            let z = self.eq.push(c.y).unwrap_or(c.y);
            if self.waiting.len() <= CENTRE {
                continue;
            }
            let symbol = self.waiting.pop_front().expect("more than five wait");
            self.train(&symbol);
            told.aligned.push(Aligned { symbol, z });
        }
        let bits = self.points.as_ref().map_or(0, |p| p.bits);
        tail = tail.min(told.aligned.len());
        for (run, part) in told.runs.iter_mut().zip([&told.aligned[..tail], &told.aligned[tail..]]) {
            if let Some(a) = part.first() {
                *run = Run { at: a.symbol.at, j: a.symbol.j, count: part.len(), bits };
            }
        }
        for a in &told.aligned {
            let (Some(p), Part::Main(_)) = (&self.points, part(usize::from(a.symbol.j))) else { continue };
            let mut soft = [0; 5];
            demap(a.z, &p.points, p.bits, p.k, &mut soft);
            told.soft.extend(&soft[..p.bits]);
        }
    }

    fn gap(&self, at: u64) -> bool {
        self.last_at.is_some_and(|last| last + 1 != at)
    }

    /// "Sync symbols train against word x 724, negated for NotFsync": the symbol now at the line's centre.
    fn train(&mut self, symbol: &Corrected) {
        let Part::Sync(k) = part(usize::from(symbol.j)) else { return };
        let (word, sign) = match symbol.word {
            Word::Ssync => (&self.s, 1),
            Word::Fsync => (&self.f, 1),
            Word::NotFsync => (&self.f, -1),
        };
        self.eq.train(word[k].map(|part| i16::from(part) * SYNC_REF * sign));
    }

    fn restart_alignment(&mut self) {
        self.eq.restart();
        self.waiting.clear();
        self.last_at = None;
    }

    /// All but the sync.
    fn restart_others(&mut self) {
        self.nco.restart();
        self.phase.restart();
        self.restart_alignment();
        self.window.clear();
        self.t = 0;
        self.accumulators.fill(0);
    }

    pub fn restart(&mut self, at: u64) {
        self.next = at;
        self.sync.restart(at);
        self.restart_others();
    }

    pub fn load_points(&mut self, points: Points) {
        self.points = Some(points);
    }

    pub fn load_taps(&mut self, taps: [Symbol; TAPS], frame: u32) {
        self.eq.load(taps, frame);
    }

    pub fn open(&mut self, frame: u32) {
        self.eq.open(frame);
    }

    pub fn end(&mut self) -> Option<Sums> {
        self.eq.close()
    }

    pub fn accumulators(&self) -> &[u32] {
        &self.accumulators
    }

    /// The position of the next symbol.
    pub fn next(&self) -> u64 {
        self.next
    }

    pub fn nco(&self) -> &Nco {
        &self.nco
    }
}
