//! `SlotSync` of the Rust: its answers as ours, and its whole state as `Debug` shows it.

use super::phy::chain::sync::{SlotSync, SyncEvent, Word as Read};
use crate::sync::beside::Beside;
use crate::sync::calls::{pairs, Answer, Event, Kind, Word};
use isdb_frontend::s3sync::choose_words;

/// An event of the Rust; a loss restarts at the next symbol's position.
pub fn told(event: &SyncEvent, next: u64) -> Event {
    match event {
        SyncEvent::Head(h) => Event::Head {
            at: h.at,
            word: match h.word {
                Read::Ssync => Kind::Ssync,
                Read::Fsync => Kind::Fsync,
                Read::NotFsync => Kind::NotFsync,
            },
            corr: h.corr,
            theta: h.theta,
            amp: h.amp,
            slot: h.number.map(|n| (n, h.frame.expect("a frame with each number"))),
            nco_phase: h.nco_phase,
        },
        SyncEvent::Period(p) => Event::Period {
            peak: p.peak,
            place: p.peak_pos,
            sum: p.sum,
            locked: p.locked,
            offset: p.offset,
            parity: p.ssync_parity,
            stray: p.stray_markers,
            missed: p.missed_markers,
        },
        SyncEvent::Lost => Event::Lost { at: next },
    }
}

/// A slot sync, and the position of its next symbol.
pub struct Slots {
    pub(super) sync: SlotSync,
    pub(super) next: u64,
    events: Vec<SyncEvent>,
}

impl Slots {
    pub fn new(f: &Word, s: &Word, at: u64) -> Self {
        choose_words(pairs(f), pairs(s));
        let mut sync = SlotSync::new();
        sync.restart(at);
        Self { sync, next: at, events: Vec::new() }
    }
}

impl Beside for Slots {
    fn push(&mut self, symbol: [i16; 2]) -> Answer {
        self.events.clear();
        self.sync.push(symbol, &mut self.events);
        self.next += 1;
        let (f, s, level) = self.sync.last_corr;
        let mut answer = Answer { refusal: 0, f, s, level, events: [Event::Nothing; 3] };
        assert!(self.events.len() <= 3, "more than three events");
        for (place, event) in answer.events.iter_mut().zip(&self.events) {
            *place = told(event, self.next);
        }
        answer
    }

    fn restart(&mut self, at: u64) {
        self.sync.restart(at);
        self.next = at;
    }

    fn shown(&self) -> String {
        format!("{:?}", self.sync)
    }
}
