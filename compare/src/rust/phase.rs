//! `Nco` and `SlotPhase` of the Rust: heads as theirs, corrected symbols as ours, and their whole states as `Debug` shows them.

use super::phy::chain::phase::{Corrected as Given, SlotPhase};
use super::phy::chain::sync::{Head as Read, Nco, Word as Known};
use crate::phase::beside::{Carrier, Slot};
use crate::phase::calls::{Corrected, Head, Word};

pub fn word(word: Word) -> Known {
    match word {
        Word::Ssync => Known::Ssync,
        Word::Fsync => Known::Fsync,
        Word::NotFsync => Known::NotFsync,
    }
}

fn word_of(word: Known) -> Word {
    match word {
        Known::Ssync => Word::Ssync,
        Known::Fsync => Word::Fsync,
        Known::NotFsync => Word::NotFsync,
    }
}

pub fn head(h: &Head) -> Read {
    Read {
        at: h.at,
        word: word(h.word),
        corr: h.corr,
        theta: h.theta,
        amp: h.amp,
        number: h.slot.map(|s| s.0),
        frame: h.slot.map(|s| s.1),
        nco_phase: h.nco_phase,
    }
}

pub fn corrected(c: &Given) -> Corrected {
    let slot = c.number.map(|n| (n, c.frame.expect("a frame with each number")));
    Corrected { at: c.at, word: word_of(c.word), slot, j: c.j, r: c.r, phi: c.phi, gain: c.gain, y: c.y }
}

/// The same, for the Rust.
pub fn given(c: &Corrected) -> Given {
    let (number, frame) = (c.slot.map(|s| s.0), c.slot.map(|s| s.1));
    Given { at: c.at, word: word(c.word), number, frame, j: c.j, r: c.r, phi: c.phi, gain: c.gain, y: c.y }
}

impl Carrier for Nco {
    fn rotate(&mut self, x: [i8; 2]) -> [i16; 2] {
        self.rotate(x)
    }

    fn head(&mut self, h: &Head) -> bool {
        self.head(&head(h))
    }

    fn restart(&mut self) {
        self.restart();
    }

    fn phase_and_step(&self) -> (u32, i32) {
        (self.phase, self.freq)
    }

    fn shown(&self) -> String {
        format!("{self:?}")
    }
}

impl Slot for SlotPhase {
    fn push(&mut self, r: [i16; 2]) {
        self.push(r);
    }

    fn head(&mut self, h: &Head) -> Vec<Corrected> {
        let mut out = Vec::new();
        self.head(head(h), &mut out);
        out.iter().map(corrected).collect()
    }

    fn restart(&mut self) {
        self.restart();
    }

    fn holding(&self) -> bool {
        self.holding()
    }

    fn shown(&self) -> String {
        format!("{self:?}")
    }
}
