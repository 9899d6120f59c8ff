//! The alignment, written from document 01 ("The receiver", "Refusals") and docs/RANGES.md: not from the port.

use super::calls::{placed, Ones};
use crate::eq::calls::Equaliser;
use crate::eq::model as eq;
use crate::phase::calls::{Corrected, Word};

pub const LATE: usize = 5;
pub const TOP: u64 = 1 << 62;
pub const WIDE: u64 = 1 << 60;
const SYNC_REF: i16 = 724;

/// What may be wrong in a stand-in.
#[derive(Clone, Copy)]
pub struct Rules {
    pub eq: eq::Rules,
    /// How many symbols wait before one comes out.
    pub late: usize,
    /// The word and the place of the symbol that comes out, not of the newest.
    pub own_word: bool,
    pub own_place: bool,
    /// Its value, not that of the one before.
    pub own_value: bool,
    /// With no output yet it is the newest symbol's y; otherwise zero.
    pub newest_value: bool,
    /// It trains behind the newest symbol, not before.
    pub trains_behind: bool,
    /// Sync symbols: those that train, in slots with a number and without.
    pub sync: u16,
    pub unnumbered: bool,
    /// NotFsync is the negated F word.
    pub negated: bool,
    pub words_swapped: bool,
    /// A position that is the last or below it, and one too far, are gaps.
    pub low_is_gap: bool,
    pub high_is_gap: bool,
    /// A gap drops those that wait, the line and open sums.
    pub gap_drops_waiting: bool,
    pub gap_drops_line: bool,
    pub gap_drops_sums: bool,
    /// A restart forgets the last position, and drops those that wait.
    pub restart_forgets: bool,
    pub restart_drops_waiting: bool,
    pub places: u16,
    /// Symbols that wait adjoin, so that of place k stands at position k or later.
    pub adjoin: i128,
    pub top: u64,
    pub wide: u64,
    /// A full count is refused only where there would be a training: not for a gap, not for other symbols.
    pub full_after_gap: bool,
    pub full_for_sync: bool,
    /// An entry of a word is 1 or -1.
    pub ones_tested: bool,
    /// Places behind those that wait are not looked at.
    pub behind_unseen: bool,
}

pub const RULES: Rules = Rules {
    eq: eq::RULES,
    late: LATE,
    own_word: true,
    own_place: true,
    own_value: true,
    newest_value: true,
    trains_behind: true,
    sync: 24,
    unnumbered: true,
    negated: true,
    words_swapped: false,
    low_is_gap: true,
    high_is_gap: true,
    gap_drops_waiting: true,
    gap_drops_line: true,
    gap_drops_sums: true,
    restart_forgets: true,
    restart_drops_waiting: true,
    places: 9_296,
    adjoin: 0,
    top: TOP,
    wide: WIDE,
    full_after_gap: true,
    full_for_sync: true,
    ones_tested: true,
    behind_unseen: true,
};

/// Those that wait, the oldest first: `count` of the places, of which there are always as many as can wait.
#[derive(Clone, PartialEq, Eq, Debug)]
pub struct Line {
    pub places: Vec<Corrected>,
    pub count: u32,
    pub last: Option<u64>,
}

pub const NOWHERE: Corrected =
    Corrected { at: 0, word: Word::Ssync, slot: None, j: 0, r: [0; 2], phi: 0, gain: 0, y: [0; 2] };

/// What comes out.
#[derive(Clone, Copy, PartialEq, Eq, Debug)]
pub struct Aligned {
    pub place: Corrected,
    pub z: [i16; 2],
}

/// "Word x 724": a sync symbol's training reference.
pub fn reference(word: Word, k: usize, [f, s]: &[Ones; 2]) -> [i16; 2] {
    let (ones, sign) = match word {
        Word::Ssync => (s, 1),
        Word::Fsync => (f, 1),
        Word::NotFsync => (f, -1),
    };
    [ones[2 * k], ones[2 * k + 1]].map(|one| i16::from(one) * SYNC_REF * sign)
}

impl Rules {
    pub fn start(&self) -> Line {
        Line { places: vec![NOWHERE; self.late], count: 0, last: None }
    }

    pub fn in_range(&self, e: &Equaliser, line: &Line) -> bool {
        let seen = if self.behind_unseen { line.count as usize } else { self.late };
        let waits =
            |(k, p): (i128, &Corrected)| i128::from(p.at) >= k + self.adjoin && p.at < self.top && p.j < self.places;
        self.eq.in_range(e)
            && line.count as usize <= self.late
            && (0..).zip(line.places.iter().take(seen)).all(waits)
            && line.last.is_none_or(|at| at < self.top)
    }

    /// Whether a symbol at this position does not follow.
    pub fn gap(&self, line: &Line, at: u64) -> bool {
        line.last.is_some_and(|last| if at <= last { self.low_is_gap } else { at - last > 1 && self.high_is_gap })
    }

    pub fn restart(&self, e: &mut Equaliser, line: &mut Line) -> u8 {
        if !self.in_range(e, line) {
            return 6;
        }
        self.eq.restart(e);
        let last = line.last.filter(|_| !self.restart_forgets);
        *line = Line { last, ..if self.restart_drops_waiting { self.start() } else { line.clone() } };
        0
    }

    /// A training that the symbol would make, with a full count.
    pub fn full(&self, e: &Equaliser, line: &Line, c: &Corrected) -> bool {
        let gap = self.gap(line, c.at) && self.full_after_gap;
        let comes_out = line.count as usize == self.late && !gap;
        let trains = line.places[0].j < self.sync || !self.full_for_sync;
        comes_out && trains && e.opened && e.filled + 1 >= self.eq.trains_from && e.sums.count == self.eq.limit
    }

    fn refusal(&self, e: &Equaliser, line: &Line, c: &Corrected, words: &[Ones; 2]) -> u8 {
        let no_word = words.as_flattened().iter().any(|one| one.unsigned_abs() != 1);
        if no_word && self.ones_tested {
            2
        } else if !self.in_range(e, line) || c.j >= self.places || c.gain.unsigned_abs() > self.wide {
            6
        } else if c.at >= self.top {
            7
        } else if self.full(e, line, c) {
            8
        } else {
            0
        }
    }

    fn gone(&self, e: &mut Equaliser, line: &mut Line) {
        let before = *e;
        self.eq.restart(e);
        if !self.gap_drops_line {
            (e.line, e.filled) = (before.line, before.filled);
        }
        if !self.gap_drops_sums {
            (e.opened, e.sums) = (before.opened, before.sums);
        }
        if self.gap_drops_waiting {
            *line = self.start();
        }
    }

    /// "A corrected slot is aligned, five symbols late."
    pub fn push(&self, e: &mut Equaliser, line: &mut Line, c: &Corrected, words: &[Ones; 2]) -> (u8, Option<Aligned>) {
        match self.refusal(e, line, c, words) {
            0 => (0, self.taken(e, line, c, words)),
            refusal => (refusal, None),
        }
    }

    /// One that is taken.
    pub fn taken(&self, e: &mut Equaliser, line: &mut Line, c: &Corrected, words: &[Ones; 2]) -> Option<Aligned> {
        if self.gap(line, c.at) {
            self.gone(e, line);
        }
        let before = (!self.own_value || !self.trains_behind).then(|| *e);
        let z = self.eq.pushed(e, c.y).unwrap_or(if self.newest_value { c.y } else { [0; 2] });
        let z = if self.own_value { z } else { before.and_then(|e| self.eq.output(&e).1).unwrap_or(z) };
        line.last = Some(c.at);
        if (line.count as usize) < self.late {
            line.places[line.count as usize] = placed(c);
            line.count += 1;
            return None;
        }
        let oldest = line.places.remove(0);
        line.places.push(placed(c));
        self.train(e, before.filter(|_| !self.trains_behind), &oldest, c, words);
        let place = if self.own_place { oldest } else { placed(c) };
        Some(Aligned { place, z })
    }

    /// "With sums open, sync symbols train."
    fn train(
        &self,
        e: &mut Equaliser,
        before: Option<Equaliser>,
        oldest: &Corrected,
        c: &Corrected,
        words: &[Ones; 2],
    ) {
        if oldest.j >= self.sync || oldest.slot.is_none() && !self.unnumbered {
            return;
        }
        let mut word = if self.own_word { oldest.word } else { c.word };
        if word == Word::NotFsync && !self.negated {
            word = Word::Fsync;
        }
        let [f, s] = words;
        let words = if self.words_swapped { [*s, *f] } else { *words };
        let d = reference(word, usize::from(oldest.j) % 24, &words);
        let line = e.line;
        e.line = before.map_or(line, |e| e.line);
        self.eq.trained(e, d);
        e.line = line;
    }
}
