//! `Back` of the Rust with opened fields: an alignment in any state, in which a frame is open that has a layout, so that sync symbols train.
//!
//! Document 01 trains on the sync symbols of any slot and on no pilots. `Back` trains on sync symbols and pilots of the open frame, keeps what
//! came out for that frame alone, and takes slots 0 to 119. So a symbol that both would treat in another way goes in with another slot.

use super::eq::sums_of;
use super::handed_in::equaliser;
use super::phase::{corrected, given};
use super::phy::chain::frame::{part, Back, BackEvent, Part};
use super::phy::chain::ldpc::FixedLdpc;
use super::phy::chain::sync::SyncStats;
use crate::eq::beside::Beside;
use crate::eq::calls::Equaliser;
use crate::eq::model::{no_sums, RULES as EQ_RULES};
use crate::frame::calls::{placed, Ones};
use crate::frame::model::{Line, NOWHERE};
use crate::phase::calls::{Corrected, Word};
use crate::sync::calls::pairs;

/// The number of the open frame.
pub const OPEN: u32 = 1;

/// Whether `Back` takes a symbol of this slot for one of the open frame, neither its first nor its last.
fn of_open_frame(c: &Corrected) -> bool {
    let last = c.slot == Some((119, OPEN)) && c.j == 9_295;
    c.slot.is_some_and(|(number, frame)| frame == OPEN && (1..120).contains(&number)) && !last
}

/// The symbol as `Back` is given it: a sync symbol as one of the open frame, a pilot without a slot, and any other as it is unless its slot is
/// one of the open frame's that `Back` has another use for.
pub fn as_given(c: &Corrected) -> Corrected {
    let in_frame = c.slot.is_some_and(|(_, frame)| frame == OPEN);
    let slot = match part(c.j.into()) {
        Part::Pilot(_) => None,
        _ if of_open_frame(c) => c.slot,
        Part::Main(_) | Part::Tmcc(_) if !in_frame => c.slot,
        _ => Some((1, OPEN)),
    };
    Corrected { slot, ..*c }
}

pub struct Aligner {
    back: Back,
}

impl Aligner {
    pub fn new() -> Self {
        let mut aligner = Self { back: Back::new(1, 0, Box::new(FixedLdpc::new())) };
        aligner.open_frame();
        aligner
    }

    /// Of the layout no more is asked than that it is there; open sums stay as they are.
    fn open_frame(&mut self) {
        let sums = self.back.eq.acc.take();
        self.back.layouts.insert(OPEN, (0, Vec::new()));
        self.back.start(OPEN, 0);
        self.back.eq.acc = sums;
    }

    pub fn hand_in(&mut self, e: &Equaliser, line: &Line, [f, s]: &[Ones; 2]) {
        let back = &mut self.back;
        (back.fs, back.ss) = (pairs(f), pairs(s));
        back.eq = equaliser(e);
        back.metas = line.places[..line.count as usize].iter().map(|c| given(&as_given(c))).collect();
        back.last_at = line.last;
    }

    /// A frame that was dropped is opened again, so that what follows is seen too.
    fn open_again(&mut self, told: &[BackEvent]) {
        let dropped = |e: &BackEvent| matches!(e, BackEvent::Dropped { frame: OPEN });
        assert!(told.iter().all(dropped) && told.len() <= 1, "a frame dropped, or nothing");
        if !told.is_empty() {
            self.open_frame();
        }
    }

    /// What came out for the open frame.
    pub fn push(&mut self, c: &Corrected) -> Option<[i16; 2]> {
        let mut told = Vec::new();
        let cur = self.back.cur.as_mut().expect("a frame open");
        cur.z = Some(Vec::with_capacity(1));
        self.back.push(given(&as_given(c)), &|| (SyncStats::default(), 0, 0), &mut told);
        let out = self.back.cur.as_ref().and_then(|cur| cur.z.as_ref()?.first().copied());
        self.open_again(&told);
        out
    }

    /// Whether a push lets this symbol's value be seen.
    pub fn shows(c: &Corrected) -> bool {
        of_open_frame(&as_given(c))
    }

    pub fn restart(&mut self) {
        let mut told = Vec::new();
        self.back.restart(&mut told);
        self.open_again(&told);
    }

    pub fn eq(&mut self) -> &mut dyn Beside {
        &mut self.back.eq
    }

    /// The symbols that wait, of which the place is kept, and the last position.
    pub fn waiting(&self) -> (Vec<Corrected>, Option<u64>) {
        (self.back.metas.iter().map(|c| placed(&corrected(c))).collect(), self.back.last_at)
    }

    /// What sync symbol k is trained against: a line in which the newest symbol is 1 and all others are 0 leaves it in the first right-hand entry.
    pub fn reference(&mut self, word: Word, k: u16, words: &[Ones; 2]) -> [i64; 2] {
        let mut e = Equaliser { filled: 11, opened: true, sums: no_sums(OPEN), ..EQ_RULES.start() };
        e.line[0] = 1;
        self.hand_in(&e, &Line { places: Vec::new(), count: 0, last: None }, words);
        let symbol = given(&Corrected { word, slot: Some((1, OPEN)), j: k, ..NOWHERE });
        self.back.symbol(&symbol, [0; 2], &|| (SyncStats::default(), 0, 0), &mut Vec::new());
        let sums = sums_of(&self.back.eq.close().expect("open sums"));
        assert_eq!(sums.count, 1, "a training");
        [sums.p[0], sums.p[1]]
    }
}
