//! The Rust's slot sync beside the model: as its files are while a sync comes from `new` and keeps its words, and with opened fields
//! (rust/handed_in.rs) where a state, words or accumulators were handed in.

use super::calls::{Answer, Event, Word};
use super::model::{Stage, State, SLOT};
use crate::seen::{self, numbers, text};
use isdbs3_phy::chain::sync::SyncStats;

pub trait Beside {
    fn push(&mut self, symbol: [i16; 2]) -> Answer;
    fn restart(&mut self, at: u64);
    /// All of its state.
    fn shown(&self) -> String;
}

/// Whether a state can be handed in to the Rust, which overflows where document 01 decides otherwise: at positions past 64 bits, a frame
/// record later than a head to come, and a marker counter at its end.
pub fn fits(s: &State) -> bool {
    let first_head = u128::from(s.base) + u128::from(s.t.max(23) - 23);
    let recorded = s.record.is_none_or(|(at, _)| u128::from(at) <= first_head);
    s.next() <= u64::MAX.into() && recorded && s.stray != u32::MAX && s.missed != u32::MAX
}

/// What the Rust's state shows besides the model's: the last period's statistics, and the last correlations with their accumulator.
#[derive(Clone, Copy, Default)]
pub struct More {
    stats: SyncStats,
    corr: ([i32; 2], [i32; 2], u32),
}

impl More {
    /// After an accepted push.
    pub fn note(&mut self, answer: &Answer) {
        self.corr = (answer.f, answer.s, answer.level);
        for event in &answer.events {
            match *event {
                Event::Period { peak, place, sum, locked, offset, parity, stray, missed } => {
                    self.stats = SyncStats {
                        peak,
                        peak_pos: place,
                        sum,
                        locked,
                        offset,
                        ssync_parity: parity,
                        stray_markers: stray,
                        missed_markers: missed,
                    }
                }
                Event::Lost { .. } => self.stats = SyncStats::default(),
                Event::Nothing | Event::Head { .. } => {}
            }
        }
    }
}

/// Every field of the Rust's state is what the model's state says. Of the heads since the lock the model keeps none, one, or which is next.
pub fn agree(shown: &str, s: &State, [f, w]: [&Word; 2], acc: &[u32], more: &More) {
    let head = s.t % 24;
    let win: [[i16; 2]; 48] = std::array::from_fn(|k| {
        let k = (k as u64 + 24 - head) as usize % 24;
        [s.window[2 * k], s.window[2 * k + 1]]
    });
    let period = SyncStats { peak: s.peak, peak_pos: s.place, sum: s.sum, ..SyncStats::default() };
    let (first, parity, last) = match s.stage {
        Stage::Before => (None, None, None),
        Stage::First(r) => (Some((r.at, r.f, r.s)), None, None),
        Stage::Known { odd, last, .. } => (None, Some(u8::from(odd)), Some(last)),
    };
    let (stray_markers, missed_markers) = (s.stray, s.missed);
    let stats = SyncStats { ssync_parity: parity.unwrap_or(0), stray_markers, missed_markers, ..more.stats };
    let model = vec![
        numbers("fs", f),
        numbers("ss", w),
        numbers("win", win.as_flattened()),
        text("head", head),
        text("pos", (s.t.max(23) - 23) % SLOT),
        text("t", s.t),
        text("base", s.base),
        numbers("acc", acc),
        text("period", period),
        text("stats", stats),
        text("state", s.lock),
        text("first", first),
        text("parity", parity),
        text("last_ss", last),
        text("majority", s.majority),
        text("number", s.slot.map(|s| s.0)),
        text("frame", s.slot.map(|s| s.1)),
        text("last_frame_at", s.record),
        text("misses", s.misses),
        text("last_corr", more.corr),
    ];
    let [heads] = seen::agree(shown, model, ["heads"]).map(|text| text.parse::<u64>().expect("a number"));
    let fits = match s.stage {
        Stage::Before => heads == 0,
        Stage::First(_) => heads == 1,
        Stage::Known { odd, due, .. } => heads >= 2 && (heads % 2 == u64::from(odd)) == due,
    };
    assert!(fits, "THE MODEL IS WRONG: {:?}\nthe Rust: {heads} heads", s.stage);
}
