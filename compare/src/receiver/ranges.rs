//! docs/RANGES.md, the figures in brackets: whether a receiver's numbers are in range.

use super::model::Receiver;
use crate::eq::calls::Sums;
use crate::eq::model::upper;
use crate::phase::calls::{Corrected, Held};
use crate::sync::model::Stage;

const SLOT: u32 = 9_296;
pub const END: u64 = 1 << 62;
/// Trainings of sums: 24 in a slot, 19 in a stretch's first one, and none where they would pass 4,194,304.
pub const TRAININGS: i64 = 4_194_288;

/// Ends of ranges. A slip is another one.
#[derive(Clone, Copy)]
pub struct Ends {
    /// The sum of the carrier's differences.
    pub turned: [i64; 2],
    /// What angles are multiples of: the carrier's last one, and that of a held head.
    pub last_angle: u32,
    pub head_angle: u32,
    pub window: i16,
    pub peak: u32,
    pub sum: u64,
    /// A part of a correlation, in the slot sync and of a held head.
    pub part: i32,
    pub head_part: i32,
    pub amp: i64,
    /// Symbols of a held slot, at least.
    pub held: u32,
    pub last: u64,
    pub count: u32,
    /// Upper entries: on the diagonal; off it, both parts.
    pub square: i64,
    pub product: [i64; 2],
    pub turn: i64,
    pub right_hand: u64,
    pub k: u32,
}

pub const ENDS: Ends = Ends {
    turned: [-126_701_535_232, 126_701_535_114],
    last_angle: 2,
    head_angle: 2,
    window: 4_096,
    peak: 3_758_114_816,
    sum: 34_935_435_329_536,
    part: 98_328,
    head_part: 98_328,
    amp: 179_130,
    held: 1,
    last: END - 25,
    count: TRAININGS as u32,
    square: TRAININGS << 31,
    product: [-TRAININGS * ((1 << 31) - (1 << 16)), TRAININGS << 31],
    turn: TRAININGS * ((1 << 31) - (1 << 15)),
    right_hand: 199_010_845_458_432,
    k: 1 << 24,
};

fn small(c: [i32; 2], most: i32) -> bool {
    c.iter().all(|v| (-most..=most).contains(v))
}

fn known(slot: Option<(u8, u32)>) -> bool {
    slot.is_none_or(|(number, _)| number < 120)
}

impl Receiver {
    pub fn in_range(&self) -> bool {
        self.carrier_in_range()
            && self.sync_in_range()
            && self.phase.is_none_or(|x| self.held_in_range(&x))
            && self.waiting_in_range()
            && self.eq_in_range()
            && self.points.bits <= 5
            && self.points.k <= self.rules.ends.k
    }

    /// Angles are the CORDIC's, which are even.
    fn carrier_in_range(&self) -> bool {
        let ends = &self.rules.ends;
        let sums = ends.turned[0]..=ends.turned[1];
        let trail = self.nco.trail.as_ref();
        trail.is_none_or(|t| t.steps <= self.rules.phase.most && sums.contains(&t.sum) && t.last % ends.last_angle == 0)
    }

    fn sync_in_range(&self) -> bool {
        let (s, ends) = (&self.sync.state, &self.rules.ends);
        let stage = match s.stage {
            Stage::Before => true,
            Stage::First(r) => small(r.f, ends.part) && small(r.s, ends.part),
            Stage::Known { last, .. } => small(last, ends.part),
        };
        let window = s.window.iter().all(|v| (-ends.window..=ends.window).contains(v));
        s.in_range() && stage && s.peak <= ends.peak && s.sum <= ends.sum && window
    }

    fn held_in_range(&self, x: &Held) -> bool {
        let (h, ends) = (&x.head, &self.rules.ends);
        (46_480..=END - 24).contains(&h.at)
            && small(h.corr, ends.head_part)
            && (0..=ends.amp).contains(&h.amp)
            && known(h.slot)
            && h.nco_phase == 0
            && h.theta % ends.head_angle == 0
            && (ends.held..=SLOT).contains(&x.count)
    }

    /// None wait, or the last five of a slot do.
    fn waiting_in_range(&self) -> bool {
        let line = &self.line;
        let waits = |(k, p): (u64, &Corrected)| {
            u64::from(p.j) == 9_291 + k && (55_771 + k..=END - 29 + k).contains(&p.at) && known(p.slot)
        };
        let all = match line.count {
            0 => true,
            5 => (0..).zip(&line.places).all(waits),
            _ => false,
        };
        all && line.last.is_none_or(|at| (55_775..=self.rules.ends.last).contains(&at))
    }

    /// Slots come whole, so the line is empty or full. Sums that are not open are not looked at.
    fn eq_in_range(&self) -> bool {
        [0, 11].contains(&self.eq.filled) && (!self.eq.opened || self.sums_in_range(&self.eq.sums))
    }

    fn sums_in_range(&self, s: &Sums) -> bool {
        let ends = &self.rules.ends;
        let product = ends.product[0]..=ends.product[1];
        let in_range = |((r, c), v): ((usize, usize), &[i64])| {
            if r == c {
                (0..=ends.square).contains(&v[0]) && v[1] == 0
            } else {
                product.contains(&v[0]) && (-ends.turn..=ends.turn).contains(&v[1])
            }
        };
        s.count <= ends.count
            && upper().zip(s.r.chunks_exact(2)).all(in_range)
            && s.p.iter().all(|v| v.unsigned_abs() <= ends.right_hand)
    }
}
