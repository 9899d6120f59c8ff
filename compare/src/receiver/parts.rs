//! The parts of a receiver as numbers of a call that replaces one, and of an answer that tells it. README.md has the list.

use super::model::{Points, Receiver};
use crate::frame::calls::PLACE;
use crate::frame::model::{Line, NOWHERE};
use crate::phase::calls::{phase_fields, Field, Fields, Numbers, Row, NCO};
use crate::sync::calls::digest;
use crate::sync::model::{Lock, Reading, Stage, State};

#[derive(Clone, Copy, PartialEq, Eq, Debug)]
pub enum Part {
    Nco,
    Phase,
    Run,
    Heads,
    Window,
    /// One of the five, with their count and the last position.
    Waiting(u64),
    Points,
}

pub const PARTS: [Part; 11] = [
    Part::Nco,
    Part::Phase,
    Part::Run,
    Part::Heads,
    Part::Window,
    Part::Waiting(0),
    Part::Waiting(1),
    Part::Waiting(2),
    Part::Waiting(3),
    Part::Waiting(4),
    Part::Points,
];

/// The first to the fourth of those that wait, otherwise the fifth.
const WHICH: Field = Field::Choice(4);

fn put_run(row: &mut Row, s: &State) {
    let (locked, place, count) = match s.lock {
        Lock::Search { cand, count } => (0, cand, count),
        Lock::Locked { offset, misses } => (1, offset, misses),
    };
    row.all([s.base, s.t, s.peak.into(), s.place.into(), s.sum, locked, place.into(), count.into()]);
}

fn run(f: &mut Fields, s: &mut State) {
    (s.base, s.t) = (f.get(), f.get());
    (s.peak, s.place, s.sum) = (f.get() as u32, f.get() as u16, f.get());
    let (locked, place, count) = (f.flag(), f.get() as u16, f.get() as u32);
    s.lock = if locked { Lock::Locked { offset: place, misses: count } } else { Lock::Search { cand: place, count } };
}

fn put_heads(row: &mut Row, s: &State) {
    match s.stage {
        Stage::Before => row.all([0; 6]),
        Stage::First(Reading { at, f, s }) => {
            row.all([1, at]);
            [f, s].iter().for_each(|&c| row.corr(c));
        }
        Stage::Known { odd, due, last } => {
            row.all([2, odd.into(), due.into()]);
            row.corr(last);
            row.put(0);
        }
    }
    row.put(i64::from(s.majority) as u64);
    row.slot(s.slot);
    let (at, frame) = s.record.unwrap_or((0, 0));
    row.all([s.record.is_some().into(), at, frame.into()]);
    row.all([s.misses, s.stray, s.missed].map(u64::from));
}

fn heads(f: &mut Fields, s: &mut State) {
    let stage = f.get();
    let numbers = [0; 5].map(|_: u64| f.get());
    let corr = |from: usize| [numbers[from] as i32, numbers[from + 1] as i32];
    s.stage = match stage {
        0 => Stage::Before,
        1 => Stage::First(Reading { at: numbers[0], f: corr(1), s: corr(3) }),
        _ => Stage::Known { odd: numbers[0] != 0, due: numbers[1] != 0, last: corr(2) },
    };
    s.majority = f.get() as i32;
    s.slot = f.slot();
    let (known, at, frame) = (f.flag(), f.get(), f.get() as u32);
    s.record = known.then_some((at, frame));
    (s.misses, s.stray, s.missed) = (f.get() as u32, f.get() as u32, f.get() as u32);
}

fn put_waiting(row: &mut Row, line: &Line, which: u64) {
    row.all([line.count.into(), line.last.is_some().into(), line.last.unwrap_or(0), which]);
    row.place(line.places.get(which.min(4) as usize).unwrap_or(&NOWHERE));
}

fn waiting(f: &mut Fields, line: &mut Line) {
    line.count = f.get() as u32;
    let (known, at, which) = (f.flag(), f.get(), f.get());
    line.last = known.then_some(at);
    if let Some(place) = line.places.get_mut(which.min(4) as usize) {
        *place = f.place();
    }
}

impl Part {
    /// The call that tells it; the next one replaces it.
    pub fn op(self) -> u64 {
        match self {
            Part::Nco => 32,
            Part::Phase => 34,
            Part::Run => 36,
            Part::Heads => 38,
            Part::Window => 40,
            Part::Waiting(_) => 42,
            Part::Points => 44,
        }
    }

    /// That of a call, by its number; one of those that wait is named by another number of the call.
    pub fn of_call(n: &Numbers) -> Option<Self> {
        let named = |part: &Part| (part.op() ^ n[0]) <= 1;
        let part = *PARTS.iter().find(|part| named(part))?;
        Some(if part.op() == 42 { Part::Waiting(n[4]) } else { part })
    }

    /// The call that makes it what it is in this receiver.
    pub fn put(self, r: &Receiver) -> Numbers {
        let mut row = Row::new(self.op() + 1);
        match self {
            Part::Nco => row.nco(&r.nco),
            Part::Phase => row.phase(&r.phase),
            Part::Run => put_run(&mut row, &r.sync.state),
            Part::Heads => put_heads(&mut row, &r.sync.state),
            Part::Window => row.sixteens(&r.sync.state.window),
            Part::Waiting(which) => put_waiting(&mut row, &r.line, which),
            Part::Points => {
                row.all([r.points.bits.into(), r.points.k.into(), 0]);
                row.sixteens(&r.points.points);
            }
        }
        row.numbers
    }

    /// What such a call leaves.
    pub fn replace(self, call: &Numbers, r: &mut Receiver) {
        let (mut f, state) = (Fields::of_call(call), &mut r.sync.state);
        match self {
            Part::Nco => r.nco = f.nco(),
            Part::Phase => r.phase = f.phase(),
            Part::Run => run(&mut f, state),
            Part::Heads => heads(&mut f, state),
            Part::Window => state.window = f.sixteens(),
            Part::Waiting(_) => waiting(&mut f, &mut r.line),
            Part::Points => {
                let (bits, k, _) = (f.get() as u8, f.get() as u32, f.get());
                r.points = Points { bits, k, points: f.sixteens() };
            }
        }
    }

    /// Of window and points a digest is told.
    pub fn told(self, r: &Receiver) -> Numbers {
        let mut told = self.put(r);
        told[0] = 0;
        match self {
            Part::Window => {
                told = [0; 24];
                told[1] = digest(r.sync.state.window);
            }
            Part::Points => {
                told[3..].fill(0);
                told[3] = digest(r.points.points);
            }
            Part::Waiting(_) => told[4] = 0,
            _ => {}
        }
        told
    }

    /// What each number of a call that tells it is read as.
    pub(crate) fn told_fields(self) -> Vec<Field> {
        match self {
            Part::Waiting(_) => vec![Field::Unread, Field::Unread, Field::Unread, WHICH],
            _ => vec![],
        }
    }

    /// .. and of one that replaces it.
    pub(crate) fn put_fields(self, call: &Numbers) -> Vec<Field> {
        use Field::{Bits, Choice, Flag, Unread};
        match self {
            Part::Nco => NCO.to_vec(),
            Part::Phase => phase_fields(),
            Part::Run => vec![Bits(64), Bits(64), Bits(32), Bits(16), Bits(64), Flag, Bits(16), Bits(32)],
            Part::Heads => {
                let stage = match call[1] {
                    0 => [Unread; 5],
                    1 => [Bits(64), Bits(32), Bits(32), Bits(32), Bits(32)],
                    _ => [Flag, Flag, Bits(32), Bits(32), Unread],
                };
                let rest = [Bits(32), Flag, Bits(8), Bits(32), Flag, Bits(64), Bits(32)];
                [&[Choice(2)][..], &stage, &rest, &[Bits(32); 3]].concat()
            }
            Part::Window => vec![Bits(64); 12],
            Part::Waiting(_) => [&[Bits(32), Flag, Bits(64), WHICH][..], &PLACE].concat(),
            Part::Points => [&[Bits(8), Bits(32), Unread][..], &[Bits(64); 16]].concat(),
        }
    }
}
