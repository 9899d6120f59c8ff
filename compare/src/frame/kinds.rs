//! The calls, by kind.

use super::calls::{Call, Ones};
use super::model::{LATE, RULES, TOP, WIDE};
use super::player::{Player, FRAME};
use super::PLACES;
use crate::eq::calls::Call as EqCall;
use crate::eq::kinds::{any_frame, any_state, any_symbol, any_taps};
use crate::eq::model::LIMIT;
use crate::inputs::{pick, times, Random, Size};
use crate::opened::back::OPEN;
use crate::phase::calls::{Corrected, Word};
use crate::stage::Least;
use std::ops::Range;

pub struct Kind {
    pub name: &'static str,
    pub play: fn(&mut Player, &mut Random, Size),
    pub least: Least,
}

pub const KINDS: [Kind; 10] = [
    Kind {
        name: "first symbols",
        play: first_symbols,
        least: &[
            ("by the Rust", 0),
            ("by the Rust, opened", 24_000),
            ("values by the Rust, opened", 7_600),
            ("looks at its state", 4_900),
        ],
    },
    Kind {
        name: "gaps",
        play: gaps,
        least: &[
            ("by the Rust", 10_000),
            ("drops", 1_000),
            ("pushes without a drop", 8_700),
            ("loads", 360),
            ("looks at its state", 970),
        ],
    },
    Kind {
        name: "words",
        play: words,
        least: &[
            ("by the Rust", 0),
            ("by the Rust, opened", 380),
            ("values by the Rust, opened", 80),
            ("looks at its state", 76),
            ("refused 2", 140),
        ],
    },
    Kind {
        name: "limits",
        play: limits,
        least: &[
            ("by the Rust", 0),
            ("by the Rust, opened", 1_000),
            ("values by the Rust, opened", 170),
            ("looks at its state", 200),
            ("refused 6", 1_400),
            ("refused 7", 400),
        ],
    },
    Kind {
        name: "counts",
        play: counts,
        least: &[
            ("by the Rust", 0),
            ("by the Rust, opened", 2_600),
            ("values by the Rust, opened", 1_400),
            ("looks at its state", 530),
            ("refused 6", 40),
            ("refused 7", 40),
            ("refused 8", 80),
        ],
    },
    Kind {
        name: "states handed in",
        play: states_handed_in,
        least: &[
            ("by the Rust", 0),
            ("by the Rust, opened", 6_600),
            ("values by the Rust, opened", 2_400),
            ("looks at its state", 1_300),
            ("refused 6", 7_600),
            ("refused 8", 280),
        ],
    },
    Kind {
        name: "calls at random",
        play: at_random,
        least: &[
            ("by the Rust", 0),
            ("by the Rust, opened", 189_000),
            ("values by the Rust, opened", 59_000),
            ("looks at its state", 37_000),
            ("refused 7", 2_800),
        ],
    },
    Kind {
        name: "no such call",
        play: unknown,
        least: &[
            ("by the Rust", 0),
            ("by the Rust, opened", 500),
            ("values by the Rust, opened", 160),
            ("looks at its state", 100),
            ("refused 255", 200),
        ],
    },
    Kind {
        name: "whole frames",
        play: frames,
        least: &[
            ("by the Rust", 2_200_000),
            ("sums", 1),
            ("drops", 1),
            ("pushes without a drop", 1_100_000),
            ("loads", 11),
            ("looks at its state", 36_000),
        ],
    },
    Kind {
        name: "states in Back",
        play: states_in_back,
        least: &[
            ("by the Rust", 0),
            ("by the Rust, opened", 16_000),
            ("values by the Rust, opened", 6_300),
            ("looks at its state", 3_300),
            ("refused 6", 3_900),
            ("refused 8", 110),
        ],
    },
];

// ---- symbols

/// Entries that no word has.
pub(crate) const NO_ONES: [i8; 6] = [0, 2, -2, 127, -128, 3];

fn any_word(r: &mut Random) -> Word {
    pick(r, &[Word::Ssync, Word::Fsync, Word::NotFsync])
}

pub(crate) fn any_words(r: &mut Random) -> [Ones; 2] {
    [[0; 48]; 2].map(|ones: Ones| ones.map(|_| pick(r, &[-1, 1])))
}

fn any_slot(r: &mut Random) -> Option<(u8, u32)> {
    (r.below(3) != 0).then(|| (r.next() as u8, any_frame(r)))
}

/// Often a sync symbol.
fn any_place(r: &mut Random) -> u16 {
    match r.below(4) {
        0 => pick(r, &[0, 23, 24, 55, 56, 9_291, 9_295]),
        1 => r.below(PLACES as u64) as u16,
        _ => r.below(24) as u16,
    }
}

fn any_corrected(r: &mut Random, at: u64) -> Corrected {
    let gain = match r.below(3) {
        0 => pick(r, &[-(WIDE as i64), 0, WIDE as i64]),
        _ => r.signed(60),
    };
    Corrected {
        at,
        word: any_word(r),
        slot: any_slot(r),
        j: any_place(r),
        r: any_symbol(r),
        phi: r.next() as u32,
        gain,
        y: any_symbol(r),
    }
}

fn any_position(r: &mut Random) -> u64 {
    match r.below(4) {
        0 => pick(r, &[0, 1, TOP - 40, TOP - 17]),
        _ => r.positive(62) as u64 % (TOP - 40),
    }
}

/// The position that follows.
fn next_at(p: &Player) -> u64 {
    p.desk().line.last.map_or(0, |last| last.wrapping_add(1))
}

fn start(p: &mut Player, r: &mut Random) {
    p.refused(Call::Words(any_words(r)), 0);
    p.refused(Call::New, 0);
}

fn push_on(p: &mut Player, r: &mut Random, n: u64) {
    for _ in 0..n {
        let c = any_corrected(r, next_at(p));
        p.refused(Call::Push(c), 0);
    }
}

// ---- kinds

/// From a start on: what comes out, and when. A restart in between, before and behind the sixth symbol.
fn first_symbols(p: &mut Player, r: &mut Random, size: Size) {
    for turn in 0..times(size, [4, 2_000, 60_000]) {
        start(p, r);
        let from = any_position(r);
        if turn % 2 == 0 {
            p.refused(Call::Eq(EqCall::Load { frame: any_frame(r), taps: any_taps(r) }), 0);
        }
        if turn % 3 != 0 {
            p.refused(Call::Eq(EqCall::Open { frame: any_frame(r) }), 0);
        }
        for n in 0..16 {
            let c = any_corrected(r, from + n);
            let out = p.ask(Call::Push(c)).out;
            assert_eq!(out.is_some(), n >= LATE as u64, "five late");
            if let Some(out) = out {
                assert_eq!(out.place.at, from + n - LATE as u64);
            }
        }
        p.refused(Call::Eq(EqCall::Close), 0);
        p.refused(Call::Restart, 0);
        let on = r.below(12) as u64;
        push_on(p, r, on);
    }
}

/// Short stretches with a frame open in the Rust, which a gap drops: a position too far, the last again, a lower one. Behind
/// each the head of a frame, so that the Rust has one to drop.
fn gaps(p: &mut Player, r: &mut Random, size: Size) {
    for turn in 0..times(size, [16, 3_000, 100_000]) {
        if turn % 16 == 0 {
            p.beside(any_words(r), false);
        }
        let mut at = 20_000 + r.positive(61) as u64;
        let frame = r.below(1 << 20) as u32;
        p.refused(Call::Eq(EqCall::Open { frame }), 0);
        for n in 0..6 + r.below(30) as u64 {
            let mut c = any_corrected(r, at);
            (c.slot, c.j) = (Some((r.below(120) as u8, frame)), if n == 0 { 0 } else { c.j.max(1) });
            if n == 0 {
                c.slot = Some((0, frame));
            }
            p.refused(Call::Push(c), 0);
            at = match r.below(80) {
                0 => at,
                1 => at - 1,
                2 => at - 1 - r.positive(9) as u64,
                3 => at + 2,
                4 => at + 2 + r.positive(40) as u64,
                _ => at + 1,
            };
        }
        match r.below(4) {
            0 => p.refused(Call::Restart, 0),
            1 => p.refused(Call::Eq(EqCall::Close), 0),
            2 => p.refused(Call::Eq(EqCall::Load { frame, taps: any_taps(r) }), 0),
            _ => {}
        }
    }
}

/// Words with an entry that is neither 1 nor -1: 2, and before any other refusal.
fn words(p: &mut Player, r: &mut Random, size: Size) {
    let step = if size == Size::Sample { 19 } else { 1 };
    for k in (0..96).step_by(step) {
        start(p, r);
        push_on(p, r, 7);
        let good = p.desk().words;
        let mut bad = good;
        bad.as_flattened_mut()[k] = pick(r, &NO_ONES);
        p.refused(Call::Words(bad), 0);
        let c = any_corrected(r, next_at(p));
        p.refused(Call::Push(c), 2);
        p.refused(Call::Push(Corrected { at: TOP, ..c }), 2);
        p.refused(Call::Push(Corrected { j: 9_296, ..c }), 2);
        p.refused(Call::Words(good), 0);
        p.refused(Call::Push(c), 0);
    }
}

/// Slot index, gain and position at their limits and past them, and which refusal comes first.
fn limits(p: &mut Player, r: &mut Random, size: Size) {
    for _ in 0..times(size, [2, 200, 5_000]) {
        start(p, r);
        p.refused(Call::Eq(EqCall::Open { frame: 1 }), 0);
        let on = r.below(14) as u64;
        push_on(p, r, on);
        let c = any_corrected(r, next_at(p));
        for j in [9_296, 9_297, u16::MAX] {
            p.refused(Call::Push(Corrected { j, ..c }), 6);
            p.refused(Call::Push(Corrected { j, at: TOP, ..c }), 6);
        }
        for gain in [WIDE as i64 + 1, -(WIDE as i64) - 1, i64::MAX, i64::MIN] {
            p.refused(Call::Push(Corrected { gain, ..c }), 6);
            p.refused(Call::Push(Corrected { gain, at: u64::MAX, ..c }), 6);
        }
        for at in [TOP, TOP + 1, u64::MAX] {
            p.refused(Call::Push(Corrected { at, ..c }), 7);
        }
        p.refused(Call::Push(Corrected { j: 9_295, ..c }), 0);
        p.refused(Call::Push(Corrected { at: TOP - 1, ..c }), 0);
        p.refused(Call::Push(Corrected { at: TOP, ..c }), 7);
        p.refused(Call::Push(Corrected { at: TOP - 1, ..c }), 0);
    }
}

/// So many sync symbols from a start with sums open, whose count is then another; they may be closed.
fn counted(p: &mut Player, r: &mut Random, symbols: i64, count: u32, opened: bool) {
    start(p, r);
    p.refused(Call::Eq(EqCall::Open { frame: 7 }), 0);
    for _ in 0..symbols {
        let c = Corrected { j: r.below(24) as u16, ..any_corrected(r, next_at(p)) };
        p.refused(Call::Push(c), 0);
    }
    let (filled, from) = (p.eq().filled, p.eq().from);
    p.refused(Call::Eq(EqCall::PutNumbers { filled, from, opened, frame: 7, count }), 0);
}

/// A full count is refused where a training would be added, and only there: an aligned sync symbol, sums open, eleven in the
/// line, no gap.
fn counts(p: &mut Player, r: &mut Random, size: Size) {
    for turn in 0..times(size, [10, 400, 10_000]) {
        let symbols = if turn % 5 == 3 { 6 + r.below(4) } else { 10 + r.below(6) };
        counted(p, r, symbols, if turn % 5 == 4 { LIMIT - 1 } else { LIMIT }, turn % 5 != 1);
        let c = any_corrected(r, next_at(p));
        match turn % 5 {
            0 => {
                p.refused(Call::Push(c), 8);
                p.refused(Call::Push(Corrected { at: TOP, ..c }), 7);
                p.refused(Call::Push(Corrected { j: 9_296, ..c }), 6);
                // a gap drops the sums
                p.refused(Call::Push(Corrected { at: c.at + 1, ..c }), 0);
            }
            // no sums open; ten in the line, with this one
            1 | 3 => p.refused(Call::Push(c), 0),
            // no sync symbol
            2 => {
                for place in p.desk().line.places.clone() {
                    p.refused(Call::MoveUp(Corrected { j: 24 + place.j, ..place }), 0);
                }
                p.refused(Call::Push(c), 0);
            }
            // one more has room
            _ => {
                p.refused(Call::Push(c), 0);
                p.refused(Call::Push(any_corrected(r, c.at + 1)), 8);
            }
        }
    }
}

fn hand_in(p: &mut Player, r: &mut Random) {
    let e = any_state(r);
    for call in [
        EqCall::PutLine { line: e.line },
        EqCall::PutTaps { taps: e.taps },
        EqCall::PutNumbers { filled: e.filled, from: e.from, opened: e.opened, frame: 3, count: e.sums.count },
    ] {
        p.refused(Call::Eq(call), 0);
    }
    for k in 0..5 {
        let at = if r.below(8) == 0 { k } else { any_position(r).max(k) };
        p.refused(Call::MoveUp(any_corrected(r, at)), 0);
    }
    let last = (r.below(4) != 0).then(|| any_position(r));
    p.refused(Call::Line { count: r.below(6) as u32, last }, 0);
}

/// Any state in range, and then one number out of it: a state refused comes back as it is. Among them five that wait before a
/// line too short for an output, which gives the newest symbol's y.
fn states_handed_in(p: &mut Player, r: &mut Random, size: Size) {
    for turn in 0..times(size, [24, 6_000, 150_000]) {
        start(p, r);
        hand_in(p, r);
        assert!(RULES.in_range(p.eq(), &p.desk().line));
        let c = any_corrected(r, next_at(p));
        if turn % 3 == 0 {
            p.ask(Call::Push(c));
            for _ in 0..8 {
                let c = any_corrected(r, next_at(p));
                p.ask(Call::Push(c));
            }
            continue;
        }
        out_of_range(p, r, turn / 3);
        if RULES.in_range(p.eq(), &p.desk().line) {
            p.refused(Call::Restart, 0);
            continue;
        }
        p.refused(Call::Push(c), 6);
        p.refused(Call::Push(Corrected { at: TOP, ..c }), 6);
        p.refused(Call::Restart, 6);
    }
}

/// A symbol that `Back` takes as it is: of the frame that is open there and no pilot, or one of any slot that neither trains nor shows its
/// value.
fn taken_as_it_is(r: &mut Random, at: u64) -> Corrected {
    let c = any_corrected(r, at);
    let main = 56 + r.below(9_240) as u16;
    match r.below(6) {
        0 => Corrected { slot: c.slot.filter(|(_, frame)| *frame != OPEN), j: main, ..c },
        1 | 2 => Corrected { slot: Some((1 + r.below(118) as u8, OPEN)), j: main, ..c },
        _ => Corrected { slot: Some((1 + r.below(119) as u8, OPEN)), j: r.below(24) as u16, ..c },
    }
}

/// Any state in range with such symbols, and sums of any entries; then pushes, with a gap or another call between.
fn states_in_back(p: &mut Player, r: &mut Random, size: Size) {
    for _ in 0..times(size, [0, 3_000, 100_000]) {
        start(p, r);
        for put in EqCall::puts(p.eq(), &any_state(r)) {
            p.refused(Call::Eq(put), 0);
        }
        for k in 0..5 {
            let at = any_position(r).max(k);
            p.refused(Call::MoveUp(taken_as_it_is(r, at)), 0);
        }
        let last = (r.below(4) != 0).then(|| any_position(r));
        p.refused(Call::Line { count: 5 - r.positive(2) as u32, last }, 0);
        for _ in 0..14 {
            // as far on as those that wait would stand by now
            let next = next_at(p).max(9);
            let gap = pick(r, &[next + 1, next.saturating_sub(1), next / 2]);
            let call = match r.below(24) {
                0 => Call::Restart,
                1 => Call::Eq(EqCall::Open { frame: any_frame(r) }),
                2 => Call::Eq(EqCall::Load { frame: any_frame(r), taps: any_taps(r) }),
                3 => Call::Eq(EqCall::Close),
                4 => Call::Push(taken_as_it_is(r, gap)),
                _ => Call::Push(taken_as_it_is(r, next)),
            };
            let in_range = RULES.in_range(p.eq(), &p.desk().line);
            let refusal = p.ask(call).refusal;
            // a training may have led a sum out of its range
            let full = refusal == 8 && p.eq().sums.count == LIMIT;
            assert!(if in_range { refusal == 0 || full } else { refusal == 6 }, "{refusal}: {call:?}");
        }
    }
}

/// One number of what is kept past its range; or of a place behind those that wait, which is not looked at.
fn out_of_range(p: &mut Player, r: &mut Random, turn: u64) {
    let line = p.desk().line.clone();
    let e = *p.eq();
    match turn % 5 {
        0 => p.refused(Call::Line { count: pick(r, &[6, 7, u32::MAX]), last: line.last }, 0),
        1 => p.refused(Call::Line { count: line.count, last: Some(pick(r, &[TOP, TOP + 1, u64::MAX])) }, 0),
        2 => {
            let (from, count) = (e.from, e.sums.count);
            let filled = pick(r, &[12, u32::MAX]);
            p.refused(Call::Eq(EqCall::PutNumbers { filled, from, opened: e.opened, frame: 0, count }), 0);
        }
        3 => {
            let filled = e.filled;
            let call = EqCall::PutNumbers { filled, from: None, opened: true, frame: 0, count: LIMIT + 1 };
            p.refused(Call::Eq(call), 0);
        }
        _ => {
            let wrong = r.below(5) as usize;
            for (k, place) in line.places.iter().enumerate() {
                let bad = match r.below(3) {
                    0 => (TOP, place.j),
                    1 if k > 0 => (k as u64 - 1, place.j),
                    _ => (place.at, 9_296),
                };
                let (at, j) = if k == wrong { bad } else { (place.at, place.j) };
                p.refused(Call::MoveUp(Corrected { at, j, ..*place }), 0);
            }
        }
    }
}

/// Pushes, mostly one after the other, with calls of both kinds between: a restart of the field `eq` alone among them.
fn at_random(p: &mut Player, r: &mut Random, size: Size) {
    start(p, r);
    for _ in 0..times(size, [250, 400_000, 12_000_000]) {
        let at = match r.below(40) {
            0 => any_position(r),
            1 => p.desk().line.last.unwrap_or(9),
            2 => p.desk().line.last.unwrap_or(9).saturating_sub(r.positive(3) as u64),
            _ => next_at(p),
        };
        let call = match r.below(60) {
            0 => Call::Restart,
            1 => Call::Eq(EqCall::Restart),
            2 | 3 => Call::Eq(EqCall::Open { frame: any_frame(r) }),
            4 | 5 => Call::Eq(EqCall::Close),
            6 | 7 => Call::Eq(EqCall::Load { frame: any_frame(r), taps: any_taps(r) }),
            8 => Call::Words(any_words(r)),
            9 => Call::Eq(EqCall::Tell),
            _ => Call::Push(any_corrected(r, at)),
        };
        p.ask(call);
    }
}

fn unknown(p: &mut Player, r: &mut Random, size: Size) {
    for turn in 0..times(size, [8, 400, 4_000]) {
        if turn % 4 == 0 {
            start(p, r);
            let on = r.below(14) as u64;
            push_on(p, r, on);
        }
        let mut call = [0; 24].map(|_: u64| r.next());
        call[0] = if r.below(2) == 0 { 22 + r.below(300) as u64 } else { call[0].max(22) };
        p.unknown(call);
        push_on(p, r, 1);
    }
}

// ---- whole frames

/// Symbol n of a frame. Slots in order, or places in any order: no more than the first and the last have then to stand where
/// they do. Often a sync symbol; each has its own word.
fn symbol(r: &mut Random, n: usize, frame: u32, in_order: bool, at: u64) -> Corrected {
    let mut c = any_corrected(r, at);
    let (number, j) = match n {
        _ if in_order => (n / PLACES, n % PLACES),
        0 => (0, 0),
        n if n == FRAME - 1 => (119, PLACES - 1),
        _ => (r.below(119) as usize, usize::from(c.j.max(1))),
    };
    (c.slot, c.j) = (Some((number as u8, frame)), j as u16);
    if r.below(4) == 0 {
        c.y = c.y.map(|v| v % 2_048);
    }
    c
}

/// Some of its symbols; where the Rust does not solve, taps are loaded now and then.
fn part_of_frame(p: &mut Player, r: &mut Random, symbols: Range<usize>, frame: u32, in_order: bool) {
    for n in symbols {
        if !p.solves() && r.below(1 << 16) == 0 {
            p.refused(Call::Eq(EqCall::Load { frame: any_frame(r), taps: any_taps(r) }), 0);
        }
        let c = symbol(r, n, frame, in_order, next_at(p));
        p.refused(Call::Push(c), 0);
    }
}

/// The first symbol of what follows does not follow the last one: it is the last again, or lower.
fn gap(p: &mut Player, r: &mut Random, frame: u32) {
    let at = next_at(p) - 1 - r.positive(2) as u64;
    p.refused(Call::Push(symbol(r, 0, frame, true, at)), 0);
}

/// A whole frame behind a start or a gap, without a layout; one with it, in which sums are compared too; a part of a third.
fn frames(p: &mut Player, r: &mut Random, size: Size) {
    for turn in 0..times(size, [0, 1, 12]) {
        p.beside(any_words(r), false);
        p.refused(Call::Eq(EqCall::Load { frame: 1, taps: any_taps(r) }), 0);
        let frame = r.below(1 << 20) as u32;
        if turn % 2 == 0 {
            part_of_frame(p, r, 0..40, frame, true);
            gap(p, r, frame);
            part_of_frame(p, r, 1..FRAME, frame, turn % 4 == 0);
        } else {
            part_of_frame(p, r, 0..FRAME, frame, turn % 4 == 1);
        }
        part_of_frame(p, r, 0..FRAME, frame + 1, turn % 4 > 1);
        part_of_frame(p, r, 0..20_000, frame + 2, turn % 3 == 0);
        gap(p, r, frame + 2);
        p.refused(Call::Restart, 0);
    }
    (0..times(size, [0, 0, 2])).for_each(|_| solved_frames(p, r));
}

/// The Rust solves the sums and loads the taps two frames later; the port is given them then.
fn solved_frames(p: &mut Player, r: &mut Random) {
    p.beside(any_words(r), true);
    for frame in 0..7 {
        part_of_frame(p, r, 0..FRAME, frame, frame % 2 == 0);
    }
    // the last five come out behind five more
    push_on(p, r, 5);
}
