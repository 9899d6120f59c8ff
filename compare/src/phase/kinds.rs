//! The calls, by kind.

use super::calls::{Call, Head, Held, Nco, Steps, Whole, Word};
use super::model::{END, SLOT};
use super::player::{ssync, Carrier, Player, Slots, ENTRIES, PLACES};
use crate::inputs::{by_powers, cosine_table, pick, times, Random, Size};
use crate::stage::Least;

pub struct Kind {
    pub name: &'static str,
    pub play: fn(&mut Player, &mut Random, Size),
    pub least: Least,
}

pub const KINDS: [Kind; 17] = [
    Kind { name: "bench values", play: bench_values, least: &[("by the Rust", 850), ("looks at its state", 13)] },
    Kind { name: "gains", play: gains, least: &[("by the Rust", 620_000), ("refused 6", 5_900)] },
    Kind { name: "settings", play: settings, least: &[("by the Rust", 530_000), ("looks at its state", 8_700)] },
    Kind {
        name: "carriers handed in",
        play: carriers_handed_in,
        least: &[
            ("by the Rust", 260_000),
            ("by the Rust, opened", 17_000),
            ("looks at its state", 7_900),
            ("refused 6", 86_000),
        ],
    },
    Kind {
        name: "carrier refusals",
        play: carrier_refusals,
        least: &[("by the Rust", 0), ("refused 3", 5_500), ("refused 6", 23_000), ("refused 7", 3_000)],
    },
    Kind {
        name: "pushes",
        play: pushes,
        least: &[
            ("by the Rust", 4_700),
            ("by the Rust, opened", 7_900),
            ("looks at its state", 1_500),
            ("refused 6", 1),
        ],
    },
    Kind {
        name: "slots too short",
        play: short_slots,
        least: &[("by the Rust", 160_000), ("by the Rust, opened", 9_000), ("looks at its state", 1_300)],
    },
    Kind {
        name: "phase refusals",
        play: phase_refusals,
        least: &[("by the Rust", 0), ("refused 1", 1_300), ("refused 6", 51_000), ("refused 7", 6_000)],
    },
    Kind {
        name: "lengths",
        play: lengths,
        least: &[
            ("by the Rust", 0),
            ("refused 1", 56_000),
            ("refused 3", 18_000),
            ("refused 6", 3_000),
            ("refused 7", 1_000),
        ],
    },
    Kind {
        name: "positions",
        play: positions,
        least: &[("by the Rust", 18_000), ("looks at its state", 18), ("refused 6", 1), ("refused 7", 140_000)],
    },
    Kind { name: "slots handed in", play: slots_handed_in, least: &[("by the Rust", 0), ("refused 6", 300_000)] },
    Kind { name: "no such call", play: unknown, least: &[("by the Rust", 0), ("refused 255", 140)] },
    Kind { name: "rotations", play: rotations, least: &[("by the Rust", 600_000), ("looks at its state", 9_800)] },
    Kind {
        name: "all input symbols",
        play: all_symbols,
        least: &[("by the Rust", 1_300_000), ("looks at its state", 21_000)],
    },
    Kind { name: "parts of slots", play: parts_of_slots, least: &[("by the Rust", 220_000)] },
    Kind { name: "whole slots", play: whole_slots, least: &[("by the Rust", 920_000), ("looks at its state", 550)] },
    Kind {
        name: "carrier and slots",
        play: carrier_and_slots,
        least: &[("by the Rust", 1_000_000), ("looks at its state", 6_400)],
    },
];

const WIDE: i64 = 1 << 60;
const HALF: u32 = 1 << 31;
/// Where a carrier's sum ends, and a slot's phase step and gain step.
const SUM: (i64, i64) = (-126_701_535_232, 126_701_535_173);
const DELTA: (i64, i64) = (-15_139_574_784, 15_139_574_777);
const GAIN: i64 = 71_179_699;
const GAMMA: i64 = 501_810_748;

// ---- numbers

fn any_part(r: &mut Random) -> i16 {
    if r.below(3) == 0 {
        pick(r, &[-32_768, -32_767, -1, 0, 1, 32_766, 32_767])
    } else {
        r.next() as i16
    }
}

fn any_symbol(r: &mut Random) -> [i16; 2] {
    [any_part(r), any_part(r)]
}

/// As an input symbol is turned.
fn rotated(r: &mut Random) -> [i16; 2] {
    [(r.below(8_193) - 4_096) as i16, (r.below(8_193) - 4_096) as i16]
}

fn any_input(r: &mut Random) -> [i8; 2] {
    [0; 2].map(|_: i8| if r.below(4) == 0 { pick(r, &[-128, -127, -1, 0, 1, 127]) } else { r.next() as i8 })
}

/// A cosine, one whose entries tell their place, or such as no cosine is.
fn any_table(r: &mut Random) -> Vec<i16> {
    let all = 0..ENTRIES as i16;
    match r.below(8) {
        0..=2 => cosine_table(),
        3 => all.collect(),
        4 => all.map(|_| r.next() as i16).collect(),
        5 => all.map(|_| pick(r, &[-32_768, 32_767])).collect(),
        6 => all.map(|_| -32_768).collect(),
        _ => all.map(|_| any_part(r)).collect(),
    }
}

/// One in two close to where the looked-up entry changes.
fn any_angle(r: &mut Random) -> u32 {
    if r.below(2) == 0 {
        return r.next() as u32;
    }
    let near = r.near();
    ((r.below(2_048) << 21) + near) as u32
}

/// One in two at or about half a turn, or none.
fn any_turn(r: &mut Random) -> u32 {
    let near = r.near() as u32;
    match r.below(6) {
        0 => HALF,
        1 => HALF.wrapping_add(near),
        2 => near,
        _ => r.next() as u32,
    }
}

fn any_amp(r: &mut Random) -> i64 {
    match r.below(6) {
        0 => pick(r, &[-WIDE, -1, 0, 1, 62, 63, 64, 65, 66, 127, 128, WIDE - 1, WIDE]),
        1 => r.below(200),
        2 => r.signed(60),
        3 => r.positive(36),
        _ => r.below(179_131),
    }
}

fn any_freq(r: &mut Random) -> i32 {
    match r.below(4) {
        0 => pick(r, &[0, 1, -1, i32::MIN, i32::MAX, 524_287, -524_287, 524_288, -524_288, 1 << 22]),
        1 => (r.below(1_048_575) - 524_287) as i32,
        2 => r.signed(31) as i32,
        _ => r.next() as i32,
    }
}

fn any_slot(r: &mut Random) -> Option<(u8, u32)> {
    (r.below(3) != 0).then(|| (r.next() as u8, r.next() as u32))
}

fn any_head(r: &mut Random) -> Head {
    Head {
        at: r.positive(62) as u64,
        word: pick(r, &[Word::Ssync, Word::Fsync, Word::NotFsync]),
        theta: any_angle(r),
        amp: any_amp(r),
        slot: any_slot(r),
        corr: [r.next() as i32, r.next() as i32],
        nco_phase: r.next() as u32,
    }
}

/// A slot later, turned on.
fn next_head(h: &Head, r: &mut Random) -> Head {
    let at = (h.at + u64::from(SLOT)).min(END - 1);
    let any = any_head(r);
    // one in two about as strong
    let amp = if r.below(2) == 0 { any.amp } else { (h.amp + h.amp / 8 - r.below(1_000)).clamp(-WIDE, WIDE) };
    Head { at, theta: h.theta.wrapping_add(any_turn(r)), amp, ..any }
}

fn any_trail(r: &mut Random) -> Option<Steps> {
    let steps = match r.below(4) {
        0 => pick(r, &[0, 1, 58, 59, 60, 61, u32::MAX]),
        _ => r.below(60) as u32,
    };
    let n = i64::from(steps.min(59));
    let sum = match r.below(5) {
        0 => pick(r, &[SUM.0 - 1, SUM.0, SUM.1, SUM.1 + 1, i64::MIN, i64::MAX, 0]),
        1 => pick(r, &[-n << 31, n * ((1 << 31) - 1)]),
        2 => r.signed(62),
        _ => (0..n).map(|_| i64::from(r.next() as i32)).sum(),
    };
    (r.below(6) != 0).then(|| Steps { last: any_angle(r), sum, steps })
}

// ---- the carrier

fn bench_values(p: &mut Player, _: &mut Random, size: Size) {
    for (amp, gain) in [(-5, 71_179_699), (0, 71_179_699), (64, 71_179_699), (65, 70_084_627)] {
        assert_eq!(p.gain_of(amp), gain);
    }
    // docs/DECISIONS.md, 5.1 to 5.6: the step that heads set
    let set = |p: &mut Player, freq, turn: u32, heads: u32| {
        let mut carrier = Carrier::new(p, freq);
        (0..heads).for_each(|k| assert_eq!(carrier.head(p, ssync(turn.wrapping_mul(k))), 0));
        carrier.state.freq
    };
    for (freq, turn, heads, left) in [
        (2_000_000_000, 0, 60, 2_000_000_000),
        (2_000_000_000, 0, 61, 524_287),
        (0, HALF, 60, 0),
        (0, HALF, 61, -57_753),
        (0, HALF, 120, -57_753),
        (0, HALF, 121, -115_506),
        (0, HALF - 1, 61, 57_753),
        (0, HALF - 1, 541, 519_777),
        (0, HALF - 1, 601, 524_287),
    ] {
        if size != Size::Sample || heads == 61 || heads == 121 {
            assert_eq!(set(p, freq, turn, heads), left);
        }
    }
    p.set_table(&cosine_table());
    let mut carrier = Carrier::handed_in(Nco { phase: 7, freq: 100, trail: Some(Steps { last: 1, sum: 2, steps: 3 }) });
    carrier.restart(p);
    assert_eq!((carrier.state.phase, carrier.state.freq), (7, 100));
}

fn gains(p: &mut Player, r: &mut Random, size: Size) {
    let low = if size == Size::Sample { 60..=67 } else { -200..=70_000 };
    let high = by_powers(62).filter(|amp| size != Size::Sample || (amp / 4).unsigned_abs() == 1 << 58);
    for amp in low.chain(high).chain([i64::MIN, i64::MAX]) {
        p.gain_of(amp);
    }
    for _ in 0..times(size, [30, 600_000, 20_000_000]) {
        // about where the gain changes
        let gain = 1 + r.positive(26);
        let turn = 2 * 4_555_500_750 / (2 * gain - 1) + r.near();
        p.gain_of(turn);
        let amp = r.signed(62);
        p.gain_of(amp);
    }
}

/// Ssync heads, each so much further, with others between them.
fn settings(p: &mut Player, r: &mut Random, size: Size) {
    p.set_table(&cosine_table());
    for _ in 0..times(size, [0, 4_000, 120_000]) {
        let freq = any_freq(r);
        let mut carrier = Carrier::new(p, freq);
        let (steady, turn) = (r.below(3) != 0, any_turn(r));
        let mut theta = any_angle(r);
        for _ in 0..60 + r.below(240) {
            let jitter = r.signed(20) as u32;
            theta = theta.wrapping_add(if steady { turn.wrapping_add(jitter) } else { any_turn(r) });
            let head = Head { word: Word::Ssync, theta, ..any_head(r) };
            assert_eq!(carrier.head(p, head), 0);
            if r.below(4) == 0 {
                let word = pick(r, &[Word::Fsync, Word::NotFsync]);
                carrier.head(p, Head { word, ..any_head(r) });
                let x = any_input(r);
                carrier.rotate(p, x);
            }
            if r.below(200) == 0 {
                carrier.restart(p);
            }
        }
    }
}

fn carriers_handed_in(p: &mut Player, r: &mut Random, size: Size) {
    for turn in 0..times(size, [40, 250_000, 10_000_000]) {
        if turn % 10_000 == 0 {
            p.set_table(&any_table(r));
        }
        let state = Nco { phase: any_angle(r), freq: any_freq(r), trail: any_trail(r) };
        let x = any_input(r);
        Carrier::handed_in(state).rotate(p, x);
        let mut head = any_head(r);
        if r.below(2) == 0 {
            head.word = Word::Ssync;
            head.theta = state.trail.map_or(0, |t| t.last).wrapping_add(any_turn(r));
        }
        Carrier::handed_in(state).head(p, head);
        Carrier::handed_in(state).restart(p);
    }
}

fn carrier_refusals(p: &mut Player, r: &mut Random, size: Size) {
    p.set_table(&any_table(r));
    for _ in 0..times(size, [1, 200, 2_000]) {
        let trail = |steps, sum| Some(Steps { last: 5, sum, steps });
        let right = [None, trail(0, 0), trail(59, SUM.0), trail(59, SUM.1), trail(0, SUM.0)];
        let wrong = [
            trail(60, 0),
            trail(u32::MAX, 0),
            trail(0, SUM.0 - 1),
            trail(59, SUM.1 + 1),
            trail(9, i64::MIN),
            trail(9, i64::MAX),
        ];
        let states = right.iter().map(|&t| (t, 0)).chain(wrong.iter().map(|&t| (t, 6)));
        for (trail, fault) in states {
            let nco = Nco { phase: r.next() as u32, freq: any_freq(r), trail };
            let x = any_input(r);
            p.refused(Call::NcoRestart { nco }, fault);
            for (table, refusal) in [(ENTRIES, fault), (0, 3), (1, 3), (1_023, 3), (1_025, 3), (u64::MAX, 3)] {
                p.refused(Call::Rotate { nco, x, table }, refusal);
            }
            for (amp, far) in [(WIDE, 0), (-WIDE, 0), (WIDE + 1, 6), (-WIDE - 1, 6), (i64::MIN, 6), (i64::MAX, 6)] {
                let head = Head { amp, ..any_head(r) };
                p.refused(Call::Hear { nco, head: Head { at: END - 1, ..head } }, fault.max(far));
                for at in [END, END + 1, u64::MAX] {
                    let late = if fault.max(far) == 0 { 7 } else { 6 };
                    p.refused(Call::Hear { nco, head: Head { at, ..head } }, late);
                }
            }
        }
    }
}

fn rotations(p: &mut Player, r: &mut Random, size: Size) {
    for _ in 0..times(size, [3, 600, 20_000]) {
        p.set_table(&any_table(r));
        let freq = any_freq(r);
        let mut carrier = Carrier::new(p, freq);
        for _ in 0..times(size, [12, 2_000, 2_000]) {
            let x = any_input(r);
            assert_eq!(carrier.rotate(p, x), 0);
            if r.below(50) == 0 {
                let state = Nco { phase: any_angle(r), ..carrier.state };
                carrier = Carrier::handed_in(state);
            }
        }
    }
}

/// All of them at one phase, which stays.
fn all_symbols(p: &mut Player, r: &mut Random, size: Size) {
    for _ in 0..times(size, [0, 40, 1_200]) {
        p.set_table(&any_table(r));
        let mut carrier = Carrier::handed_in(Nco { phase: any_angle(r), freq: 0, trail: None });
        for i in i8::MIN..=i8::MAX {
            for q in i8::MIN..=i8::MAX {
                carrier.rotate(p, [i, q]);
            }
        }
    }
}

// ---- the slot phase

/// Each push of a few is followed by the store's digest: it writes one pair, or nothing.
fn pushes(p: &mut Player, r: &mut Random, size: Size) {
    for k in (0..18_593).step_by(if size == Size::Sample { 1_234 } else { 1 }) {
        p.ask(Call::SetStore { k, v: any_part(r) });
    }
    p.refused(Call::SetStore { k: 18_593, v: 1 }, 0);
    p.refused(Call::SetStore { k: u64::MAX, v: 1 }, 0);
    p.refused(Call::SetTable { k: 1_025, v: 1 }, 0);
    p.digests();
    let mut idle = Slots::new(p);
    for _ in 0..3 {
        let symbol = any_symbol(r);
        assert_eq!(idle.push(p, symbol), 0);
        p.digests();
    }
    for _ in 0..times(size, [12, 8_000, 200_000]) {
        let count = match r.below(3) {
            0 => pick(r, &[0, 1, 9_294, 9_295, 9_296]),
            _ => r.below(9_297) as u32,
        };
        let mut slots = Slots::handed_in(p, Some(Held { head: any_head(r), count }));
        for _ in 0..1 + r.below(3) {
            let symbol = any_symbol(r);
            assert_eq!(slots.push(p, symbol), 0);
            p.ask(Call::StoreDigest);
        }
        let after = slots.state.expect("a slot").count;
        assert!(after == 9_296 || after > count);
    }
    if size == Size::Sample {
        return;
    }
    // past the last place, from the first symbol on
    let mut slots = Slots::new(p);
    slots.head(p, any_head(r));
    for k in 0..9_400 {
        let symbol = any_symbol(r);
        slots.push(p, symbol);
        if (9_290..9_310).contains(&k) {
            p.digests();
        }
    }
    slots.head(p, any_head(r));
    assert!(slots.due.is_some());
    (0..9_296).step_by(97).chain(9_290..9_296).for_each(|j| assert_eq!(slots.correct(p, j), 0));
    assert_eq!(slots.correct(p, 9_296), 6);
}

/// Heads that come too early, restarts, and heads right after one another: nothing is due.
fn short_slots(p: &mut Player, r: &mut Random, size: Size) {
    for _ in 0..times(size, [0, 4_000, 100_000]) {
        let mut slots = Slots::new(p);
        for _ in 0..1 + r.below(4) {
            for _ in 0..r.below(60) {
                let symbol = any_symbol(r);
                slots.push(p, symbol);
            }
            slots.head(p, any_head(r));
            assert!(slots.due.is_none());
            if r.below(3) == 0 {
                assert_eq!(slots.restart(p), 0);
            }
        }
    }
    for count in [0, 1, 2, 9_294, 9_295, 9_296] {
        for _ in 0..times(size, [2, 1_000, 20_000]) {
            let head = any_head(r);
            let mut slots = Slots::handed_in(p, Some(Held { head, count }));
            slots.head(p, next_head(&head, r));
            assert_eq!(slots.due.is_some(), count == 9_296);
            assert_eq!(slots.restart(p), 0);
        }
    }
    if size == Size::Sample {
        return;
    }
    // one symbol short, and restarted when whole
    for short in [true, false] {
        let mut slots = Slots::new(p);
        slots.head(p, any_head(r));
        for _ in 0..if short { 9_295 } else { 9_296 } {
            slots.push(p, rotated(r));
        }
        if !short {
            slots.restart(p);
        }
        slots.head(p, any_head(r));
        assert!(slots.due.is_none());
    }
}

/// States that no calls leave, and heads that are not taken.
fn phase_refusals(p: &mut Player, r: &mut Random, size: Size) {
    for _ in 0..times(size, [1, 200, 4_000]) {
        let head = any_head(r);
        let held = |at, amp, count| Some(Held { head: Head { at, amp, ..head }, count });
        let right = [None, held(0, 0, 0), held(0, WIDE, 9_295), held(5, -WIDE, 9_296), held(END - 9_297, 9, 9_296)];
        let wrong = [
            held(0, WIDE + 1, 0),
            held(0, -WIDE - 1, 0),
            held(0, i64::MIN, 0),
            held(0, i64::MAX, 0),
            held(END, 0, 0),
            held(u64::MAX, 0, 0),
            held(0, 0, 9_297),
            held(0, 0, u32::MAX),
        ];
        for (phase, fault) in right.iter().map(|&s| (s, 0)).chain(wrong.iter().map(|&s| (s, 6))) {
            p.refused(Call::Restart { phase }, fault);
            p.refused(Call::Push { phase, r: any_symbol(r), store: PLACES }, fault);
            p.refused(Call::Push { phase, r: any_symbol(r), store: PLACES - 1 }, 1);
            for (amp, far) in [(WIDE, 0), (-WIDE, 0), (WIDE + 1, 6), (-WIDE - 1, 6), (i64::MIN, 6)] {
                for (at, late) in [(END - 1, 0), (END, 7), (u64::MAX, 7)] {
                    let head = Head { at, amp, ..any_head(r) };
                    let refusal = if fault.max(far) == 0 { late } else { 6 };
                    p.refused(Call::Head { phase, head }, refusal);
                    p.refused(Call::Due { phase, head }, refusal);
                    p.refused(Call::Next { phase, head }, refusal);
                }
            }
        }
        p.digests();
    }
}

/// Stores and tables of other lengths, and which of two faults is told.
fn lengths(p: &mut Player, r: &mut Random, size: Size) {
    p.set_table(&any_table(r));
    let past = |head: &Head| Head { at: END, ..*head };
    for _ in 0..times(size, [3, 2_000, 40_000]) {
        let (head, j) = (any_head(r), r.below(9_296) as u64);
        let next = next_head(&head, r);
        let slot = Whole { head: Head { at: 0, ..head }, next, delta: 1, gain: 1, gamma: 1 };
        let (late, wrong) = (Whole { next: past(&next), ..slot }, Whole { gain: -1, next: past(&next), ..slot });
        for store in [0, 1, 2, 18_590, 18_591, 18_593, 20_000, u64::MAX] {
            for phase in [None, Some(Held { head, count: 7 }), Some(Held { head, count: 9_297 })] {
                p.refused(Call::Push { phase, r: any_symbol(r), store }, 1);
            }
            for table in [0, 1_024] {
                p.refused(Call::Correct { slot, j, table, store }, 1);
                p.refused(Call::Correct { slot: wrong, j: 9_296, table, store }, 1);
            }
        }
        for table in [0, 1, 1_023, 1_025, 2_048, u64::MAX] {
            for (slot, j) in [(slot, j), (late, j), (wrong, 9_296)] {
                p.refused(Call::Correct { slot, j, table, store: PLACES }, 3);
            }
        }
        for (slot, j, refusal) in [(slot, j, 0), (late, j, 7), (wrong, j, 6), (slot, 9_296, 6), (late, u64::MAX, 6)] {
            p.refused(Call::Correct { slot, j, table: ENTRIES, store: PLACES }, refusal);
        }
    }
}

/// Slots that reach 2^62.
fn positions(p: &mut Player, r: &mut Random, size: Size) {
    p.set_table(&cosine_table());
    let starts = [1, 2, 3, 100, 9_295, 9_296, 9_297, 9_400];
    for before in starts.into_iter().filter(|&n| size != Size::Sample || n < 100) {
        let mut slots = Slots::new(p);
        assert_eq!(slots.head(p, Head { at: END - before, amp: 900, ..any_head(r) }), 0);
        for k in 0..9_300u64 {
            let refusal = if before < 9_296 && before <= k { 7 } else { 0 };
            let symbol = rotated(r);
            assert_eq!(slots.push(p, symbol), refusal);
            if refusal != 0 && k > before + 3 {
                break;
            }
        }
        for at in [END, END + 5, u64::MAX] {
            assert_eq!(slots.head(p, Head { at, amp: 5, ..any_head(r) }), 7);
        }
        assert_eq!(slots.head(p, Head { at: END - 1, amp: 700, ..any_head(r) }), 0);
        assert_eq!(slots.due.is_some(), before >= 9_296);
        if slots.due.is_some() {
            (0..9_296).step_by(211).chain(9_285..9_296).for_each(|j| assert_eq!(slots.correct(p, j), 0));
        }
    }
    let steps = |head, next| Whole { head, next, delta: 77, gain: 5_000_000, gamma: -300 };
    for _ in 0..times(size, [40, 40_000, 1_000_000]) {
        let (mut head, next) = (any_head(r), Head { at: END - 1 - r.below(3) as u64, ..any_head(r) });
        let j = r.below(9_296) as u64;
        head.at = (END - j).wrapping_add_signed(r.near());
        let refusal = if head.at + j < END { 0 } else { 7 };
        p.refused(Call::Correct { slot: steps(head, next), j, table: ENTRIES, store: PLACES }, refusal);
        for at in [END, END + 1, u64::MAX] {
            let slot = steps(Head { at: 0, ..head }, Head { at, ..next });
            p.refused(Call::Correct { slot, j, table: ENTRIES, store: PLACES }, 7);
            let slot = steps(Head { at, ..head }, next);
            p.refused(Call::Correct { slot, j, table: ENTRIES, store: PLACES }, 7);
        }
        let count = r.below(9_296) as u32;
        let at = (END - u64::from(count)).wrapping_add_signed(r.near());
        let phase = Some(Held { head: Head { at, ..head }, count });
        let refusal = match at {
            END.. => 6,
            _ if at + u64::from(count) >= END => 7,
            _ => 0,
        };
        p.refused(Call::Push { phase, r: any_symbol(r), store: PLACES }, refusal);
    }
}

/// Slots of any steps, up to their limits and past them.
fn slots_handed_in(p: &mut Player, r: &mut Random, size: Size) {
    let within = |r: &mut Random, (low, high): (i64, i64)| match r.below(4) {
        0 => pick(r, &[low, low + 1, high - 1, high]),
        1 => r.signed(20).clamp(low, high),
        _ => low + r.below((high - low + 1) as u64),
    };
    for turn in 0..times(size, [320, 400_000, 16_000_000]) {
        if turn % 20_000 == 0 {
            p.set_table(&any_table(r));
        }
        let mut slot = Whole {
            head: any_head(r),
            next: any_head(r),
            delta: within(r, DELTA),
            gain: within(r, (0, GAIN)),
            gamma: within(r, (-GAMMA, GAMMA)),
        };
        (slot.head.at, slot.next.at) = (slot.head.at % (END - 9_296), slot.next.at % END);
        let j = if r.below(4) == 0 { pick(r, &[0, 1, 9_294, 9_295]) } else { r.below(9_296) as u64 };
        let symbol = any_symbol(r);
        if size != Size::Sample || turn % 16 == 0 {
            p.set_symbol(j, symbol);
            p.ask(Call::Correct { slot, j, table: ENTRIES, store: PLACES });
        }
        if turn % 8 != 0 {
            continue;
        }
        let (head, next) = (slot.head, slot.next);
        let far = pick(r, &[WIDE + 1, -WIDE - 1, i64::MIN, i64::MAX]);
        for slot in [
            Whole { delta: DELTA.0 - 1, ..slot },
            Whole { delta: DELTA.1 + 1, ..slot },
            Whole { delta: far, ..slot },
            Whole { gain: -1, ..slot },
            Whole { gain: GAIN + 1, ..slot },
            Whole { gain: far, ..slot },
            Whole { gamma: GAMMA + 1, ..slot },
            Whole { gamma: -GAMMA - 1, ..slot },
            Whole { gamma: far, ..slot },
            Whole { head: Head { amp: far, ..head }, ..slot },
            Whole { next: Head { amp: far, ..next }, ..slot },
        ] {
            p.refused(Call::Correct { slot, j, table: ENTRIES, store: PLACES }, 6);
        }
        let past = pick(r, &[9_296, 9_297, 65_536 + j, (1 << 32) + j, u64::MAX]);
        p.refused(Call::Correct { slot, j: past, table: ENTRIES, store: PLACES }, 6);
    }
}

fn unknown(p: &mut Player, r: &mut Random, size: Size) {
    let calls = (16..300).chain([1 << 8, 1 << 16, 1 << 32, (1 << 32) + 13, 1 << 63, u64::MAX]);
    for op in calls.filter(|op| size != Size::Sample || op % 64 < 2) {
        let mut numbers = [0; 24].map(|_: u64| r.next());
        numbers[0] = op;
        p.unknown(numbers);
    }
}

/// Two heads and a slot of symbols between them, of which the program sees some.
fn parts_of_slots(p: &mut Player, r: &mut Random, size: Size) {
    for turn in 0..times(size, [4, 10_000, 400_000]) {
        if turn % 8 == 0 {
            p.set_table(&any_table(r));
        }
        let wild = r.below(2) == 0;
        let symbols: Vec<[i16; 2]> = (0..SLOT).map(|_| if wild { any_symbol(r) } else { rotated(r) }).collect();
        let head = any_head(r);
        let head = Head { at: head.at % (END - 9_296), ..head };
        let mut slots = Slots::full(head, &symbols);
        let mut seen: Vec<u64> =
            (0..times(size, [6, 40, 40])).map(|_| r.below(9_296) as u64).chain([0, 1, 9_294, 9_295]).collect();
        seen.sort_unstable();
        seen.dedup();
        seen.iter().for_each(|&j| p.set_symbol(j, symbols[j as usize]));
        assert_eq!(slots.head(p, next_head(&head, r)), 0);
        seen.iter().for_each(|&j| assert_eq!(slots.correct(p, j), 0));
    }
}

/// Slot after slot, all of it through the program.
fn whole_slots(p: &mut Player, r: &mut Random, size: Size) {
    for _ in 0..times(size, [0, 40, 1_000]) {
        p.set_table(&any_table(r));
        let mut slots = Slots::new(p);
        let mut head = any_head(r);
        head.at %= 1 << 61;
        for _ in 0..3 {
            assert_eq!(slots.head(p, head), 0);
            if slots.due.is_some() {
                (0..9_296).for_each(|j| assert_eq!(slots.correct(p, j), 0));
            }
            let more = r.below(3);
            for _ in 0..9_296 + more {
                let symbol = any_symbol(r);
                assert_eq!(slots.push(p, symbol), 0);
            }
            head = next_head(&head, r);
        }
        p.digests();
    }
}

/// As a receiver does: each symbol is turned and pushed, each head goes to both.
fn carrier_and_slots(p: &mut Player, r: &mut Random, size: Size) {
    p.set_table(&cosine_table());
    for _ in 0..times(size, [0, 20, 500]) {
        let freq = any_freq(r);
        let (mut carrier, mut slots) = (Carrier::new(p, freq), Slots::new(p));
        let mut head = Head { at: 46_480, amp: 40_000, ..any_head(r) };
        for n in 0..4 {
            head = Head { at: head.at + 9_296, word: if n % 2 == 0 { Word::Ssync } else { Word::Fsync }, ..head };
            head.theta = head.theta.wrapping_add(r.signed(28) as u32);
            head.amp = 38_000 + r.below(4_000);
            carrier.head(p, head);
            slots.head(p, head);
            if slots.due.is_some() {
                (0..9_296).for_each(|j| assert_eq!(slots.correct(p, j), 0));
            }
            for _ in 0..9_296 {
                let x = any_input(r);
                carrier.rotate(p, x);
                slots.push(p, carrier.turned);
            }
        }
        carrier.restart(p);
        slots.restart(p);
    }
}
