//! The calls, by kind.

use super::calls::{Call, Equaliser, Pairs, Sums};
use super::desk::Said;
use super::model::{no_sums, upper, GREATEST, LEAST, LIMIT, RULES, TURN};
use super::player::Player;
use crate::inputs::{pick, times, Random, Size};
use crate::stage::Least;

pub struct Kind {
    pub name: &'static str,
    pub play: fn(&mut Player, &mut Random, Size),
    pub least: Least,
}

pub const KINDS: [Kind; 16] = [
    Kind { name: "first symbols", play: first_symbols, least: &[("by the Rust", 4_200), ("looks at its state", 68)] },
    Kind { name: "rounding", play: rounding, least: &[("by the Rust", 2_000), ("looks at its state", 32)] },
    Kind { name: "extremes", play: extremes, least: &[("by the Rust", 45_000), ("looks at its state", 730)] },
    Kind { name: "short lines", play: short_lines, least: &[("by the Rust", 6_600), ("looks at its state", 100)] },
    Kind {
        name: "limits",
        play: limits,
        least: &[("by the Rust", 3), ("by the Rust, opened", 2_200), ("looks at its state", 450), ("refused 6", 4_300)],
    },
    Kind {
        name: "counts",
        play: counts,
        least: &[("by the Rust", 0), ("by the Rust, opened", 1_500), ("looks at its state", 300), ("refused 8", 450)],
    },
    Kind {
        name: "solver refusals",
        play: solver_refusals,
        least: &[
            ("by the Rust", 460),
            ("refused 9", 1_800),
            ("refused 10", 1),
            ("solved", 460),
            ("taps alike in a hundred", 100),
            ("singular", 1),
        ],
    },
    Kind {
        name: "rounded taps",
        play: rounded_taps,
        least: &[("by the Rust", 3_000), ("solved", 3_000), ("taps alike in a hundred", 100)],
    },
    Kind { name: "no such call", play: unknown, least: &[("by the Rust", 0), ("refused 255", 500)] },
    Kind {
        name: "states handed in",
        play: states_handed_in,
        least: &[
            ("by the Rust", 22_000),
            ("by the Rust, opened", 43_000),
            ("looks at its state", 9_000),
            ("refused 6", 20_000),
            ("refused 8", 140),
        ],
    },
    Kind {
        name: "calls at random",
        play: at_random,
        least: &[("by the Rust", 500_000), ("looks at its state", 8_100)],
    },
    Kind { name: "outputs", play: outputs, least: &[("by the Rust", 250_000), ("looks at its state", 4_100)] },
    Kind { name: "trainings", play: trainings, least: &[("by the Rust", 370_000), ("looks at its state", 6_100)] },
    Kind {
        name: "solved trainings",
        play: solved_trainings,
        least: &[
            ("by the Rust", 340_000),
            ("looks at its state", 5_500),
            ("refused 9", 66),
            ("refused 10", 44),
            ("solved", 3_800),
            ("taps alike in a hundred", 100),
            ("singular", 44),
        ],
    },
    Kind {
        name: "systems handed in",
        play: systems,
        least: &[
            ("by the Rust", 45_000),
            ("refused 10", 6_200),
            ("solved", 38_000),
            ("taps alike in a hundred", 100),
            ("singular", 6_200),
        ],
    },
    Kind {
        name: "close calls",
        play: close_calls,
        least: &[("by the Rust", 4_800), ("solved", 5_000), ("taps alike in a hundred", 90)],
    },
];

// ---- numbers

fn any_part(r: &mut Random) -> i16 {
    match r.below(6) {
        0 => pick(r, &[-32_768, -32_767, -1, 0, 1, 32_766, 32_767]),
        1 => (r.below(1_449) - 724) as i16,
        2 => r.signed(15) as i16,
        _ => r.next() as i16,
    }
}

pub(crate) fn any_symbol(r: &mut Random) -> [i16; 2] {
    [any_part(r), any_part(r)]
}

/// As they come from `part`, or such as a trained equaliser has.
pub(crate) fn any_taps(r: &mut Random) -> Pairs {
    match r.below(6) {
        0 => [0; 22].map(|_: i16| pick(r, &[-32_768, 32_767])),
        1 => [-32_768; 22],
        2 => {
            let mut taps = [0; 22].map(|_: i16| (r.below(2_001) - 1_000) as i16);
            taps[10] = (14_000 + r.below(5_000)) as i16;
            taps
        }
        // powers of two, with which sums fall on halves
        3 => [0; 22].map(|_: i16| pick(r, &[0, 0, 0, 1 << 13, -1 << 13, 1 << 12, 1 << 14, -1 << 14])),
        _ => [0; 22].map(|_: i16| any_part(r)),
    }
}

pub(crate) fn any_frame(r: &mut Random) -> u32 {
    if r.below(3) == 0 {
        pick(r, &[0, 1, u32::MAX])
    } else {
        r.next() as u32
    }
}

fn any_product(r: &mut Random) -> [i64; 2] {
    match r.below(4) {
        0 => [pick(r, &[LEAST, LEAST + 1, 0, GREATEST - 1, GREATEST]), pick(r, &[-TURN, -TURN + 1, 0, TURN - 1, TURN])],
        _ => [r.signed(52), r.signed(52)],
    }
}

/// Sums in range.
fn any_sums(r: &mut Random) -> Sums {
    let mut s = no_sums(any_frame(r));
    s.count = match r.below(3) {
        0 => pick(r, &[0, 1, LIMIT - 1, LIMIT]),
        _ => r.below(u64::from(LIMIT) + 1) as u32,
    };
    for ((row, column), at) in upper().zip(s.r.chunks_mut(2)) {
        let [re, im] = any_product(r);
        at.copy_from_slice(&if row == column { [re.abs(), 0] } else { [re, im] });
    }
    s.p.chunks_mut(2).for_each(|at| at.copy_from_slice(&any_product(r)));
    s
}

/// In range.
pub(crate) fn any_state(r: &mut Random) -> Equaliser {
    let filled = if r.below(2) == 0 { 11 } else { r.below(12) as u32 };
    let mut line = [0; 22].map(|_: i16| any_part(r));
    if r.below(3) != 0 {
        line[2 * filled as usize..].fill(0);
    }
    let from = (r.below(3) != 0).then(|| any_frame(r));
    Equaliser { line, filled, taps: any_taps(r), from, opened: r.below(3) != 0, sums: any_sums(r) }
}

/// With another number k of the upper and right-hand entries.
fn with_entry(mut s: Sums, k: usize, value: i64) -> Sums {
    *s.r.iter_mut().chain(&mut s.p).nth(k).expect("a number") = value;
    s
}

/// One of the seven calls that look at the state.
fn call_of(turn: i64, r: &mut Random) -> Call {
    match turn {
        0 => Call::Restart,
        1 => Call::Push { y: any_symbol(r) },
        2 => Call::Output,
        3 => Call::Open { frame: any_frame(r) },
        4 => Call::Train { d: any_symbol(r) },
        5 => Call::Close,
        _ => Call::Load { frame: any_frame(r), taps: any_taps(r) },
    }
}

fn any_call(r: &mut Random) -> Call {
    let turn = r.below(7);
    call_of(turn, r)
}

fn push(p: &mut Player, y: [i16; 2]) -> Option<[i16; 2]> {
    let answer = p.ask(Call::Push { y });
    assert_eq!(answer.refusal, 0);
    let Said::Symbol(symbol) = answer.said else { unreachable!() };
    symbol
}

// ---- filter

/// Five symbols give nothing, the sixth gives the first: the identity's output is five late.
fn first_symbols(p: &mut Player, r: &mut Random, size: Size) {
    for turn in 0..times(size, [2, 400, 20_000]) {
        p.refused(if turn % 2 == 0 { Call::New } else { Call::Restart }, 0);
        if turn % 2 == 0 {
            assert_eq!((p.state().taps, p.state().from), (RULES.identity(), None));
        }
        let symbols: Vec<_> = (0..20).map(|_| any_symbol(r)).collect();
        for (k, &y) in symbols.iter().enumerate() {
            let z = push(p, y);
            assert_eq!(z, (k >= 5).then(|| symbols[k - 5]));
        }
        p.refused(Call::Tell, 0);
    }
}

/// Halves go up, for either sign.
fn rounding(p: &mut Player, _: &mut Random, size: Size) {
    p.refused(Call::New, 0);
    let mut taps = [0; 22];
    taps[0] = 8_192;
    p.refused(Call::Load { frame: 7, taps }, 0);
    for _ in 0..5 {
        push(p, [0; 2]);
    }
    let range = if size == Size::Sample { -3..=3 } else { -2_000..=2_000 };
    for v in range {
        let half = |v: i16| (v + 1).div_euclid(2);
        assert_eq!(push(p, [v, -v]), Some([half(v), half(-v)]));
    }
}

/// All parts at the ends of i16: the greatest sums that there are.
fn extremes(p: &mut Player, r: &mut Random, size: Size) {
    p.refused(Call::New, 0);
    for _ in 0..times(size, [2, 3_000, 100_000]) {
        let ends = [-32_768, 32_767];
        let one = pick(r, &ends);
        let all_one = r.below(2) == 0;
        let mut part = || if all_one { one } else { pick(r, &ends) };
        let taps = [0; 22].map(|_: i16| part());
        p.refused(Call::Load { frame: 0, taps }, 0);
        p.refused(Call::Open { frame: u32::MAX }, 0);
        for _ in 0..13 {
            let y = [part(), part()];
            push(p, y);
            let d = [part(), part()];
            p.refused(Call::Train { d }, 0);
        }
        p.refused(Call::Output, 0);
        p.refused(Call::Close, 0);
    }
}

fn outputs(p: &mut Player, r: &mut Random, size: Size) {
    for _ in 0..times(size, [2, 12_000, 300_000]) {
        let taps = any_taps(r);
        p.refused(Call::Load { frame: any_frame(r), taps }, 0);
        let small = r.below(3) == 0;
        for _ in 0..12 + r.below(60) {
            let y = if small { [(r.below(65) - 32) as i16, (r.below(65) - 32) as i16] } else { any_symbol(r) };
            push(p, y);
        }
        if r.below(4) == 0 {
            p.refused(Call::Restart, 0);
        }
    }
}

// ---- training

/// A training counts from the eleventh symbol on.
fn short_lines(p: &mut Player, r: &mut Random, size: Size) {
    for _ in 0..times(size, [1, 400, 20_000]) {
        p.refused(Call::Restart, 0);
        p.refused(Call::Train { d: any_symbol(r) }, 0);
        assert!(!p.state().opened);
        p.refused(Call::Open { frame: any_frame(r) }, 0);
        for k in 0..14 {
            p.refused(Call::Train { d: any_symbol(r) }, 0);
            assert_eq!(p.state().sums.count, (k - 10i32).max(0) as u32);
            push(p, any_symbol(r));
        }
        if r.below(2) == 0 {
            p.refused(Call::Close, 0);
            assert_eq!(p.sums().count, 3);
        } else {
            p.refused(Call::Restart, 0);
            assert!(!p.state().opened);
        }
        p.refused(Call::Close, 0);
        assert_eq!(*p.sums(), no_sums(0));
    }
}

fn trainings(p: &mut Player, r: &mut Random, size: Size) {
    for _ in 0..times(size, [1, 15_000, 350_000]) {
        if r.below(3) == 0 {
            p.refused(Call::Open { frame: any_frame(r) }, 0);
        }
        let level = 1 + r.below(16) as u64;
        for _ in 0..r.below(60) {
            let y = if r.below(4) == 0 {
                any_symbol(r)
            } else {
                [r.signed(level.min(15)) as i16, r.signed(level.min(15)) as i16]
            };
            push(p, y);
            if r.below(3) != 0 {
                p.refused(Call::Train { d: any_symbol(r) }, 0);
            }
        }
        if r.below(3) == 0 {
            p.refused(Call::Close, 0);
        }
        if r.below(10) == 0 {
            p.refused(Call::Restart, 0);
        }
    }
}

fn at_random(p: &mut Player, r: &mut Random, size: Size) {
    p.refused(Call::New, 0);
    for _ in 0..times(size, [40, 1_000_000, 25_000_000]) {
        let call = match r.below(16) {
            0 => any_call(r),
            1..=3 => Call::Train { d: any_symbol(r) },
            4 if r.below(20) == 0 => Call::New,
            _ => Call::Push { y: any_symbol(r) },
        };
        p.refused(call, 0);
    }
}

// ---- states

/// Every call that looks at the state, on this one.
fn all_calls(p: &mut Player, r: &mut Random, e: &Equaliser, refusal: u8) {
    for turn in 0..7 {
        if !p.takes_place() {
            continue;
        }
        p.hand_in(e);
        let call = call_of(turn, r);
        let full = turn == 4 && e.opened && e.filled == 11 && e.sums.count == LIMIT;
        p.refused(call, if refusal == 0 && full { 8 } else { refusal });
        if refusal != 0 {
            assert_eq!(p.state(), e);
        }
    }
}

/// Each number at its limits and past them, in sums that are open and in sums that are not.
fn limits(p: &mut Player, r: &mut Random, size: Size) {
    for _ in 0..times(size, [1, 2, 60]) {
        let base = any_state(r);
        let open = |sums| Equaliser { opened: true, sums, ..base };
        for (filled, refusal) in [(0, 0), (5, 0), (6, 0), (10, 0), (11, 0), (12, 6), (1 << 31, 6), (u32::MAX, 6)] {
            all_calls(p, r, &Equaliser { filled, ..base }, refusal);
        }
        for (count, refusal) in [(0, 0), (1, 0), (LIMIT - 1, 0), (LIMIT, 0), (LIMIT + 1, 6), (u32::MAX, 6)] {
            all_calls(p, r, &open(Sums { count, ..base.sums }), refusal);
            all_calls(p, r, &Equaliser { opened: false, sums: Sums { count, ..base.sums }, ..base }, 0);
        }
        let ends = |low, high| [(low, 0), (low - 1, 6), (high, 0), (high + 1, 6), (i64::MIN, 6), (i64::MAX, 6)];
        let places = upper().map(|(row, column)| row == column).chain([false; 11]).enumerate();
        for (k, diagonal) in places {
            for part in 0..2 {
                let (low, high) = match (diagonal, part) {
                    (true, 0) => (0, GREATEST),
                    (true, _) => (0, 0),
                    (false, 0) => (LEAST, GREATEST),
                    (false, _) => (-TURN, TURN),
                };
                for (value, refusal) in ends(low, high) {
                    let sums = with_entry(base.sums, 2 * k + part, value);
                    all_calls(p, r, &open(sums), refusal);
                    if r.below(6) == 0 {
                        all_calls(p, r, &Equaliser { opened: false, ..open(sums) }, 0);
                    }
                }
            }
        }
    }
}

/// The last training that is counted, and the first that is not.
fn counts(p: &mut Player, r: &mut Random, size: Size) {
    for _ in 0..times(size, [1, 300, 10_000]) {
        let mut e = Equaliser { filled: 11, opened: true, ..any_state(r) };
        e.sums = Sums { count: LIMIT - 2, ..Sums { r: [0; 132], p: [0; 22], ..any_sums(r) } };
        p.hand_in(&e);
        for refusal in [0, 0, 8, 8] {
            p.refused(Call::Train { d: any_symbol(r) }, refusal);
            push(p, any_symbol(r));
        }
        assert_eq!(p.state().sums.count, LIMIT);
        p.hand_in(&Equaliser { filled: 10, ..*p.state() });
        p.refused(Call::Train { d: any_symbol(r) }, 0);
        push(p, any_symbol(r));
        p.refused(Call::Train { d: any_symbol(r) }, 8);
        p.refused(Call::Close, 0);
        assert_eq!(p.sums().count, LIMIT);
        p.refused(Call::Train { d: any_symbol(r) }, 0);
    }
}

fn states_handed_in(p: &mut Player, r: &mut Random, size: Size) {
    for _ in 0..times(size, [3, 50_000, 1_500_000]) {
        let mut e = any_state(r);
        // one in three with a number that may be anything
        if r.below(3) == 0 {
            match r.below(4) {
                0 => e.filled = r.next() as u32,
                1 => e.sums.count = r.next() as u32,
                2 => e.sums.r[r.below(132) as usize] = r.next() as i64 >> r.below(16),
                _ => e.sums.p[r.below(22) as usize] = r.next() as i64 >> r.below(16),
            }
        }
        p.hand_in(&e);
        for _ in 0..1 + r.below(6) {
            let call = any_call(r);
            p.ask(call);
        }
    }
}

fn unknown(p: &mut Player, r: &mut Random, size: Size) {
    for _ in 0..times(size, [3, 1_000, 20_000]) {
        let mut call = [0; 24].map(|_: u64| r.next());
        call[0] = 16 + (r.positive(62) as u64);
        p.unknown(call);
        p.ask(Call::PutUpper { group: 6 + r.positive(62) as u64, values: [5; 22] });
    }
}

// ---- solver

fn solve(p: &mut Player, sums: &Sums) -> u8 {
    let e = Equaliser { sums: *sums, ..*p.state() };
    p.hand_in(&e);
    p.refused(Call::Keep, 0);
    p.ask(Call::Solve).refusal
}

/// 9 before 10.
fn solver_refusals(p: &mut Player, r: &mut Random, size: Size) {
    let unit = |count| {
        let mut s = Sums { count, ..no_sums(5) };
        for ((row, column), at) in upper().zip(s.r.chunks_mut(2)) {
            at[0] = i64::from(row == column) * 1_000;
        }
        s
    };
    for (count, refusal) in [(0, 9), (1, 0), (LIMIT, 0), (LIMIT + 1, 9), (u32::MAX, 9)] {
        assert_eq!(solve(p, &unit(count)), refusal);
        let singular = Sums { count, ..no_sums(5) };
        assert_eq!(solve(p, &singular), if refusal == 0 { 10 } else { refusal });
    }
    for _ in 0..times(size, [1, 3, 100]) {
        let base = Sums { count: 1 + r.below(u64::from(LIMIT)) as u32, ..any_sums(r) };
        for k in 0..154 {
            for value in [GREATEST, -GREATEST, GREATEST + 1, -GREATEST - 1, i64::MIN, i64::MAX] {
                if !p.takes_place() {
                    continue;
                }
                let wide = value.unsigned_abs() > GREATEST.unsigned_abs();
                assert_eq!(solve(p, &with_entry(base, k, value)) == 9, wide);
                // a singular system with a wide entry
                if wide {
                    assert_eq!(solve(p, &with_entry(Sums { r: [0; 132], p: [0; 22], ..base }, k, value)), 9);
                }
            }
        }
    }
}

/// Diagonal systems, whose taps are exact: whole numbers, halves, and those next to the ends of i16.
fn rounded_taps(p: &mut Player, r: &mut Random, size: Size) {
    for _ in 0..times(size, [2, 3_000, 100_000]) {
        let unit = 1 << r.below(4);
        let mut s = Sums { count: 1, ..no_sums(0) };
        for ((row, column), at) in upper().zip(s.r.chunks_mut(2)) {
            at[0] = i64::from(row == column) * 32_768 * unit;
        }
        let halves: [i64; 22] = std::array::from_fn(|_| match r.below(4) {
            0 => pick(r, &[-65_537, -65_536, -65_535, -65_534, 65_533, 65_534, 65_535]),
            1 => r.below(41) - 20,
            _ => r.below(140_001) - 70_000,
        });
        s.p = halves.map(|v| v * unit);
        assert_eq!(solve(p, &s), 0);
        let away = |v: i64| (v.abs() + 1) / 2 * v.signum();
        let taps = halves.map(|v| away(v).clamp(-32_768, 32_767) as i16);
        assert_eq!(p.ask(Call::Solve).said, Said::Taps(taps));
    }
}

/// A channel of a few echoes; the reference is the symbol five before the newest.
fn solved_trainings(p: &mut Player, r: &mut Random, size: Size) {
    for _ in 0..times(size, [2, 8_000, 120_000]) {
        p.refused(Call::Restart, 0);
        p.refused(Call::Open { frame: any_frame(r) }, 0);
        let echoes: Vec<(i64, i64)> = (0..4).map(|_| (r.below(401) - 200, r.below(401) - 200)).collect();
        let kind = r.below(4);
        let trainings = match kind {
            0 => r.below(12),
            _ => 11 + r.below(if size == Size::Full { 200 } else { 60 }),
        };
        let mut sent = vec![[0i64; 2]; 16];
        for k in 0..10 + trainings {
            let s = match kind {
                1 => [r.below(2) * 1_448 - 724, r.below(2) * 1_448 - 724],
                2 => [r.below(1_449) - 724, r.below(1_449) - 724],
                3 => any_symbol(r).map(i64::from),
                _ => [pick(r, &[-724, 724]), pick(r, &[-724, 724])],
            };
            sent.push(s);
            let now = sent.len() - 1;
            let noise = [r.below(41) - 20, r.below(41) - 20];
            let part = |im: bool| {
                let echo = echoes.iter().enumerate().map(|(k, &(a, b))| {
                    let [i, q] = sent[now - k - 1];
                    if im {
                        a * q + b * i
                    } else {
                        a * i - b * q
                    }
                });
                let own = sent[now][usize::from(im)] * 1_000;
                ((own + echo.sum::<i64>()) / 1_000 + noise[usize::from(im)]).clamp(-32_768, 32_767) as i16
            };
            push(p, [part(false), part(true)]);
            if k >= 10 {
                let d = sent[now - 5].map(|v| v as i16);
                p.refused(Call::Train { d }, 0);
            }
        }
        p.refused(Call::Close, 0);
        let answer = p.ask(Call::Solve);
        if trainings == 0 {
            assert_eq!(answer.refusal, 9);
        }
        if let (0, Said::Taps(taps)) = (answer.refusal, answer.said) {
            p.refused(Call::Load { frame: p.sums().frame, taps }, 0);
            for _ in 0..8 {
                push(p, any_symbol(r));
            }
        }
    }
}

/// Not such as trainings leave: zero rows, rows of one size, ill-conditioned, huge.
pub(super) fn any_system(r: &mut Random) -> Sums {
    let mut s = Sums { count: 1 + r.below(6_720) as u32, ..any_sums(r) };
    let kind = r.below(9);
    let bits = 1 + r.below(53) as u64;
    let (a, b) = (r.below(11) as usize, r.below(11) as usize);
    let (one, other) = (r.signed(bits), r.signed(bits));
    for ((row, column), at) in upper().zip(s.r.chunks_mut(2)) {
        let value = match kind {
            // rows of one size
            0 => [pick(r, &[-1, 1]) * one, 0],
            // small whole numbers
            1 => [r.below(7) - 3, r.below(7) - 3],
            // close to one row in all places
            2 => [GREATEST - 4_096 + r.below(4_097), r.below(3) - 1],
            // huge, with anything on the diagonal
            3 => [GREATEST - r.positive(53), r.signed(53)],
            // a strong diagonal
            4 => [if row == column { 1 << bits.min(52) } else { r.signed(bits / 2) }, r.signed(bits / 2)],
            // rows of about one size, as complex numbers
            5 => {
                let mut near = [one, other].map(|v| pick(r, &[-1, 1]) * v + pick(r, &[-1, 0, 0, 1]));
                near.rotate_left(r.below(2) as usize);
                near
            }
            _ => [r.signed(bits), r.signed(bits)],
        };
        let zero = kind >= 7 && (row == a || column == a || row == b || column == b);
        at.copy_from_slice(&if zero { [0; 2] } else { value });
        if kind == 8 && row == column {
            at[0] = 1;
        }
    }
    s.p.iter_mut().for_each(|v| *v = r.signed(bits));
    s
}

/// Of rank 4 but for small numbers, and the first column's sizes are such as `norm` does not tell apart: there the Rust may
/// take another pivot than the greatest square, and the taps show it.
fn close_call(r: &mut Random) -> Sums {
    let mut s = Sums { count: 1 + r.below(6_720) as u32, ..no_sums(0) };
    let parts: Vec<[i64; 2]> = (0..44).map(|_| [r.signed(19), r.signed(19)]).collect();
    let close = (1 << 40) + r.below(1 << 39);
    for ((row, column), at) in upper().zip(s.r.chunks_mut(2)) {
        if row == 0 && column != 0 {
            let d = r.signed(14);
            at.copy_from_slice(&[close + d, close - d]);
            continue;
        }
        at.copy_from_slice(&[r.signed(5), r.signed(5)]);
        for k in 0..4 {
            let ([a, b], [c, d]) = (parts[11 * k + row], parts[11 * k + column]);
            at[0] += a * c + b * d;
            at[1] += a * d - b * c;
        }
    }
    s.p.iter_mut().for_each(|v| *v = r.signed(3));
    s
}

fn systems(p: &mut Player, r: &mut Random, size: Size) {
    for _ in 0..times(size, [7, 90_000, 2_000_000]) {
        let s = any_system(r);
        solve(p, &s);
    }
}

fn close_calls(p: &mut Player, r: &mut Random, size: Size) {
    p.expect_close_calls();
    for _ in 0..times(size, [1, 10_000, 250_000]) {
        let s = close_call(r);
        solve(p, &s);
    }
}
