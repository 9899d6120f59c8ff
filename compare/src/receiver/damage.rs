//! Altered states and wrong arguments: each number of docs/RANGES.md at the ends of its range and past them, then anything at any moment.

use super::calls::{Call, INPUT, PLAY, POINTS, PUT, RIGHT};
use super::kinds::{any_call, any_signal, any_taps, load};
use super::misfits::{any_receiver, places};
use super::model::Receiver;
use super::player::Player;
use super::ranges::{END, TRAININGS};
use super::signal::SLOT;
use crate::eq::calls::Sums;
use crate::eq::model::{no_sums, DIAGONAL};
use crate::inputs::{cosine_table, pick, times, Random, Size};
use crate::phase::calls::{Corrected, Head, Held, Steps, Word};
use crate::sync::model::{Lock, Reading, Stage};
use crate::sync::streams::standard;

const TOP: i128 = END as i128;
const U64: i128 = u64::MAX as i128;
const U32: i128 = u32::MAX as i128;
const I64: [i128; 2] = [i64::MIN as i128, i64::MAX as i128];
const I32: [i128; 2] = [i32::MIN as i128, i32::MAX as i128];

/// How a number is altered; the second argument names one of several.
type Alter = fn(&mut Receiver, usize, i128);

/// Each number: its name, how it is altered, values in its range, values out of it; at the ends first.
type Number = (&'static str, Alter, &'static [i128], &'static [i128]);

const ANY: &[i128] = &[0, 1, U32 - 1, U32];
const EVEN: &[i128] = &[0, U32 - 1, 2, U32 - 3, 1 << 31];
const ODD: &[i128] = &[1, U32, 3, U32 - 2, (1 << 31) + 1];
const PARTS: &[i128] = &[-98_328, 98_328, -98_327, 98_327];
const NO_PARTS: &[i128] = &[-98_329, 98_329, 1_572_864, I32[0], I32[1]];
const SLOTS: &[i128] = &[0, 119, 1, 118];
const NO_SLOTS: &[i128] = &[120, 121, 255];
const PLACES: &[i128] = &[0, 9_295, 1, 9_294];
const NO_PLACES: &[i128] = &[9_296, 9_297, 65_535];
const SQUARES: &[i128] = &[0, SQUARE, 1, SQUARE - 1];
const PRODUCTS: &[i128] = &[-LEAST, SQUARE, -LEAST + 1, SQUARE - 1];
const TURNS: &[i128] = &[-TURN, TURN, -TURN + 1, TURN - 1];
/// Those of one training, so many times.
const SQUARE: i128 = TRAININGS as i128 * 2_147_483_648;
const LEAST: i128 = TRAININGS as i128 * 2_147_418_112;
const TURN: i128 = TRAININGS as i128 * 2_147_450_880;
const RIGHT_HAND: i128 = TRAININGS as i128 * 47_448_064;

const CARRIER: [Number; 5] = [
    ("phase", |x, _, v| x.nco.phase = v as u32, ANY, &[]),
    ("step", |x, _, v| x.nco.freq = v as i32, &[I32[0], I32[1], 0, -1], &[]),
    ("last angle", |x, _, v| trail(x).last = v as u32, EVEN, ODD),
    (
        "sum of differences",
        |x, _, v| trail(x).sum = v as i64,
        &[-126_701_535_232, 126_701_535_114, -126_701_535_231, 126_701_535_113],
        &[-126_701_535_233, 126_701_535_115, 126_701_535_173, I64[0], I64[1]],
    ),
    ("differences", |x, _, v| trail(x).steps = v as u32, &[0, 59, 1, 58], &[60, 61, U32]),
];

const RUN: [Number; 10] = [
    (
        "window",
        |x, k, v| x.sync.state.window[k % 48] = v as i16,
        &[-4_096, 4_096, -4_095, 4_095],
        &[-4_097, 4_097, i16::MIN as i128, i16::MAX as i128],
    ),
    ("base", |x, _, v| x.sync.state.base = v as u64, &[0, U64, TOP, TOP - 1], &[]),
    ("t", |x, _, v| x.sync.state.t = v as u64, &[0, TOP, 1, 22, 23, 24, TOP - 1], &[TOP + 1, U64]),
    (
        "peak",
        |x, _, v| x.sync.state.peak = v as u32,
        &[0, 3_758_114_816, 1, 3_758_114_815],
        &[3_758_114_817, 3_758_292_991, U32],
    ),
    ("peak's place", |x, _, v| x.sync.state.place = v as u16, PLACES, NO_PLACES),
    (
        "period's sum",
        |x, _, v| x.sync.state.sum = v as u64,
        &[0, 34_935_435_329_536, 1, 34_935_435_329_535],
        &[34_935_435_329_537, 34_937_091_644_336, U64],
    ),
    ("candidate", |x, _, v| x.sync.state.lock = Lock::Search { cand: v as u16, count: 2 }, PLACES, NO_PLACES),
    ("count", |x, _, v| x.sync.state.lock = Lock::Search { cand: 7, count: v as u32 }, &[0, 3, 1, 2], &[4, 5, U32]),
    ("offset", |x, _, v| x.sync.state.lock = Lock::Locked { offset: v as u16, misses: 2 }, PLACES, NO_PLACES),
    ("misses", |x, _, v| x.sync.state.lock = Lock::Locked { offset: 7, misses: v as u32 }, &[0, 7, 1, 6], &[8, 9, U32]),
];

const HEADS: [Number; 11] = [
    (
        "held head: at",
        |x, _, v| held_head(x, |h| h.at = v as u64),
        &[37_184, TOP - 24, 37_185, TOP - 25],
        &[37_183, TOP - 23, 0, U64],
    ),
    ("held head: F", |x, k, v| held_head(x, |h| h.f[k % 2] = v as i32), PARTS, NO_PARTS),
    ("held head: S", |x, k, v| held_head(x, |h| h.s[k % 2] = v as i32), PARTS, NO_PARTS),
    ("last Ssync", last_ssync, PARTS, NO_PARTS),
    ("majority", |x, _, v| x.sync.state.majority = v as i32, &[-8, 8, -7, 7], &[-9, 9, I32[0], I32[1]]),
    ("number", |x, _, v| x.sync.state.slot = Some((v as u8, 3)), SLOTS, NO_SLOTS),
    (
        "record: at",
        |x, _, v| x.sync.state.record = Some((v as u64, 3)),
        &[83_664, TOP - 24, 83_665, TOP - 25],
        &[83_663, TOP - 23, 0, U64],
    ),
    ("record: frame", |x, _, v| x.sync.state.record = Some((90_000, v as u32)), ANY, &[]),
    ("missed in a row", |x, _, v| x.sync.state.misses = v as u32, &[0, 1], &[2, 3, U32]),
    ("stray marks", |x, _, v| x.sync.state.stray = v as u32, ANY, &[]),
    ("missed marks", |x, _, v| x.sync.state.missed = v as u32, ANY, &[]),
];

const PHASE: [Number; 8] = [
    (
        "slot: at",
        |x, _, v| held(x).head.at = v as u64,
        &[46_480, TOP - 24, 46_481, TOP - 25],
        &[46_479, TOP - 23, TOP - 1, 0, U64],
    ),
    ("slot: angle", |x, _, v| held(x).head.theta = v as u32, EVEN, ODD),
    (
        "slot: size",
        |x, _, v| held(x).head.amp = v as i64,
        &[0, 179_130, 1, 179_129],
        &[-1, 179_131, 1 << 60, I64[0], I64[1]],
    ),
    ("slot: number", |x, _, v| held(x).head.slot = Some((v as u8, 5)), SLOTS, NO_SLOTS),
    ("slot: frame", |x, _, v| held(x).head.slot = Some((5, v as u32)), ANY, &[]),
    ("slot: correlation", |x, k, v| held(x).head.corr[k % 2] = v as i32, PARTS, NO_PARTS),
    ("slot: nco_phase", |x, _, v| held(x).head.nco_phase = v as u32, &[0], &[1, 2, U32]),
    ("slot: symbols", |x, _, v| held(x).count = v as u32, &[1, 9_296, 2, 9_295], &[0, 9_297, U32]),
];

/// Position and slot index of place k stand k further on.
const BACK: [Number; 16] = [
    ("waiting", waiting_count, &[0, 5], &[1, 4, 6, U32]),
    (
        "waiting: at",
        |x, k, v| waiting(x, k).at = (v as u64).wrapping_add((k % 5) as u64),
        &[55_771, TOP - 29, 55_772, TOP - 30],
        &[55_770, TOP - 28, TOP - 5, 0, U64 - 9],
    ),
    (
        "waiting: slot index",
        |x, k, v| waiting(x, k).j = v as u16 + (k % 5) as u16,
        &[9_291],
        &[9_290, 9_292, 0, 60_000],
    ),
    ("waiting: number", |x, k, v| waiting(x, k).slot = Some((v as u8, 5)), SLOTS, NO_SLOTS),
    ("waiting: frame", |x, k, v| waiting(x, k).slot = Some((7, v as u32)), ANY, &[]),
    (
        "last position",
        |x, _, v| x.line.last = Some(v as u64),
        &[55_775, TOP - 25, 55_776, TOP - 26],
        &[55_774, TOP - 24, 0, U64],
    ),
    ("fill", |x, _, v| x.eq.filled = v as u32, &[0, 11], &[1, 5, 6, 10, 12, U32]),
    (
        "training count",
        |x, _, v| sums(x).count = v as u32,
        &[0, 4_194_288, 1, 4_194_287],
        &[4_194_289, 4_194_304, 4_194_305, U32],
    ),
    (
        "diagonal: re",
        |x, k, v| sums(x).r[2 * DIAGONAL[k % 11]] = v as i64,
        SQUARES,
        &[-1, SQUARE + 1, 1 << 53, I64[0], I64[1]],
    ),
    ("diagonal: im", |x, k, v| sums(x).r[2 * DIAGONAL[k % 11] + 1] = v as i64, &[0], &[-1, 1, I64[0], I64[1]]),
    (
        "off it: re",
        |x, k, v| sums(x).r[2 * off_diagonal(k)] = v as i64,
        PRODUCTS,
        &[-LEAST - 1, SQUARE + 1, 1 << 53, I64[0], I64[1]],
    ),
    (
        "off it: im",
        |x, k, v| sums(x).r[2 * off_diagonal(k) + 1] = v as i64,
        TURNS,
        &[-TURN - 1, TURN + 1, 1 << 53, I64[0], I64[1]],
    ),
    (
        "right-hand entry",
        |x, k, v| sums(x).p[k % 22] = v as i64,
        &[-RIGHT_HAND, RIGHT_HAND, -RIGHT_HAND + 1, RIGHT_HAND - 1],
        &[-RIGHT_HAND - 1, RIGHT_HAND + 1, -LEAST, I64[0], I64[1]],
    ),
    ("sums that are not open", closed_sums, &[I64[0], I64[1], -1], &[]),
    ("bits", |x, _, v| x.points.bits = v as u8, &[0, 5, 1, 4], &[6, 7, 255]),
    ("k", |x, _, v| x.points.k = v as u32, &[0, 1 << 24, 1, (1 << 24) - 1], &[(1 << 24) + 1, U32]),
];

pub fn numbers() -> impl Iterator<Item = &'static Number> {
    CARRIER.iter().chain(&RUN).chain(&HEADS).chain(&PHASE).chain(&BACK)
}

// ---- what has to be there for a number to be looked at

fn trail(x: &mut Receiver) -> &mut Steps {
    x.nco.trail.get_or_insert(Steps { last: 6, sum: -6, steps: 7 })
}

fn held_head(x: &mut Receiver, alter: impl Fn(&mut Reading)) {
    let mut reading = Reading { at: 50_000, f: [900, -20], s: [70, 60] };
    alter(&mut reading);
    x.sync.state.stage = Stage::First(reading);
}

fn last_ssync(x: &mut Receiver, k: usize, v: i128) {
    let mut last = [700, -300];
    last[k % 2] = v as i32;
    x.sync.state.stage = Stage::Known { odd: k % 3 == 0, due: k % 5 == 0, last };
}

fn held(x: &mut Receiver) -> &mut Held {
    let head = Head { at: 50_000, word: Word::Fsync, theta: 8, amp: 900, slot: None, corr: [5, -900], nco_phase: 0 };
    x.phase.get_or_insert(Held { head, count: 77 })
}

/// Five wait.
fn waiting(x: &mut Receiver, k: usize) -> &mut Corrected {
    if x.line.count != 5 {
        x.line.count = 5;
        x.line.places = places(60_000).to_vec();
    }
    &mut x.line.places[k % 5]
}

fn waiting_count(x: &mut Receiver, _: usize, v: i128) {
    waiting(x, 0);
    x.line.count = v as u32;
}

/// They are open.
fn sums(x: &mut Receiver) -> &mut Sums {
    if !x.eq.opened {
        (x.eq.opened, x.eq.sums) = (true, no_sums(3));
    }
    &mut x.eq.sums
}

fn closed_sums(x: &mut Receiver, k: usize, v: i128) {
    x.eq.opened = false;
    (x.eq.sums.count, x.eq.sums.r[k % 132], x.eq.sums.p[k % 22]) = (v as u32, v as i64, v as i64);
}

/// One of the other 55 entries.
fn off_diagonal(k: usize) -> usize {
    (0..66).filter(|entry| !DIAGONAL.contains(entry)).nth(k % 55).expect("an entry")
}

// ---- the calls of such a state

fn any_symbol(r: &mut Random) -> [i8; 2] {
    [r.next() as i8, r.next() as i8]
}

fn some_points(bits: u8) -> Call {
    Call::Points { bits, k: 5, count: 2 << bits, points: [7; POINTS] }
}

/// A number out of range: 6, whatever the call; only what stands before it in document 01's table is told first.
fn out_of_range(p: &mut Player, r: &mut Random) {
    let next = p.desk.receiver.next() as u64;
    p.refuses(any_symbol(r), 6);
    assert_eq!(p.idle(), 6);
    for call in [some_points(2), Call::Taps { frame: 3, taps: any_taps(r) }, Call::Open(4), Call::End] {
        p.refused(call, 6);
    }
    p.refused(Call::Restart { at: pick(r, &[0, next, u64::MAX]), acc: 9_296 }, 6);
    match r.below(4) {
        0 => p.refused(Call::Restart { at: next, acc: 9_295 }, 1),
        1 => p.refused(some_points(6), 4),
        2 => p.refused(Call::Points { bits: 1, k: -1, count: 4, points: [7; POINTS] }, 5),
        _ => {
            let k = r.below(4) as usize;
            let mut lent = RIGHT;
            lent[k] = [1_025, 9_295, 0, 44_879][k];
            p.lend(lent);
            p.refuses(any_symbol(r), if k == 0 { 3 } else { 1 });
            p.lend(RIGHT);
        }
    }
}

/// A number in its range: no call is refused with 6.
fn in_range(p: &mut Player, r: &mut Random) {
    assert_eq!(p.idle(), 0);
    for call in [some_points(3), Call::Taps { frame: 3, taps: any_taps(r) }] {
        p.refused(call, 0);
    }
    let answer = p.push(any_symbol(r));
    assert_ne!(answer.refusal, 6);
    p.look();
    // the symbol may have led out of it
    if p.desk.receiver.in_range() {
        p.refused(Call::Open(4), 0);
        p.refused(Call::End, 0);
        let told = p.ask(Call::Restart { at: p.desk.receiver.next() as u64, acc: 9_296 });
        assert_ne!(told[0], 6);
    }
}

/// Each number at the ends of its range and past them, while the others are any in theirs.
fn each_number(p: &mut Player, r: &mut Random, size: Size) {
    for _ in 0..times(size, [0, 1, 12]) {
        p.start(&standard(), &cosine_table(), 0, 0);
        for (name, alter, inside, outside) in numbers() {
            for (k, v) in (0..).zip(inside.iter().chain(*outside)) {
                let mut x = any_receiver(p, r);
                alter(&mut x, r.below(1 << 20) as usize, *v);
                p.hand_in(&x);
                assert_eq!(x.in_range(), k < inside.len(), "{name}: {v}");
                if k < inside.len() {
                    in_range(p, r);
                } else {
                    out_of_range(p, r);
                }
            }
        }
    }
}

/// The numbers that stand for several, and how many.
const LISTS: [(&str, usize); 13] = [
    ("window", 48),
    ("held head: F", 2),
    ("held head: S", 2),
    ("last Ssync", 2),
    ("slot: correlation", 2),
    ("waiting: at", 5),
    ("waiting: slot index", 5),
    ("waiting: number", 5),
    ("diagonal: re", 11),
    ("diagonal: im", 11),
    ("off it: re", 55),
    ("off it: im", 55),
    ("right-hand entry", 22),
];

/// Each of several, alone, just past its range.
fn each_of_several(p: &mut Player, r: &mut Random) {
    p.start(&standard(), &cosine_table(), 0, 0);
    let right = any_receiver(p, r);
    for (name, count) in LISTS {
        let (_, alter, _, outside) = numbers().find(|n| n.0 == name).expect("a number");
        for (k, v) in (0..count).flat_map(|k| outside[..2].iter().map(move |v| (k, v))) {
            let mut x = right.clone();
            alter(&mut x, k, *v);
            p.hand_in(&x);
            p.refuses(any_symbol(r), 6);
        }
    }
}

/// For a sample: a number of each part just past its range, and put right again.
pub fn one_of_each_part(p: &mut Player, r: &mut Random) {
    const NAMES: [&str; 8] =
        ["differences", "window", "peak", "majority", "slot: symbols", "last position", "training count", "k"];
    let right = p.desk.receiver.clone();
    for (name, alter, _, outside) in numbers().filter(|n| NAMES.contains(&n.0)) {
        let mut x = right.clone();
        alter(&mut x, r.below(1 << 20) as usize, outside[0]);
        p.hand_in(&x);
        p.refuses(any_symbol(r), 6);
        if *name == "peak" {
            p.refused(Call::Open(9), 6);
        }
        p.hand_in(&right);
    }
    p.refuses(any_symbol(r), 0);
}

/// Any arguments at all.
fn any_length(r: &mut Random, right: u64) -> u64 {
    match r.below(4) {
        0 => right,
        1 => right.wrapping_add(r.near() as u64),
        2 => r.below(2 * right) as u64,
        _ => r.next(),
    }
}

fn wrong_stores(p: &mut Player, r: &mut Random) {
    p.lend(std::array::from_fn(|k| any_length(r, RIGHT[k])));
    p.push(any_symbol(r));
    p.idle();
    p.lend(RIGHT);
}

fn wrong_words(p: &mut Player, r: &mut Random) {
    let right = p.desk.words;
    let mut words = right;
    words[r.below(2) as usize][r.below(48) as usize] = r.next() as i8;
    p.ask(Call::Words(words));
    p.push(any_symbol(r));
    p.idle();
    p.ask(Call::Words(right));
}

fn wrong_points(r: &mut Random) -> Call {
    let any = r.next();
    let bits = pick(r, &[0, 1, 2, 3, 4, 5, 6, 200, any as u8]);
    let count = any_length(r, 2u64.wrapping_shl(bits.into()));
    let small = r.positive(24);
    let k = pick(r, &[0, 1 << 24, (1 << 24) + 1, -1, small, any as i64]);
    Call::Points { bits, k, count, points: std::array::from_fn(|_| r.next() as i16) }
}

fn wrong_restart(p: &Player, r: &mut Random) -> Call {
    let next = p.desk.receiver.next() as u64;
    let any = r.next();
    let at = pick(r, &[next, next.wrapping_add(1), next.wrapping_sub(1), END, any]);
    Call::Restart { at, acc: any_length(r, 9_296) }
}

/// A new receiver, with accumulators that may not do; an entry past the end of a store.
fn wrong_start(p: &mut Player, r: &mut Random) {
    match r.below(4) {
        0 => drop(p.ask(Call::New { at: r.next(), step: r.next() as i32, acc: any_length(r, 9_296) })),
        1 => drop(p.ask(Call::PutInput { k: any_length(r, INPUT as u64), bytes: [r.next() as i8; PUT] })),
        2 => drop(p.ask(Call::SetAcc { k: any_length(r, 9_297), v: r.next() as u32 })),
        _ => drop(p.ask(Call::SetTable { k: any_length(r, 1_025).max(1_024), v: r.next() as i16 })),
    }
}

/// A call that there is not.
fn no_call(p: &mut Player, r: &mut Random) {
    let mut call = [0; 24].map(|_: u64| r.next());
    call[0] = match r.below(3) {
        0 => pick(r, &[22, 31, 46, 63, 73, 128, 255, 256 + 33, (1 << 32) + 69, u64::MAX]),
        1 => pick(r, &[22, 46, 73]) + r.below(10) as u64,
        _ => call[0] | 128,
    };
    p.unknown(call);
}

/// Some calls with right or wrong arguments.
fn any_wrong(p: &mut Player, r: &mut Random) {
    match r.below(13) {
        0 => wrong_stores(p, r),
        1 => wrong_words(p, r),
        2 => drop(p.ask(wrong_points(r))),
        3 => drop(p.ask(wrong_restart(p, r))),
        4 => no_call(p, r),
        5 => drop(p.idle()),
        6 => wrong_start(p, r),
        7..10 => {
            for _ in 0..1 + r.below(2 * PLAY as u64) {
                if p.push(any_symbol(r)).refusal != 0 {
                    break;
                }
            }
        }
        _ => {
            let call = any_call(p, r);
            p.ask(call);
        }
    }
}

/// One number, or a few, at an end of the range or past it; or all of them in range, but not such as fit together.
fn alter(p: &mut Player, r: &mut Random) {
    let mut x = if r.below(8) == 0 { any_receiver(p, r) } else { p.desk.receiver.clone() };
    let all = numbers().count() as u64;
    for _ in 0..pick(r, &[1, 1, 1, 3]) {
        let (_, alter, inside, outside) = numbers().nth(r.below(all) as usize).expect("a number");
        let v = if outside.is_empty() || r.below(3) == 0 { pick(r, inside) } else { pick(r, outside) };
        alter(&mut x, r.below(1 << 20) as usize, v);
    }
    p.hand_in(&x);
}

/// A stream with wrong arguments and altered states on the way, one in so many symbols, most of which are put right again, so that it goes on to slots.
fn damaged_stream(p: &mut Player, r: &mut Random, often: u64) {
    let mut signal = any_signal(standard(), 2, r);
    (signal.amplitude, signal.payload, signal.noise) = (50.0, 0.5, 1);
    p.start(&signal.words, &cosine_table(), r.below(1 << 60) as u64, 0);
    load(p, 2, 90_000);
    let mut right = p.desk.receiver.clone();
    for _ in 0..9 * SLOT {
        if p.push(signal.next(r)).refusal != 0 {
            // what was left led there
            p.hand_in(&right);
        }
        if r.below(often) != 0 {
            continue;
        }
        right = p.desk.receiver.clone();
        if r.below(4) != 0 {
            alter(p, r);
        }
        (0..1 + r.below(4)).for_each(|_| any_wrong(p, r));
        if !p.desk.receiver.in_range() || r.below(32) != 0 {
            p.hand_in(&right);
        }
    }
}

/// Each answer is the model's, that is a refusal by document 01's number, after which stores and parts are as before, or what a taken call gives.
pub fn damage(p: &mut Player, r: &mut Random, size: Size) {
    each_number(p, r, size);
    each_of_several(p, r);
    let before = p.totals.all.slots;
    for turn in 0..times(size, [0, 5, 60]) {
        damaged_stream(p, r, [400, 1_500, 5_000][turn as usize % 3]);
    }
    let slots = p.totals.all.slots - before;
    assert!(size == Size::Sample || slots > 0, "no slot in a damaged stream");
}
