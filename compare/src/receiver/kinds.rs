//! The calls, by kind.

use super::calls::{Call, POINTS, RIGHT};
use super::damage::{damage, one_of_each_part};
use super::misfits::misfits;
use super::player::Player;
use super::ranges::END;
use super::signal::{points, Signal, SLOT};
use crate::demap::soft::any_points;
use crate::eq::calls::Call as EqCall;
use crate::frame::calls::Ones;
use crate::inputs::{cosine_table, pick, times, Random, Size};
use crate::stage::Least;
use crate::sync::calls::Event;
use crate::sync::streams::standard;

pub struct Kind {
    pub name: &'static str,
    pub play: fn(&mut Player, &mut Random, Size),
    pub least: Least,
}

/// What tests most in the shortest time comes first.
pub const KINDS: [Kind; 13] = [
    Kind {
        name: "bench values",
        play: bench_values,
        least: &[
            ("symbols fed", 2_200),
            ("by the Rust", 4_600),
            ("periods by the Rust", 1),
            ("symbols by Chain", 4_600),
        ],
    },
    Kind {
        name: "refusals",
        play: refusals,
        least: &[
            ("symbols fed", 36),
            ("by the Rust", 100),
            ("by the Rust, opened", 1),
            ("looks at its state", 15),
            ("symbols by Chain", 100),
            ("refused 1", 12),
            ("refused 2", 4),
            ("refused 3", 1),
            ("refused 4", 3),
            ("refused 5", 2),
            ("refused 7", 1),
        ],
    },
    Kind {
        name: "damage",
        play: damage,
        least: &[
            ("symbols fed", 120_000),
            ("heads", 9),
            ("losses", 1),
            ("slots", 5),
            ("feeds that stop before 6", 1),
            ("long feeds", 36),
            ("by the Rust", 2_500),
            ("by the Rust, opened", 180_000),
            ("looks at its state", 210),
            ("heads by the Rust, opened", 8),
            ("slots by the Rust, opened", 5),
            ("sums by the Rust", 42),
            ("symbols by Chain", 2_500),
            ("refused 1", 160),
            ("refused 2", 91),
            ("refused 3", 8),
            ("refused 4", 55),
            ("refused 5", 21),
            ("refused 6", 930),
            ("refused 7", 10),
            ("refused 255", 50),
        ],
    },
    Kind {
        name: "states that do not fit",
        play: misfits,
        least: &[
            ("symbols fed", 110_000),
            ("heads", 390),
            ("losses", 160),
            ("slots", 170),
            ("feeds that stop before 6", 140),
            ("feeds that stop before 7", 61),
            ("feeds that stop before 8", 6),
            ("long feeds", 30),
            ("by the Rust", 0),
            ("by the Rust, opened", 120_000),
            ("looks at its state", 1_200),
            ("heads by the Rust, opened", 250),
            ("losses by the Rust, opened", 82),
            ("slots by the Rust, opened", 100),
            ("sums by the Rust", 26),
            ("refused 6", 770),
            ("refused 7", 380),
            ("refused 8", 43),
        ],
    },
    Kind {
        name: "positions",
        play: positions,
        least: &[
            ("symbols fed", 64_000),
            ("heads", 2),
            ("slots", 1),
            ("feeds that stop before 7", 1),
            ("long feeds", 9),
            ("long feeds that stop", 1),
            ("by the Rust", 72_000),
            ("looks at its state", 33),
            ("heads by the Rust", 2),
            ("periods by the Rust", 7),
            ("slots by the Rust", 1),
            ("soft values by the Rust", 26_000),
            ("sums by the Rust", 1),
            ("trainings by the Rust", 31),
            ("symbols by Chain", 72_000),
            ("refused 7", 15),
        ],
    },
    Kind {
        name: "full sums",
        play: full_sums,
        least: &[
            ("symbols fed", 160_000),
            ("heads", 9),
            ("slots", 7),
            ("feeds that stop before 8", 1),
            ("long feeds", 26),
            ("long feeds that stop", 1),
            ("by the Rust", 130_000),
            ("by the Rust, opened", 37_000),
            ("looks at its state", 15),
            ("heads by the Rust", 6),
            ("periods by the Rust", 14),
            ("slots by the Rust", 4),
            ("soft values by the Rust", 35_000),
            ("heads by the Rust, opened", 3),
            ("slots by the Rust, opened", 3),
            ("sums by the Rust", 2),
            ("symbols by Chain", 130_000),
            ("refused 6", 13),
            ("refused 8", 3),
        ],
    },
    Kind {
        name: "noise",
        play: noise,
        least: &[
            ("symbols fed", 89_000),
            ("long feeds", 10),
            ("by the Rust", 120_000),
            ("looks at its state", 1),
            ("periods by the Rust", 12),
            ("symbols by Chain", 120_000),
        ],
    },
    Kind {
        name: "locked, all bits",
        play: locked,
        least: &[
            ("symbols fed", 250_000),
            ("heads", 25),
            ("slots", 22),
            ("long feeds", 44),
            ("by the Rust", 340_000),
            ("looks at its state", 33),
            ("heads by the Rust", 25),
            ("periods by the Rust", 35),
            ("slots by the Rust", 22),
            ("soft values by the Rust", 600_000),
            ("sums by the Rust", 2),
            ("trainings by the Rust", 520),
            ("symbols by Chain", 340_000),
        ],
    },
    Kind {
        name: "offsets 0 and 9,295",
        play: offsets,
        least: &[
            ("symbols fed", 250_000),
            ("heads", 26),
            ("losses", 1),
            ("slots", 23),
            ("long feeds", 38),
            ("by the Rust", 330_000),
            ("looks at its state", 27),
            ("heads by the Rust", 26),
            ("periods by the Rust", 33),
            ("losses by the Rust", 1),
            ("slots by the Rust", 23),
            ("soft values by the Rust", 630_000),
            ("symbols by Chain", 330_000),
        ],
    },
    Kind {
        name: "fades and cuts",
        play: fades,
        least: &[
            ("symbols fed", 290_000),
            ("heads", 36),
            ("losses", 1),
            ("slots", 33),
            ("long feeds", 52),
            ("by the Rust", 420_000),
            ("looks at its state", 45),
            ("heads by the Rust", 36),
            ("periods by the Rust", 44),
            ("losses by the Rust", 1),
            ("slots by the Rust", 33),
            ("soft values by the Rust", 1_200_000),
            ("sums by the Rust", 1),
            ("trainings by the Rust", 270),
            ("symbols by Chain", 420_000),
        ],
    },
    Kind {
        name: "calls on the way",
        play: on_the_way,
        least: &[
            ("symbols fed", 300_000),
            ("heads", 16),
            ("slots", 11),
            ("long feeds", 69),
            ("by the Rust", 490_000),
            ("looks at its state", 36),
            ("heads by the Rust", 16),
            ("periods by the Rust", 45),
            ("slots by the Rust", 11),
            ("soft values by the Rust", 100_000),
            ("sums by the Rust", 2),
            ("trainings by the Rust", 9),
            ("symbols by Chain", 490_000),
        ],
    },
    Kind {
        name: "extreme symbols",
        play: extremes,
        least: &[
            ("symbols fed", 100_000),
            ("long feeds", 17),
            ("by the Rust", 140_000),
            ("looks at its state", 1),
            ("periods by the Rust", 15),
            ("symbols by Chain", 140_000),
        ],
    },
    Kind {
        name: "markers and their loss",
        play: markers,
        least: &[
            ("symbols fed", 970_000),
            ("heads", 130),
            ("losses", 1),
            ("slots", 130),
            ("long feeds", 130),
            ("by the Rust", 1_200_000),
            ("looks at its state", 140),
            ("heads by the Rust", 130),
            ("periods by the Rust", 130),
            ("losses by the Rust", 1),
            ("slots by the Rust", 130),
            ("soft values by the Rust", 2_300_000),
            ("symbols by Chain", 1_200_000),
        ],
    },
];

pub(super) fn random_word(r: &mut Random) -> Ones {
    std::array::from_fn(|_| if r.below(2) == 0 { 1 } else { -1 })
}

pub(super) fn load(p: &mut Player, bits: usize, k: i64) {
    p.refused(Call::Points { bits: bits as u8, k, count: 2 << bits, points: points(bits) }, 0);
}

const ZEROS: Event =
    Event::Period { peak: 0, place: 0, sum: 0, locked: false, offset: 0, parity: 0, stray: 0, missed: 0 };

/// Document 01, "Capture" and "Bench values"; the marker loss at 9,295 is in a kind of its own.
fn bench_values(p: &mut Player, _: &mut Random, size: Size) {
    let mut bpsk = [0; POINTS];
    bpsk[..4].copy_from_slice(&[724, 724, -724, -724]);
    // in a sample the table stays zero: 1,024 calls less
    let table = if size == Size::Sample { Vec::new() } else { vec![32_767; 1_024] };
    p.start(&[[1; 48]; 2], &table, 0, 0);
    p.refused(Call::Points { bits: 1, k: 0, count: 4, points: bpsk }, 0);
    let mut told = Vec::new();
    for k in 0..9_319 {
        let answer = p.push([0; 2]);
        told.extend(answer.events.into_iter().filter(|&e| e != Event::Nothing).map(|e| (k, e)));
    }
    assert_eq!(told, [(9_318, ZEROS)], "zero symbols");
}

/// Heads at this offset, from this slot of a frame on; two frames without marks.
fn marker_loss(p: &mut Player, r: &mut Random, offset: u32, slot: u32) {
    let mut signal = Signal::new(standard(), 60.0, 2);
    (signal.turn, signal.slot) = (2e-6, slot);
    p.start(&signal.words, &cosine_table(), 1_000_000, 0);
    load(p, 2, 100_000);
    for _ in 0..offset {
        p.push([0; 2]);
    }
    // up to the first mark
    for _ in 0..(122 - slot) * SLOT {
        p.push(signal.next(r));
    }
    signal.marks = false;
    let mut lost = None;
    for _ in 0..240 * SLOT {
        let answer = p.push(signal.next(r));
        if answer.events.iter().any(|e| matches!(e, Event::Lost { .. })) {
            lost = Some(answer);
            break;
        }
    }
    let lost = lost.expect("a loss by markers");
    if offset == 9_295 {
        let at = p.desk.receiver.next() as u64;
        assert_eq!(lost.events, [Event::Lost { at }, ZEROS, Event::Nothing], "offset 9,295 and a marker loss");
    }
    p.look();
    // a lock again, and a mark, whose frame the record numbers
    (signal.marks, signal.slot) = (true, 107);
    for _ in 0..20 * SLOT {
        p.push(signal.next(r));
    }
}

fn noise(p: &mut Player, r: &mut Random, size: Size) {
    for reach in [1, 3, 20, 128] {
        p.start(&standard(), &cosine_table(), r.below(1 << 50) as u64, r.next() as i32);
        load(p, 3, 100_000);
        for _ in 0..times(size, [0, 60_000, 4_000_000]) {
            let symbol = [0; 2].map(|_| (r.below(2 * reach + 1) - reach as i64).clamp(-128, 127) as i8);
            p.push(symbol);
        }
    }
}

/// A signal of any strength, noise and carrier.
pub(super) fn any_signal(words: [Ones; 2], bits: usize, r: &mut Random) -> Signal {
    let amplitude = pick(r, &[4.0, 15.0, 40.0, 70.0, 100.0]);
    let mut signal = Signal::new(words, amplitude, bits);
    signal.noise = pick(r, &[0, 0, 1, (amplitude / 6.0) as u64, (amplitude / 3.0) as u64]);
    signal.phase = r.below(1_000) as f64 / 1_000.0;
    signal.turn = pick(r, &[0.0, 1e-7, -3e-6, 1e-5, 4e-5]);
    signal.drift = pick(r, &[0.0, 0.0, 1e-13, -1e-12]);
    signal.slot = r.below(120) as u32;
    signal.j = r.below(u64::from(SLOT)) as u32;
    signal.sign = pick(r, &[1.0, -1.0]);
    signal.payload = pick(r, &[1.0, 1.0, 0.5, 0.0]);
    signal
}

/// Sums on and off, so that each lock trains.
fn train(p: &mut Player, k: u32) {
    p.ask(Call::End);
    p.refused(Call::Open(k), 0);
}

fn locked(p: &mut Player, r: &mut Random, size: Size) {
    for turn in 0..times(size, [1, 5, 60]) {
        let bits = 1 + (turn % 5) as usize;
        let mut signal = any_signal(standard(), bits, r);
        p.start(&signal.words, &cosine_table(), r.below(1 << 60) as u64, (r.below(2_001) - 1_000) as i32);
        load(p, bits, pick(r, &[81_722, 1 << 20, 1 << 24]));
        train(p, turn as u32);
        for k in 0..times(size, [7, 15, 160]) * u64::from(SLOT) {
            p.push(signal.next(r));
            if k % 100_003 == 0 {
                p.look();
            }
        }
        p.ask(Call::End);
        p.look();
    }
}

/// The heads at the period's ends and beside them.
fn offsets(p: &mut Player, r: &mut Random, size: Size) {
    for offset in [0, 9_295, 1, 9_294].into_iter().take(times(size, [0, 2, 4]) as usize) {
        let mut signal = any_signal([random_word(r), random_word(r)], 3, r);
        (signal.amplitude, signal.payload, signal.j, signal.noise) = (40.0, 0.4, 0, 2);
        p.start(&signal.words, &cosine_table(), r.below(1 << 40) as u64, 0);
        load(p, 3, 90_000);
        for _ in 0..offset {
            p.push([0; 2]);
        }
        for _ in 0..times(size, [0, 9, 200]) * u64::from(SLOT) {
            p.push(signal.next(r));
        }
        // the signal moves and is stronger: heads are read on at the old place until the lock is lost, then it locks anew
        signal.amplitude = 110.0;
        (0..100 + r.below(500)).for_each(|_| _ = signal.next(r));
        for _ in 0..times(size, [0, 26, 60]) * u64::from(SLOT) {
            p.push(signal.next(r));
        }
    }
}

/// The signal goes away and comes back, loses symbols, has some twice, or another carrier.
fn mishap(p: &mut Player, signal: &mut Signal, r: &mut Random) {
    match r.below(4) {
        0 => {
            let strength = signal.amplitude;
            signal.amplitude = pick(r, &[0.0, 3.0]);
            for _ in 0..(1 + r.below(14)) * i64::from(SLOT) {
                p.push(signal.next(r));
            }
            signal.amplitude = strength;
        }
        1 => {
            for _ in 0..1 + r.below(400) {
                signal.next(r);
            }
            for _ in 0..14 * SLOT {
                p.push(signal.next(r));
            }
        }
        2 => {
            for _ in 0..1 + r.below(30) {
                let x = signal.next(r);
                p.push(x);
                p.push(x);
            }
            for _ in 0..10 * SLOT {
                p.push(signal.next(r));
            }
        }
        _ => signal.turn += 2e-6,
    }
}

fn fades(p: &mut Player, r: &mut Random, size: Size) {
    for _ in 0..times(size, [0, 1, 40]) {
        let mut signal = any_signal(standard(), 4, r);
        signal.amplitude = 60.0;
        p.start(&signal.words, &cosine_table(), r.below(1 << 60) as u64, 0);
        load(p, 4, 200_000);
        for turn in 0..6 {
            train(p, turn);
            for _ in 0..(5 + r.below(5)) * i64::from(SLOT) {
                p.push(signal.next(r));
            }
            mishap(p, &mut signal, r);
            p.look();
        }
    }
}

pub(super) fn any_taps(r: &mut Random) -> [i16; 22] {
    match r.below(3) {
        0 => std::array::from_fn(|_| r.next() as i16),
        1 => std::array::from_fn(|k| if k == 10 { 16_384 } else { r.signed(11) as i16 }),
        _ => std::array::from_fn(|_| pick(r, &[i16::MIN, -1, 0, 1, i16::MAX])),
    }
}

/// One call that is not a symbol, at any moment; its arguments are right.
pub(super) fn any_call(p: &Player, r: &mut Random) -> Call {
    match r.below(12) {
        0 | 1 => {
            let bits = 1 + r.below(5) as usize;
            let mut all = [0; POINTS];
            all[..2 << bits].copy_from_slice(&any_points(bits, r));
            Call::Points { bits: bits as u8, k: r.positive(24), count: 2 << bits, points: all }
        }
        2 | 3 => Call::Taps { frame: r.next() as u32, taps: any_taps(r) },
        4 | 5 => Call::Open(r.next() as u32),
        6 | 7 => Call::End,
        8 => Call::Look,
        9 => Call::Event(r.below(4) as u64),
        10 if r.below(4) == 0 => {
            let at = (p.desk.receiver.next() as u64).saturating_add(r.positive(30) as u64);
            Call::Restart { at, acc: 9_296 }
        }
        _ => Call::Eq(EqCall::Tell),
    }
}

/// A restart call among heads: the carrier's differences go, its phase and step stay, and the frame record numbers the next mark.
fn restarts(p: &mut Player, r: &mut Random) {
    let mut signal = Signal::new(standard(), 60.0, 1);
    signal.turn = 1e-6;
    p.start(&signal.words, &cosine_table(), 1 << 20, 300);
    for skipped in [0, 3 * 120 * u64::from(SLOT) + 5] {
        (signal.slot, signal.j) = (107, 8_000);
        (0..13 * SLOT).for_each(|_| drop(p.push(signal.next(r))));
        let (trail, record) = (p.desk.receiver.nco.trail, p.desk.receiver.sync.state.record);
        assert!(trail.is_some() && record.is_some(), "heads, and a mark among them");
        let at = p.desk.receiver.next() as u64 + skipped;
        p.refused(Call::Restart { at, acc: 9_296 }, 0);
        assert_eq!((p.desk.receiver.nco.trail, p.desk.receiver.sync.state.record), (None, record), "a restart");
    }
}

fn on_the_way(p: &mut Player, r: &mut Random, size: Size) {
    if size != Size::Sample {
        restarts(p, r);
    }
    for _ in 0..times(size, [0, 2, 100]) {
        let mut signal = any_signal([random_word(r), random_word(r)], 5, r);
        (signal.amplitude, signal.payload) = (55.0, 0.7);
        p.start(&signal.words, &cosine_table(), r.below(1 << 60) as u64, r.signed(12) as i32);
        let often = pick(r, &[700, 9_000, 60_000]);
        for _ in 0..40 * SLOT {
            p.push(signal.next(r));
            if r.below(often) == 0 {
                let call = any_call(p, r);
                p.refused(call, 0);
            }
        }
    }
}

/// Symbols, tables and words at their ends.
fn extremes(p: &mut Player, r: &mut Random, size: Size) {
    const PARTS: [i8; 6] = [-128, -127, -1, 0, 1, 127];
    for _ in 0..times(size, [0, 2, 40]) {
        let table: Vec<i16> = match r.below(3) {
            0 => (0..1_024).map(|_| r.next() as i16).collect(),
            1 => vec![pick(r, &[i16::MIN, i16::MAX, 1]); 1_024],
            _ => (0..1_024).map(|_| pick(r, &[i16::MIN, i16::MAX])).collect(),
        };
        p.start(&[random_word(r), random_word(r)], &table, r.below(1 << 40) as u64, r.next() as i32);
        load(p, 1 + r.below(5) as usize, r.positive(24));
        let mut left = 60_000;
        while left > 0 {
            let longest = pick(r, &[1, 2, 30, 3_000]);
            let count = (1 + r.below(longest)).min(left);
            let symbol = [pick(r, &PARTS), pick(r, &PARTS)];
            (0..count).for_each(|_| drop(p.push(symbol)));
            left -= count;
        }
        // one symbol again and again, and a symbol a period, lock
        let mut signal = Signal::new(p.desk.words, 127.0, 1);
        signal.payload = pick(r, &[0.0, 1.0]);
        for _ in 0..9 * SLOT {
            p.push(signal.next(r));
        }
    }
}

/// The end of all positions.
fn positions(p: &mut Player, r: &mut Random, size: Size) {
    let words = standard();
    for at in [END, END + 1, u64::MAX - 1, u64::MAX] {
        p.start(&words, &cosine_table(), at, 0);
        p.refuses([1; 2], 7);
        p.refuses([1; 2], 7);
    }
    p.start(&words, &cosine_table(), END - 2, 7);
    for refusal in [0, 0, 7, 7] {
        p.refuses([9, -9], refusal);
    }
    // no restart below the next symbol's position
    for at in [0, 100, END - 40] {
        p.start(&words, &cosine_table(), at, 0);
        (0..30).for_each(|_| drop(p.push([3, 4])));
        for (restart, refusal) in
            [(at, 7), (at + 29, 7), (at + 30, 0), (at + 29, 7), (at + 31, 0), (END, 0), (END - 1, 7)]
        {
            p.refused(Call::Restart { at: restart, acc: 9_296 }, refusal);
            p.look();
        }
    }
    // a lock shortly before the end: with a slot up to the very last symbol
    for turn in 0..times(size, [0, 2, 12]) {
        let mut signal = any_signal(words, 2, r);
        (signal.amplitude, signal.payload, signal.noise) = (50.0, 0.5, 1);
        let at = END - 7 * u64::from(SLOT) - r.below(20_000) as u64 - turn;
        p.start(&words, &cosine_table(), at, 0);
        load(p, 2, 90_000);
        p.refused(Call::Open(1), 0);
        p.long = turn % 2 == 0;
        while p.push(signal.next(r)).refusal == 0 {}
        p.long = false;
        for _ in 0..3 {
            p.refuses([5, 5], 7);
        }
        p.ask(Call::End);
        p.look();
    }
}

/// Frames with marks, marks that are missed, a loss by them at several offsets.
fn markers(p: &mut Player, r: &mut Random, size: Size) {
    let all = [(9_295, 108), (9_295, 3), (0, 3), (1_234, 107), (4_000, 60)];
    for (offset, slot) in all.into_iter().take(times(size, [0, 1, 5]) as usize) {
        marker_loss(p, r, offset, slot);
    }
    for _ in 0..times(size, [0, 0, 6]) {
        let mut signal = any_signal(standard(), 3, r);
        (signal.amplitude, signal.payload, signal.noise) = (50.0, 0.6, 3);
        p.start(&signal.words, &cosine_table(), r.below(1 << 40) as u64, 0);
        load(p, 3, 90_000);
        for k in 0..5 * 120 * SLOT {
            // about a mark in four is missed, and one head in a hundred has the other sign
            if signal.j == 0 {
                signal.marks = r.below(4) != 0;
                if r.below(100) == 0 {
                    signal.sign = -signal.sign;
                }
            }
            p.push(signal.next(r));
            if k % 500_000 == 0 {
                train(p, k);
            }
        }
    }
}

/// A table that is right about the angles of a signal without a carrier, and zero elsewhere: few entries to set.
fn sparse_table() -> Vec<i16> {
    let near = |k: usize| [0, 256, 512, 768, 1_024].iter().any(|&middle: &usize| k.abs_diff(middle) < 5);
    cosine_table().into_iter().enumerate().map(|(k, v)| if near(k) { v } else { 0 }).collect()
}

/// For the files that the replay program is run on: one lock with soft bits and training, and every kind of refusal.
pub fn sample(p: &mut Player, r: &mut Random) {
    bench_values(p, r, Size::Sample);
    let mut signal = Signal::new(standard(), 60.0, 2);
    (signal.noise, signal.slot, signal.payload) = (2, 115, 0.6);
    p.start(&signal.words, &sparse_table(), 1_000, 0);
    load(p, 2, 90_000);
    p.refused(Call::Open(7), 0);
    for k in 0..6 * SLOT + 300 {
        p.push(signal.next(r));
        if k == 5 * SLOT + 5_000 {
            p.refused(Call::Taps { frame: 3, taps: std::array::from_fn(|k| if k == 10 { 16_000 } else { 90 }) }, 0);
        }
    }
    one_of_each_part(p, r);
    p.refused(Call::End, 0);
    p.refused(Call::End, 0);
    refusals(p, r, Size::Sample);
    p.refused(Call::Restart { at: 100_000, acc: 9_296 }, 0);
    p.look();
    p.start(&signal.words, &sparse_table(), END - 2, 7);
    for refusal in [0, 0, 7, 7] {
        p.refuses([9, -9], refusal);
    }
}

/// Stores and tables of a wrong length, words with a wrong entry, loads that are refused: which number, which first, and that nothing changes.
fn refusals(p: &mut Player, r: &mut Random, size: Size) {
    if size != Size::Sample {
        p.start(&standard(), &cosine_table(), 77, 5);
        (0..200).for_each(|_| drop(p.push([r.next() as i8, r.next() as i8])));
    }
    let right = p.desk.words;
    let mut wrong = right;
    wrong[1][47] = 0;
    for (k, lengths) in
        [[0, 1_023, 1_025], [9_295, 9_297, 0], [18_591, 18_593, 0], [44_879, 0, 1]].into_iter().enumerate()
    {
        for length in lengths.into_iter().take(times(size, [1, 3, 3]) as usize) {
            let mut lent = RIGHT;
            lent[k] = length;
            p.lend(lent);
            p.refuses([5, 5], if k == 0 { 3 } else { 1 });
            p.ask(Call::Words(wrong));
            p.refuses([5, 5], if k == 0 { 2 } else { 1 });
            p.ask(Call::Words(right));
        }
    }
    p.lend([1_024, 9_296, 18_592, 44_880]);
    p.refuses([5, -5], 0);
    p.lend(RIGHT);
    wrong_words(p);
    for acc in [0, 9_295, 9_297] {
        p.refused(Call::Restart { at: END, acc }, 1);
        p.refused(Call::Restart { at: 0, acc }, 1);
    }
    p.refused(Call::Restart { at: 0, acc: 9_296 }, 7);
    wrong_loads(p, r);
    p.look();
}

fn wrong_words(p: &mut Player) {
    let right = p.desk.words;
    for (k, entry) in [(0, 0), (47, 2), (48, -2), (95, 127), (60, -128)] {
        let mut wrong = right;
        wrong[k / 48][k % 48] = entry;
        p.ask(Call::Words(wrong));
        p.refuses([7, -7], 2);
    }
    p.ask(Call::Words(right));
    p.refuses([7, -7], 0);
}

fn wrong_loads(p: &mut Player, r: &mut Random) {
    let mut points = [0; POINTS];
    points.iter_mut().for_each(|v| *v = r.next() as i16);
    for (bits, count, k, refusal) in [
        (0, 2, 5, 4),
        (6, 80, 5, 4),
        (255, 4, 5, 4),
        (1, 3, 5, 4),
        (1, 5, 5, 4),
        (5, 63, -1, 4),
        (5, 80, 5, 4),
        (5, 64, -1, 5),
        (5, 64, (1 << 24) + 1, 5),
        (2, 8, i64::MIN, 5),
        (2, 8, i64::MAX, 5),
        (5, 64, 1 << 24, 0),
        (3, 16, 0, 0),
    ] {
        p.refused(Call::Points { bits, k, count, points }, refusal);
    }
}

/// The count of the sums is another.
fn counted(p: &mut Player, count: impl FnOnce(u32) -> u32) {
    let mut x = p.desk.receiver.clone();
    x.eq.sums.count = count(x.eq.sums.count);
    p.hand_in(&x);
}

/// Counts that no calls leave.
fn too_many(p: &mut Player) {
    for count in [4_194_289, 4_194_304, u32::MAX] {
        counted(p, |_| count);
        p.refuses([3, -4], 6);
        p.refused(Call::End, 6);
    }
}

/// A training count at its limit: a slot makes 24 trainings, or 5 fewer if it is the first. It is all of them or none. So calls leave 4,194,288 at
/// most, and a greater count is 6, handed in or left by a slot whose count was one that calls do not leave.
fn full_sums(p: &mut Player, r: &mut Random, size: Size) {
    const LIMIT: u32 = 4_194_304;
    for spare in [16, 23, 24, 40, 21, 25, 17, 39].into_iter().take(times(size, [0, 4, 8]) as usize) {
        let mut signal = Signal::new(standard(), 50.0, 1);
        // heads in the midst of a period, so that a long feed comes before each
        (signal.noise, signal.payload, signal.slot, signal.j) = (1, 0.5, 3, 5_000);
        p.start(&signal.words, &cosine_table(), 1 << 33, 0);
        load(p, 1, 90_000);
        let mut slots = 0;
        let mut refused = 0;
        // full for the next slot; or it is taken, and the count behind it is full, or out of range
        let full = if (24..40).contains(&spare) { 6 } else { 8 };
        // up to the slot that finds them full
        p.long = spare % 2 == 0;
        for _ in 0..(9 + spare / 24) * SLOT {
            let answer = p.push(signal.next(r));
            slots += u32::from(answer.corrected > 0);
            if answer.corrected > 0 && slots == 2 {
                p.refused(Call::Open(5), 0);
                too_many(p);
                counted(p, |_| LIMIT - spare);
            }
            if answer.refusal != 0 {
                assert_eq!(answer.refusal, full);
                refused += 1;
                p.look();
                // nothing has changed: the same symbol is refused again, and taken once there is room
                let x = signal.next(r);
                p.refuses(x, full);
                counted(p, |n| n - 100);
                p.refuses(x, 0);
            }
        }
        assert!(refused > 0, "sums that are full");
        p.long = false;
        p.refused(Call::End, 0);
        p.look();
    }
}
