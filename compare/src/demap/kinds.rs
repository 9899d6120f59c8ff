//! The kinds of calls.

use super::calls::{Block, Call};
use super::model::{labels, Force};
use super::player::{Player, ALL};
use super::soft::{any_points, any_scale, any_symbol};
use crate::inputs::{pick, times, Random, Size};
use crate::stage::Least;

pub struct Kind {
    pub name: &'static str,
    pub play: fn(&mut Player, &mut Random, Size),
    pub least: Least,
}

pub const KINDS: [Kind; 10] = [
    Kind {
        name: "refusals in order",
        play: refusals,
        least: &[
            ("by the Rust", 0),
            ("by the Rust, opened", 1),
            ("looks at its state", 1),
            ("refused 4", 880),
            ("refused 6", 21),
            ("refused 8", 1),
        ],
    },
    Kind {
        name: "limits of learning",
        play: learning_limits,
        least: &[
            ("by the Rust", 0),
            ("by the Rust, opened", 2_600),
            ("looks at its state", 160),
            ("refused 6", 3_200),
            ("refused 8", 33),
        ],
    },
    Kind {
        name: "limits in force",
        play: force_limits,
        least: &[("by the Rust", 21_000), ("looks at its state", 3_100), ("refused 6", 2_400)],
    },
    Kind { name: "halves", play: halves, least: &[("by the Rust", 400_000), ("looks at its state", 30_000)] },
    Kind { name: "frames", play: frames, least: &[("by the Rust", 1_400_000), ("looks at its state", 37_000)] },
    Kind { name: "next after next", play: chains, least: &[("by the Rust", 550_000), ("looks at its state", 17_000)] },
    Kind {
        name: "handed-in states",
        play: handed_in,
        least: &[
            ("by the Rust", 0),
            ("by the Rust, opened", 400_000),
            ("looks at its state", 14_000),
            ("refused 6", 15_000),
            ("refused 8", 8_700),
            ("refused 255", 290),
        ],
    },
    Kind { name: "states led to", play: led, least: &[("by the Rust", 140_000), ("looks at its state", 10_000)] },
    Kind {
        name: "slices and others",
        play: slices,
        least: &[("by the Rust", 8_000), ("looks at its state", 1), ("refused 4", 6_400), ("refused 255", 1_000)],
    },
    Kind {
        name: "metrics and blocks",
        play: blocks,
        least: &[
            ("by the Rust", 250_000),
            ("looks at its state", 1),
            ("refused 1", 77_000),
            ("refused 4", 18_000),
            ("refused 5", 13_000),
            ("refused 255", 22_000),
        ],
    },
];

const MOST: u32 = 1 << 26;
const LOW_SUM: i64 = -(1 << 41);
const TOP_SUM: i64 = (1 << 41) - (1 << 26);
const LOW_NOISE: i64 = -(1 << 59);
const TOP_NOISE: i64 = (1 << 59) + (1 << 57);
const LOW_FIGURE: i64 = -(1 << 33);
const TOP_FIGURE: i64 = (1 << 33) + (1 << 31);
const TOP_SCALE: i64 = 1 << 24;
const BEST: i64 = 1 << 33;

/// Of a sample only one in so many.
fn kept(size: Size, one_in: u64, r: &mut Random) -> bool {
    size != Size::Sample || r.below(one_in) == 0
}

fn any_pair(r: &mut Random) -> [i16; 2] {
    [0; 2].map(|_: i16| match r.below(8) {
        0 => pick(r, &[i16::MIN, -1, 0, 1, i16::MAX]),
        1 | 2 => r.next() as i16,
        _ => r.signed(11) as i16,
    })
}

/// A least metric that a symbol may have, or any that is taken.
fn any_best(y: [i16; 2], r: &mut Random) -> i64 {
    match r.below(8) {
        0 => pick(r, &[-BEST, -BEST + 1, -1, 0, 1, BEST - 1, BEST]),
        1 => r.signed(33),
        _ => r.positive(17) - y.iter().map(|&v| i64::from(v).pow(2)).sum::<i64>(),
    }
}

fn any_sample(r: &mut Random) -> ([i16; 2], i64) {
    let y = any_pair(r);
    (y, any_best(y, r))
}

/// Asks for all that a frame has taught.
fn frame_end(p: &mut Player, frame: u32, r: &mut Random) {
    if r.below(2) == 0 {
        (1..=5).for_each(|bits| {
            p.points(bits);
        });
        p.figure();
    }
    p.next(frame);
    (1..=5).for_each(|bits| {
        p.part(bits);
    });
}

/// Frames of slots of mixed widths, each slot with its pilots or the first of them, and noise samples.
fn frames(p: &mut Player, r: &mut Random, size: Size) {
    p.start();
    for frame in 0..times(size, [1, 16_000, 150_000]) {
        p.new_learn();
        let slots = if size == Size::Sample { 3 } else { r.below(12) };
        for _ in 0..slots {
            let bits = 1 + r.below(5) as u64;
            let pilots = if r.below(4) == 0 { r.below(32) as u64 } else { 32 };
            let skipped = if r.below(6) == 0 { r.below(32) as u64 } else { 32 };
            for t in (0..pilots).filter(|&t| t != skipped) {
                p.pilot(bits, t, any_pair(r));
            }
        }
        for _ in 0..r.below(30) {
            let (y, best) = any_sample(r);
            p.noise(y, best);
        }
        if frame % 16 == 0 {
            p.labels();
        }
        frame_end(p, frame as u32, r);
    }
}

/// Few and small pilots, so that most means are at a half, of either sign.
fn halves(p: &mut Player, r: &mut Random, size: Size) {
    p.start();
    for frame in 0..times(size, [3, 60_000, 600_000]) {
        p.new_learn();
        let bits = 1 + r.below(2) as u64;
        let reach = 1 + r.below(4);
        for t in 0..(1 << bits) * (1 + r.below(4) as u64) {
            p.pilot(bits, t % 32, [0; 2].map(|_: i16| (r.below(2 * reach as u64 + 1) - reach) as i16));
        }
        for _ in 0..r.below(5) {
            p.noise([0; 2], r.below(9) - 4);
        }
        p.points(bits);
        p.figure();
        p.next((frame as u32).wrapping_mul(0x9E37_79B9));
        p.part(bits);
    }
}

/// Without a sample the noise figure stays; without pilots the points are nominal again.
fn chains(p: &mut Player, r: &mut Random, size: Size) {
    p.start();
    for _ in 0..times(size, [2, 30_000, 300_000]) {
        p.new_learn();
        let taught = r.below(6) as u64;
        for bits in (1..=5).filter(|&b| b <= taught) {
            for t in 0..1 << bits {
                p.pilot(bits, t, any_pair(r));
            }
        }
        if r.below(3) == 0 {
            let (y, best) = any_sample(r);
            p.noise(y, best);
        }
        for _ in 0..1 + r.below(3) {
            frame_end(p, r.next() as u32, r);
        }
        match r.below(8) {
            0 => p.start(),
            1 => p.hand_in_force(any_force(r)),
            _ => {}
        }
    }
}

fn any_force(r: &mut Random) -> Force {
    let flags = r.next();
    Force {
        learned: std::array::from_fn(|b| flags >> b & 1 == 1),
        n0: pick(r, &[LOW_FIGURE, -1, 0, 255, 256, 257, 52_556, BEST, BEST + 1, TOP_FIGURE]),
        k: pick(r, &[0, 1, 512, 513, 81_722, TOP_SCALE]),
        from: (r.below(2) == 0).then_some(r.next() as u32),
    }
}

const WRONG_BITS: [u64; 9] = [0, 6, 7, 32, 63, 64, 65, 1 << 32, u64::MAX];
const WRONG_PILOTS: [u64; 6] = [32, 33, 63, 64, 1 << 32, u64::MAX];

/// A state that no other limit is close to.
fn plain(p: &mut Player) {
    p.ask(Call::New);
    for a in 0..if p.sparse { 3 } else { 62 } {
        p.ask(Call::PutCount { k: a, v: 3 });
        p.ask(Call::PutSum { k: 2 * a, v: 7 * a as i64 - 200 });
        p.ask(Call::PutSum { k: 2 * a + 1, v: 100 - 5 * a as i64 });
    }
    p.ask(Call::PutNoise { noise: 1_000, samples: 7 });
    p.ask(Call::Default);
}

/// Each refusal alone, and each before those that come after it.
fn refusals(p: &mut Player, r: &mut Random, size: Size) {
    let z = [3, -4];
    plain(p);
    let wrong_bits = &WRONG_BITS[..times(size, [3, 9, 9]) as usize];
    let lengths = times(size, [125, 0, 0])..=times(size, [125, 130, 130]);
    for &bits in wrong_bits {
        p.refused(Call::Pilot { bits, t: 0, z }, 4);
        p.refused(Call::Points { bits, learned: ALL }, 4);
        p.refused(Call::Part { bits, learned: ALL, nominal: ALL }, 4);
    }
    for bits in 1..=5 {
        WRONG_PILOTS.iter().for_each(|&t| p.refused(Call::Pilot { bits, t, z }, 6));
        p.refused(Call::Pilot { bits, t: 31, z }, 0);
    }
    for n in lengths.chain([1 << 32, u64::MAX]).filter(|&n| n != ALL) {
        for bits in [0, 1, 5, 6] {
            p.refused(Call::Points { bits, learned: n }, 4);
            p.refused(Call::Part { bits, learned: n, nominal: ALL }, 4);
            p.refused(Call::Part { bits, learned: ALL, nominal: n }, 4);
        }
        p.refused(Call::Next { frame: 1, learned: n }, 4);
    }
    for best in [BEST + 1, -BEST - 1, i64::MAX, i64::MIN] {
        p.refused(Call::Noise { y: z, best }, 6);
    }
    for best in [BEST, -BEST] {
        p.refused(Call::Noise { y: z, best }, 0);
    }
    p.tell_all();
    // 4 before 6: a sum is out of range
    p.ask(Call::PutSum { k: r.below(124) as u64, v: TOP_SUM + 1 });
    for &bits in wrong_bits {
        p.refused(Call::Pilot { bits, t: 0, z }, 4);
        p.refused(Call::Pilot { bits, t: 32, z }, 4);
        p.refused(Call::Points { bits, learned: ALL }, 4);
    }
    p.refused(Call::Points { bits: 1, learned: 123 }, 4);
    p.refused(Call::Points { bits: 1, learned: ALL }, 6);
    p.refused(Call::Next { frame: 2, learned: 125 }, 4);
    p.refused(Call::Next { frame: 2, learned: ALL }, 6);
    p.refused(Call::Pilot { bits: 1, t: 0, z }, 6);
    p.refused(Call::Noise { y: z, best: 0 }, 6);
    p.refused(Call::Figure, 6);
    // 6 before 8: a full label and full samples
    p.ask(Call::PutCount { k: 0, v: MOST });
    p.ask(Call::PutNoise { noise: 0, samples: MOST });
    p.refused(Call::Pilot { bits: 1, t: 0, z }, 6);
    p.refused(Call::Noise { y: z, best: 0 }, 6);
    p.tell_all();
    plain(p);
    p.ask(Call::PutCount { k: 0, v: MOST });
    p.ask(Call::PutNoise { noise: 0, samples: MOST });
    p.refused(Call::Pilot { bits: 1, t: 0, z }, 8);
    p.refused(Call::Pilot { bits: 1, t: 2, z }, 8);
    p.refused(Call::Pilot { bits: 1, t: 32, z }, 6);
    p.refused(Call::Pilot { bits: 0, t: 0, z }, 4);
    p.refused(Call::Pilot { bits: 1, t: 1, z }, 0);
    p.refused(Call::Noise { y: z, best: 0 }, 8);
    p.refused(Call::Noise { y: z, best: BEST + 1 }, 6);
    p.tell_all();
}

/// All calls on a state that is in range, or not.
fn all_calls(p: &mut Player, taken: bool, r: &mut Random) {
    let refusal = if taken { 0 } else { 6 };
    p.refused(Call::Figure, refusal);
    for bits in 1..=5 {
        p.refused(Call::Points { bits, learned: ALL }, refusal);
    }
    p.refused(Call::Next { frame: r.next() as u32, learned: ALL }, refusal);
    p.ask(Call::Force);
    p.slices();
    // its figure may be out of range for the next call
    p.ask(Call::Next { frame: 1, learned: ALL });
    p.ask(Call::Default);
    // the first of these may leave a number past its range
    let z = any_pair(r);
    let pilot = Call::Pilot { bits: 1 + r.below(5) as u64, t: r.below(32) as u64, z };
    let noise = Call::Noise { y: z, best: any_best(z, r) };
    let (first, second) = if r.below(2) == 0 { (pilot, noise) } else { (noise, pilot) };
    let told = p.ask(first);
    assert!((told[0] == 6) != taken, "THE MODEL IS WRONG: {first:?}");
    p.ask(second);
    p.ask(Call::Label { a: r.below(62) as u64 });
}

/// Every number of the state at its limits and past them.
fn learning_limits(p: &mut Player, r: &mut Random, size: Size) {
    let some = |n: u64, r: &mut Random| (0..n).filter(|_| size != Size::Sample || r.below(n) < 2).collect::<Vec<_>>();
    let sums = [(LOW_SUM, true), (TOP_SUM, true), (LOW_SUM - 1, false), (TOP_SUM + 1, false)];
    let far = [(i64::MIN, false), (i64::MAX, false), (0, true)];
    for k in some(124, r) {
        plain(p);
        for (v, taken) in sums.into_iter().chain(far) {
            if !kept(size, 2, r) {
                continue;
            }
            p.ask(Call::PutSum { k, v });
            all_calls(p, taken, r);
        }
    }
    for k in some(62, r) {
        for (v, taken) in [(MOST - 1, true), (MOST, true), (MOST + 1, false), (u32::MAX, false), (0, true)] {
            if !kept(size, 3, r) {
                continue;
            }
            plain(p);
            p.ask(Call::PutCount { k, v });
            all_calls(p, taken, r);
            p.labels();
        }
    }
    let noises = [(LOW_NOISE, true), (TOP_NOISE, true), (LOW_NOISE - 1, false), (TOP_NOISE + 1, false)];
    for (noise, taken) in noises.into_iter().chain(far) {
        for samples in [0, 1, 2, MOST - 1, MOST, MOST + 1, u32::MAX] {
            if !kept(size, 8, r) {
                continue;
            }
            plain(p);
            p.ask(Call::PutNoise { noise, samples });
            all_calls(p, taken && samples <= MOST, r);
        }
    }
    // every label's last pilot, and the last sample: one more is taken, then none
    for bits in 1..=times(size, [2, 5, 5]) {
        plain(p);
        for a in labels(bits) {
            p.ask(Call::PutCount { k: a as u64, v: MOST - 1 });
        }
        for t in 0..1 << bits {
            p.refused(Call::Pilot { bits, t, z: [9, -9] }, 0);
            p.refused(Call::Pilot { bits, t, z: [9, -9] }, 8);
        }
        p.labels();
    }
    plain(p);
    p.ask(Call::PutNoise { noise: 5, samples: MOST - 1 });
    p.refused(Call::Noise { y: [1, 1], best: 1 }, 0);
    p.refused(Call::Noise { y: [1, 1], best: 1 }, 8);
    p.refused(Call::Figure, 0);
    p.tell_all();
}

fn force_limits(p: &mut Player, r: &mut Random, size: Size) {
    let figures = [
        (LOW_FIGURE - 1, false),
        (LOW_FIGURE, true),
        (LOW_FIGURE + 1, true),
        (0, true),
        (TOP_FIGURE - 1, true),
        (TOP_FIGURE, true),
        (TOP_FIGURE + 1, false),
        (i64::MIN, false),
        (i64::MAX, false),
    ];
    let scales = [
        (-1, false),
        (0, true),
        (1, true),
        (TOP_SCALE, true),
        (TOP_SCALE + 1, false),
        (i64::MIN, false),
        (i64::MAX, false),
    ];
    for _ in 0..times(size, [1, 100, 2_000]) {
        for (n0, figure) in figures {
            for (k, scale) in scales {
                if !kept(size, 12, r) {
                    continue;
                }
                p.new_learn();
                for t in 0..r.below(3) as u64 {
                    p.pilot(1, t, any_pair(r));
                }
                if r.below(2) == 0 {
                    p.noise(any_pair(r), r.signed(33));
                }
                p.hand_in_force(Force { n0, k, ..any_force(r) });
                for bits in 1..=5 {
                    p.part(bits);
                }
                let refusal = p.next(r.next() as u32);
                assert_eq!(refusal == 0, figure && scale, "THE MODEL IS WRONG");
                p.slices();
            }
        }
    }
}

/// Anything, and calls on it.
fn handed_in(p: &mut Player, r: &mut Random, size: Size) {
    for _ in 0..times(size, [3, 20_000, 200_000]) {
        p.ask(Call::New);
        let bits = 1 + r.below(times(size, [2, 5, 5])) as u64;
        for a in labels(bits) {
            let v = match r.below(8) {
                0 => pick(r, &[0, 1, MOST - 1, MOST]),
                _ => 1 + r.positive(25) as u32,
            };
            p.ask(Call::PutCount { k: a as u64, v });
            for k in [2 * a, 2 * a + 1] {
                // about a half, past what 16 bits hold, or anything
                let v = match r.below(4) {
                    0 => r.signed(40),
                    1 => i64::from(v) * pick(r, &[32_767, 32_768, -32_768, -32_769]) + i64::from(v) / 2 + r.near(),
                    _ => i64::from(v) * r.signed(14) - i64::from(v) / 2 + r.near(),
                };
                p.ask(Call::PutSum { k: k as u64, v: v.clamp(LOW_SUM, TOP_SUM) });
            }
        }
        let samples = r.positive(26) as u32;
        let noise = (i64::from(samples) * r.signed(33) + r.signed(8)).clamp(LOW_NOISE, TOP_NOISE);
        p.ask(Call::PutNoise { noise, samples });
        let told = p.ask(Call::Points { bits, learned: ALL });
        assert!(told[0] == 0);
        p.ask(Call::LearnedDigest);
        p.ask(Call::Figure);
        p.ask(Call::PutForce(any_force(r)));
        p.ask(Call::Next { frame: r.next() as u32, learned: ALL });
        p.ask(Call::Force);
        p.ask(Call::LearnedDigest);
        p.ask(Call::Part { bits, learned: ALL, nominal: ALL });
        for _ in 0..r.below(times(size, [8, 40, 40])) {
            let z = any_pair(r);
            p.ask(Call::Pilot { bits, t: r.below(33) as u64, z });
            p.ask(Call::Noise { y: z, best: any_best(z, r) });
        }
        p.ask(Call::Label { a: r.below(64) as u64 });
        if r.below(16) == 0 {
            p.labels();
        }
    }
}

/// States that the Rust is led to, and calls on them.
fn led(p: &mut Player, r: &mut Random, size: Size) {
    p.start();
    for _ in 0..times(size, [2, 20_000, 200_000]) {
        let bits = 1 + r.below(times(size, [2, 5, 5])) as u64;
        let few = r.below(8) == 0;
        let turns = 1 + r.below(5) as u64;
        let mut pilots: Vec<_> = (0..turns << bits).map(|t| (t % 32, any_pair(r))).collect();
        pilots.retain(|_| !few || r.below(4) != 0);
        let samples: Vec<_> = (0..r.below(4)).map(|_| any_sample(r)).collect();
        p.hand_in_led(bits, &pilots, &samples);
        p.points(bits);
        p.figure();
        for t in 0..r.below(8) as u64 {
            p.pilot(bits, t, any_pair(r));
        }
        frame_end(p, r.next() as u32, r);
    }
}

/// Slices of any contents, their places past the end, and calls that there are not.
fn slices(p: &mut Player, r: &mut Random, size: Size) {
    for _ in 0..times(size, [1, 200, 4_000]) {
        for k in (0..126).chain([127, 1 << 16, 1 << 32, u64::MAX]) {
            if !kept(size, 4, r) {
                continue;
            }
            p.ask(Call::SetLearned { k, v: r.next() as i16 });
            p.ask(Call::SetNominal { k, v: r.next() as i16 });
        }
        p.slices();
        p.ask(Call::New);
        for flags in 0..times(size, [3, 32, 32]) {
            let learned = std::array::from_fn(|b| flags >> b & 1 == 1);
            p.ask(Call::PutForce(Force { learned, n0: 1, k: 1, from: None }));
            for bits in 0..7 {
                p.ask(Call::Part { bits, learned: ALL, nominal: ALL });
            }
            p.ask(Call::Force);
        }
        for k in [124, 125, 1 << 32, u64::MAX] {
            p.ask(Call::PutSum { k, v: 1 });
            p.ask(Call::PutCount { k: k - 62, v: 1 });
            p.ask(Call::Label { a: k - 62 });
        }
        p.tell_all();
        for op in [20, 21, 255, 256, 1 << 32, u64::MAX] {
            p.unknown(std::array::from_fn(|k| if k == 0 { op } else { r.next() }));
        }
        p.slices();
    }
}

/// Blocks of up to eight symbols, the lengths mostly right.
fn blocks(p: &mut Player, r: &mut Random, size: Size) {
    for _ in 0..times(size, [2, 20_000, 300_000]) {
        let bits = 1 + r.below(times(size, [2, 5, 5])) as u64;
        let points = any_points(bits as usize, r);
        for (k, &v) in (0..).zip(&points) {
            p.ask(Call::SetNominal { k, v });
        }
        for j in 0..times(size, [3, 9, 9]) {
            let y = any_symbol(&points, r);
            p.ask(Call::SetLearned { k: 2 * j, v: y[0] });
            p.ask(Call::SetLearned { k: 2 * j + 1, v: y[1] });
            p.metric(y, [points[0], points[1]]);
        }
        for _ in 0..times(size, [8, 30, 30]) {
            let symbols = r.below(18) as u64;
            let room = match r.below(4) {
                0 => (symbols / 2 * bits).saturating_sub(r.below(2) as u64),
                1 => symbols / 2 * bits,
                _ => r.below(44) as u64,
            };
            let right = Block { symbols, points: 2 << bits, room, bits, k: any_scale(r), from: r.below(39) as u64 };
            p.block(match r.below(16) {
                0 => Block { points: r.below(130) as u64, ..right },
                1 => Block { bits: pick(r, &WRONG_BITS), ..right },
                2 => Block { k: pick(r, &[-1, TOP_SCALE + 1, i64::MIN, i64::MAX]), ..right },
                3 => Block { from: pick(r, &[37, 38, 41, 1 << 32, u64::MAX]), ..right },
                _ => right,
            });
        }
    }
    let right = Block { symbols: 4, points: 8, room: 4, bits: 2, k: 1, from: 0 };
    p.refused(Call::Block(right), 0);
    p.refused(Call::Block(Block { room: 3, ..right }), 1);
    p.refused(Call::Block(Block { room: 3, points: 7, k: -1, ..right }), 1);
    p.refused(Call::Block(Block { bits: u64::MAX, points: 7, k: -1, ..right }), 1);
    p.refused(Call::Block(Block { points: 7, k: -1, ..right }), 4);
    p.refused(Call::Block(Block { symbols: 0, room: 0, bits: 6, k: -1, ..right }), 4);
    p.refused(Call::Block(Block { symbols: 1, room: 0, bits: u64::MAX, k: -1, ..right }), 4);
    p.refused(Call::Block(Block { k: -1, ..right }), 5);
    p.refused(Call::Block(Block { k: TOP_SCALE + 1, ..right }), 5);
    p.refused(Call::Block(Block { symbols: 0, room: 0, ..right }), 0);
}
