//! The demapper's C functions beside the Rust's own; then calls of learning and of what is in force to the replay program,
//! all numbers of all answers, while the Rust goes beside it.

use crate::port;
use crate::stage_check::compare_stage;
use crate::tally::Tally;
use cases::demap::soft::{self, Demap, Rotated, Turner};
use cases::fx::Answer;
use cases::inputs::{self, Random, Size};

fn demap(tally: &mut Tally, d: &Demap) {
    let expected = d.expected();
    let mut out = d.out.clone();
    let given = port::demap(d.y, &d.points, d.bits, d.k, &mut out);
    tally.same("demap", d, expected.0.refusal, expected, (given, out));
}

/// The calls that document 01's table decides by itself.
fn asked() {
    let mut tally = Tally::new("demap");
    for (room, bits, numbers, k, refusal) in soft::ASKED {
        let given = port::demap([3, -4], &vec![7; numbers], bits, k, &mut vec![85; room]);
        tally.same("demap", (room, bits, numbers, k), refusal, refusal, given.refusal);
    }
    for (v, refusal) in soft::ASKED_NUMBERS {
        tally.same("scale_of", v, refusal, refusal, port::scale_of(v).refusal);
        tally.same("gain_of", v, refusal, refusal, port::gain_of(v).refusal);
    }
    for (entries, refusal) in soft::ASKED_ENTRIES {
        tally.same("rotate", entries, refusal, refusal, port::rotate(5, 6, [7, 8], &vec![9; entries]).refusal);
    }
    tally.print("by document 01's table");
}

fn demaps(size: Size, random: &mut Random) {
    let mut tally = Tally::new("demap");
    soft::demaps_at_limits(random).iter().for_each(|d| demap(&mut tally, d));
    tally.print("demap, limits");
    assert!(tally.compared > 70_000 && tally.refused < tally.compared, "demaps at limits");
    for bits in 1..=5 {
        let mut tally = Tally::new("demap");
        for _ in 0..if size == Size::Full { 10_000_000 } else { 1_000_000 } {
            demap(&mut tally, &soft::any_demap(bits, random));
        }
        tally.print(&format!("demap, {bits} bits"));
    }
}

fn numbers(name: &str, calls: u64, random: &mut Random, expected: fn(i64) -> Answer, port: fn(i64) -> Answer) {
    let mut tally = Tally::new("demap");
    let mut call = |v: i64| {
        let right = expected(v);
        tally.same(name, v, right.refusal, right, port(v));
    };
    let ends = [i64::MIN, i64::MIN + 1, i64::MAX - 1, i64::MAX];
    (-1_000..70_000).chain(inputs::by_powers(62)).chain(ends).for_each(&mut call);
    // where the scale is 0, 1 and 2
    [1 << 33, (1i64 << 33) / 3, (1i64 << 33) / 5].into_iter().flat_map(|v| v - 100..v + 100).for_each(&mut call);
    (0..calls).for_each(|_| call(soft::any_noise(random)));
    tally.print(name);
}

fn rotations(calls: u64, random: &mut Random) {
    let mut tally = Tally::new("demap");
    for table in inputs::right_tables(random) {
        let mut turner = Turner::new(&table);
        for _ in 0..calls / 4 {
            let (phase, freq, x) = (random.next() as u32, random.next() as i32, random.next().to_le_bytes());
            let x = [x[0] as i8, x[1] as i8];
            let lent = if random.below(64) == 0 { random.below(1_025) as usize } else { 1_024 };
            let expected = turner.rotate(phase, freq, x, lent);
            let given: Rotated = port::rotate(phase, freq, x, &turner.table()[..lent]);
            tally.same("rotate", (phase, freq, x, lent), expected.refusal, expected, given);
        }
    }
    tally.print("rotate");
}

fn learning(size: Size, seed: u64) {
    let all = compare_stage!(demap, "DEMAP_REPLAY", size, seed);
    println!("{:22} {all}: no difference", "all of learning");
}

pub fn compare(size: Size, seed: u64) {
    println!("comparing with the Rust's chain/demap.rs, seed {seed}");
    let mut random = Random(seed);
    let calls = if size == Size::Full { 20_000_000 } else { 2_000_000 };
    asked();
    demaps(size, &mut random);
    numbers("scale_of", calls, &mut random, soft::scale_of, port::scale_of);
    numbers("gain_of", calls, &mut random, soft::gain_of, port::gain_of);
    rotations(calls, &mut random);
    learning(size, seed);
}
