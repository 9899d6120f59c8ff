//! The slot map beside the Rust's, at every place of a slot and past its end, where the Rust goes on and the port refuses. What sync symbols are
//! trained against, beside the Rust's `Back`. And calls of the alignment to the replay program, with all numbers of all answers compared,
//! while `Back` goes beside it.

use crate::port;
use crate::stage_check::compare_stage;
use crate::tally::Tally;
use cases::frame::reference::{any_reference, references, Reference};
use cases::frame::{part_of, ASKED, PLACES};
use cases::fx::Answer;
use cases::inputs::{Random, Size};
use cases::opened::back::Aligner;

fn compare_map() {
    let same = |tally: &mut Tally, j: usize, expected: Answer| {
        tally.same("part", j, expected.refusal, expected, port::part(j));
    };
    let mut by_document = Tally::new("frame");
    ASKED.into_iter().for_each(|(j, expected)| same(&mut by_document, j, expected));
    let mut tally = Tally::new("frame");
    let past = (PLACES..70_000).chain((17..usize::BITS).map(|b| 1 << b)).chain([usize::MAX]);
    (0..PLACES).chain(past).for_each(|j| same(&mut tally, j, part_of(j)));
    tally.print_enough("part", &[("by the Rust", PLACES as u64), ("refused", 60_000)]);
}

fn reference(tally: &mut Tally, rust: &mut Aligner, r: &Reference) {
    let expected = r.expected(rust);
    tally.same("reference", r, expected.refusal, expected, port::reference(r));
}

fn compare_references(size: Size, random: &mut Random) {
    let (mut tally, mut rust) = (Tally::new("frame"), Aligner::new());
    for (r, refusal) in references(random) {
        tally.same("reference", r, refusal, refusal, port::reference(&r).refusal);
        reference(&mut tally, &mut rust, &r);
    }
    for _ in 0..if size == Size::Full { 10_000_000 } else { 1_000_000 } {
        reference(&mut tally, &mut rust, &any_reference(random));
    }
    tally.print_enough("reference", &[("by the Rust", 380_000), ("refused", 120_000)]);
}

pub fn compare(size: Size, seed: u64) {
    println!("comparing with the Rust's chain/frame.rs, seed {seed}");
    compare_map();
    compare_references(size, &mut Random(seed));
    let all = compare_stage!(frame, "FRAME_REPLAY", size, seed);
    println!("{:22} {all}: no difference", "all of frame");
}
