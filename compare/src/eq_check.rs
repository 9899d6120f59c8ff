//! The solver's C function on systems of any contents, beside the model and the Rust's own `solve`. Then calls of equaliser and solver to the
//! replay program, all numbers of all answers, while the Rust goes beside it.

use crate::port;
use crate::stage_check::{compare_stage, enough};
use crate::tally::Tally;
use cases::eq::slips;
use cases::eq::systems::{Totals, SORTS};
use cases::inputs::{Random, Size};

fn systems(size: Size, seed: u64) {
    let rules = slips::of_model();
    for (k, sort) in (1..).zip(&SORTS) {
        let (mut random, mut totals, mut tally) = (Random(seed.wrapping_add(k)), Totals::default(), Tally::new("eq"));
        for _ in 0..if size == Size::Full { 30 * sort.times } else { sort.times } {
            let system = (sort.make)(&mut random);
            let expected = system.expected(&rules, &mut totals);
            tally.same("solve", &system, expected.refusal, expected, port::solve(&system));
        }
        println!("{:22} {totals}", sort.name);
        enough("eq", sort.name, sort.least, &totals);
    }
}

pub fn compare(size: Size, seed: u64) {
    println!("comparing with the Rust's chain/eq.rs, seed {seed}");
    systems(size, seed);
    let all = compare_stage!(eq, "EQ_REPLAY", size, seed);
    println!("{}", all.solved);
    println!("{:22} {all}: no difference", "all of eq");
}
