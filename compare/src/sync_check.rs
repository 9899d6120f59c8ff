//! The correlation's C function beside the Rust's own. Then plays the streams to the replay program and compares all that it tells, while the
//! Rust goes beside it.

use crate::port;
use crate::replay::{self, Owes};
use crate::stage_check::enough;
use crate::tally::Tally;
use cases::inputs::{Random, Size};
use cases::sync::calls::{Answer, Told};
use cases::sync::correlate::{any_correlation, correlations, Correlate};
use cases::sync::player::{Owed, Player, Telling, Totals};
use cases::sync::streams::{Stream, STREAMS};
use std::path::Path;

/// In the long runs an answer is told after so many pushes; the digest holds all of them.
const EVERY: u64 = 4_096;

impl Owes<40> for Owed {
    fn told(&self) -> &Told {
        &self.told
    }
}

type Difference = replay::Difference<Owed, 40>;

/// One stream, with one process of the program.
fn play(program: &Path, stream: &Stream, seed: u64, size: Size, telling: Telling) -> Result<Totals, Difference> {
    replay::play(program, |sink| {
        let mut player = Player::new(telling, sink);
        (stream.play)(&mut player, &mut Random(seed), size);
        player.end()
    })
}

fn report(stream: &Stream, seed: u64, d: &Difference) -> ! {
    println!("DIFFERENCE in {}: seed {seed}, push {}", stream.name, d.owed.pushes);
    println!("  next position {}, last symbol {:?}", d.owed.position, d.owed.symbol);
    println!("  expected {:?}, digest {:x}", Answer::of_numbers(&d.owed.told), d.owed.told[0]);
    match &d.given {
        Some(told) => println!("  the port {:?}, digest {:x}", Answer::of_numbers(told), told[0]),
        None => println!("  the port ended"),
    }
    std::process::exit(1)
}

fn correlate(tally: &mut Tally, c: &Correlate) {
    let expected = c.expected();
    tally.same("correlate", c, expected.refusal, expected, port::correlate(c));
}

fn compare_correlations(size: Size, random: &mut Random) {
    let mut tally = Tally::new("sync");
    for (c, refusal) in correlations(random) {
        tally.same("correlate", c, refusal, refusal, port::correlate(&c).refusal);
        correlate(&mut tally, &c);
    }
    for _ in 0..if size == Size::Full { 10_000_000 } else { 1_000_000 } {
        correlate(&mut tally, &any_correlation(random));
    }
    tally.print_enough("correlate", &[("by the Rust", 430_000), ("refused", 60_000)]);
}

pub fn compare(size: Size, seed: u64) {
    println!("comparing with the Rust's SlotSync in chain/sync.rs, seed {seed}");
    compare_correlations(size, &mut Random(seed));
    let program = replay::program("SYNC_REPLAY", "sync_replay");
    let mut all = Totals::default();
    for (k, stream) in (1..).zip(&STREAMS) {
        let seed = seed.wrapping_add(k);
        let telling = Telling { every: EVERY, events: false, all: (0, 0) };
        let totals = play(&program, stream, seed, size, telling).unwrap_or_else(|d| {
            // the stretch since the last right digest once more, each push told
            let before = d.before.as_ref().map_or(0, |o| o.pushes);
            let each = Telling { all: (before, d.owed.pushes), ..telling };
            report(stream, seed, &play(&program, stream, seed, size, each).err().unwrap_or(d))
        });
        println!("{:22} {totals}", stream.name);
        enough("sync", stream.name, stream.least, &totals);
        all += totals;
    }
    println!("{:22} {all}: no difference", "all of sync");
}
