//! The port's functions of fx beside the Rust's own.

use crate::check::Check;
use crate::port;
use crate::stage_check::counted;
use cases::fx::{Function, Kind, ASKED, FUNCTIONS};
use cases::inputs::{self, Random};
use cases::stage::BY_RUST;

struct Tables {
    right: Vec<Vec<i16>>,
    wrong: Vec<Vec<i16>>,
}

impl Tables {
    /// Those that matter to the function: one will do if it takes none.
    fn of(&self, f: &Function) -> Vec<&[i16]> {
        let all = self.right.iter().chain(&self.wrong).map(Vec::as_slice);
        all.take(if f.takes_table { usize::MAX } else { 1 }).collect()
    }

    /// One in sixteen of a wrong length.
    fn any(&self, random: &mut Random) -> &[i16] {
        let from = if random.below(16) == 0 { &self.wrong } else { &self.right };
        &from[random.below(from.len() as u64) as usize]
    }
}

fn check_ranges(check: &mut Check, f: &Function, tables: &Tables) {
    for grid in inputs::ranges(f) {
        for (a, b) in grid.pairs() {
            check.call(&tables.right[0], a, b);
        }
    }
}

fn check_limits(check: &mut Check, f: &Function, tables: &Tables) {
    let [first, second] = f.kinds.map(inputs::limits);
    for table in tables.of(f) {
        for &a in &first {
            for &b in &second {
                check.call(table, a, b);
            }
        }
    }
}

fn check_random(check: &mut Check, f: &Function, tables: &Tables, calls: u64, random: &mut Random) {
    for _ in 0..calls {
        let (a, b) = random.pair(f);
        let table = if f.takes_table { tables.any(random) } else { &tables.right[0] };
        check.call(table, a, b);
    }
}

/// The calls that document 01's table decides by itself.
fn asked(f: &Function, port: port::Call) -> u64 {
    let calls = ASKED.iter().filter(|asked| asked.0 == f.name);
    calls
        .map(|&(name, entries, a, b, refusal)| {
            let given = port(&vec![5; entries], a, b);
            if given.refusal != refusal {
                println!("DIFFERENCE in {name}: a = {a}, b = {b}, with a table of {entries} entries");
                println!("  document 01: refusal {refusal}\n  the port {given:?}");
                std::process::exit(1)
            }
        })
        .count() as u64
}

pub fn compare(calls: u64, seed: u64) {
    println!("comparing with the Rust's chain/fx.rs: {calls} random calls a function, seed {seed}");
    let mut random = Random(seed);
    let tables = Tables { right: inputs::right_tables(&mut random), wrong: inputs::wrong_tables() };
    let before = tables.right.clone();
    let (mut compared, mut refused) = (0, 0);
    for (f, port) in FUNCTIONS.iter().zip(port::CALLS) {
        let mut check = Check::new(f, port);
        check_ranges(&mut check, f, &tables);
        check_limits(&mut check, f, &tables);
        check_random(&mut check, f, &tables, calls, &mut random);
        assert!(asked(f, port) > 0 && check.compared > calls, "{} was not asked enough", f.name);
        let refusing = f.takes_table || f.kinds.iter().any(|kind| ![Kind::Unused, Kind::Angle].contains(kind));
        assert!(!refusing || check.refused > calls / 100, "{} refused too seldom", f.name);
        println!("{:13} {:>11} compared, {:>10} of them refused", f.name, check.compared, check.refused);
        counted("fx", f.name, BY_RUST, check.compared - check.refused);
        compared += check.compared;
        refused += check.refused;
    }
    assert!(tables.right == before, "the port wrote to a lent table");
    println!("{:13} {compared:>11} compared, {refused:>10} of them refused: no difference", "all of fx");
}
