//! Counts the calls of a C function that were compared, and stops the program at the first difference.

use crate::stage_check::{counted, enough};
use cases::stage::{Counted, Least, BY_RUST};
use std::fmt::Debug;

/// Of a part of the comparison.
pub struct Tally {
    part: &'static str,
    pub compared: u64,
    pub refused: u64,
}

impl Tally {
    pub fn new(part: &'static str) -> Self {
        Self { part, compared: 0, refused: 0 }
    }

    pub fn same<T: PartialEq + Debug>(&mut self, name: &str, call: impl Debug, refusal: u8, expected: T, given: T) {
        if given != expected {
            println!("DIFFERENCE in {name}: {call:?}");
            println!("  expected {expected:?}");
            println!("  the port {given:?}");
            std::process::exit(1)
        }
        self.compared += 1;
        self.refused += u64::from(refusal != 0);
    }

    fn print_alone(&self, name: &str) {
        println!("{name:22} {:>9} compared, {:>8} of them refused", self.compared, self.refused);
    }

    pub fn print(&self, name: &str) {
        self.print_alone(name);
        counted(self.part, name, BY_RUST, self.compared - self.refused);
    }

    /// .. and ends the program where too little was compared.
    pub fn print_enough(&self, name: &str, least: Least) {
        self.print_alone(name);
        enough(self.part, name, least, self);
    }
}

/// Document 01's refusals aside, answers are the Rust's.
impl Counted for Tally {
    fn named(&self) -> Vec<(String, u64)> {
        let all = [(BY_RUST, self.compared - self.refused), ("refused", self.refused)];
        all.map(|(name, n)| (name.to_string(), n)).into()
    }
}
