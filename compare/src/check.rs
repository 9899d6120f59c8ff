//! Compares one function, call by call, and stops the program at the first difference.

use crate::port::Call;
use cases::fx::{Answer, Function};

pub struct Check<'a> {
    function: &'a Function,
    port: Call,
    now: (usize, i64, i64),
    pub compared: u64,
    pub refused: u64,
}

impl<'a> Check<'a> {
    pub fn new(function: &'a Function, port: Call) -> Self {
        Self { function, port, now: (0, 0, 0), compared: 0, refused: 0 }
    }

    pub fn call(&mut self, table: &[i16], a: i64, b: i64) {
        self.now = (table.len(), a, b);
        let expected = self.function.expected(table, a, b);
        let given = (self.port)(table, a, b);
        if given != expected {
            self.differ(table, expected, given);
        }
        self.compared += 1;
        self.refused += u64::from(expected.refusal != 0);
    }

    fn input(&self) -> String {
        let (entries, a, b) = self.now;
        let table =
            if self.function.takes_table { format!(" with a table of {entries} entries") } else { String::new() };
        format!("{}: a = {a}, b = {b}{table}", self.function.name)
    }

    fn differ(&self, table: &[i16], expected: Answer, given: Answer) -> ! {
        println!("DIFFERENCE in {}", self.input());
        println!("  expected {expected:?}");
        println!("  the port {given:?}");
        if self.function.takes_table {
            println!("  the table {table:?}");
        }
        std::process::exit(1)
    }
}

/// The Rust is built to panic where it would overflow: say on which input.
impl Drop for Check<'_> {
    fn drop(&mut self) {
        if std::thread::panicking() {
            println!("THE RUST PANICKED in {}", self.input());
        }
    }
}
