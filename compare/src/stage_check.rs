//! Makes the calls of a stage to its replay program, kind by kind, and compares all numbers of all answers.

use crate::replay::{self, Owes};
use cases::stage::{short_of, Counted, Least, Numbers, Owed, Sink};
use std::fmt::Display;
use std::fs::File;
use std::io::Write;
use std::ops::AddAssign;
use std::sync::Mutex;

impl Owes<24> for Owed {
    fn told(&self) -> &Numbers {
        &self.told
    }
}

/// A stage: its part of the comparison, its replay program (the variable that names it, its own name), what a call is called, and its kinds.
pub struct Stage<'a, T> {
    pub part: &'a str,
    pub variable: &'a str,
    pub program: &'a str,
    pub call: fn(&Numbers) -> Option<String>,
    pub kinds: Vec<(&'a str, Least)>,
    pub play: &'a dyn for<'b> Fn(usize, u64, &'b mut Sink<'b>) -> T,
}

impl<T: Default + AddAssign + Display + Counted> Stage<'_, T> {
    fn report(&self, kind: &str, seed: u64, d: &replay::Difference<Owed, 24>) -> ! {
        println!("DIFFERENCE in {kind}: seed {seed}, call {}", d.owed.place);
        println!("  {}", (self.call)(&d.owed.call).unwrap_or_else(|| format!("{:?}", d.owed.call)));
        println!("  expected {:?}", d.owed.told.map(|n| n as i64));
        match &d.given {
            Some(told) => println!("  the port {:?}", told.map(|n| n as i64)),
            None => println!("  the port ended"),
        }
        std::process::exit(1)
    }

    pub fn compare(&self, seed: u64) -> T {
        let program = replay::program(self.variable, self.program);
        let mut all = T::default();
        for (k, (kind, least)) in self.kinds.iter().enumerate() {
            let seed = seed.wrapping_add(k as u64 + 1);
            let totals = replay::play(&program, |sink| (self.play)(k, seed, sink));
            let totals = totals.unwrap_or_else(|d| self.report(kind, seed, &d));
            println!("{kind:22} {totals}");
            enough(self.part, kind, least, &totals);
            all += totals;
        }
        all
    }
}

static COUNTS: Mutex<Option<File>> = Mutex::new(None);

/// From now on everything that is counted goes to this file too.
pub fn tell_counts(file: &str) {
    *COUNTS.lock().expect("one thread") = Some(File::create(file).unwrap_or_else(|e| panic!("{file}: {e}")));
}

/// What a kind of a part counted under a name.
pub fn counted(part: &str, kind: &str, name: &str, n: u64) {
    if let Some(file) = COUNTS.lock().expect("one thread").as_mut() {
        writeln!(file, "{part}: {kind}: {name}: {n}").expect("the file of counts");
    }
}

/// Ends the program where a kind was asked too little to show anything.
pub fn enough(part: &str, kind: &str, least: Least, counts: &impl Counted) {
    counts.named().iter().for_each(|(name, n)| counted(part, kind, name, *n));
    let short = short_of(least, counts);
    if !short.is_empty() {
        println!("TOO FEW in {kind}: {}", short.join("; "));
        std::process::exit(1)
    }
}

/// Compares the stage of this module in `cases`, with all its kinds of calls.
macro_rules! compare_stage {
    ($stage:ident, $variable:literal, $size:expr, $seed:expr) => {{
        use cases::$stage::{calls::Call, kinds::KINDS, player::Player};
        $crate::stage_check::Stage {
            part: stringify!($stage),
            variable: $variable,
            program: concat!(stringify!($stage), "_replay"),
            call: |n| Call::of_numbers(n).map(|c| format!("{c:?}")),
            kinds: KINDS.iter().map(|k| (k.name, k.least)).collect(),
            play: &|k, seed, sink| {
                let mut player = Player::new(seed, sink);
                (KINDS[k].play)(&mut player, &mut cases::inputs::Random(seed), $size);
                player.end()
            },
        }
        .compare($seed)
    }};
}

pub(crate) use compare_stage;
