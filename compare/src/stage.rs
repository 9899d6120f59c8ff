//! What the players of the stages share: calls and answers of 24 numbers.

use crate::blocks::{self, Blocks};
use std::io::{stdin, stdout, BufReader, BufWriter, Read, Write};

pub type Numbers = [u64; 24];

/// An owed answer, with its call and that call's number.
pub struct Owed {
    pub told: Numbers,
    pub call: Numbers,
    pub place: u64,
}

/// Where calls and owed answers go.
pub type Sink<'a> = blocks::Sink<'a, Owed>;

/// The calls that a player makes, with what each owes.
pub struct Calls<'a> {
    blocks: Blocks<'a, Owed>,
    made: u64,
    refused: Refused,
}

impl<'a> Calls<'a> {
    pub fn new(sink: &'a mut Sink<'a>) -> Self {
        Self { blocks: Blocks::new(sink), made: 0, refused: Refused::default() }
    }

    /// A call and its answer, which begins with the refusal.
    pub fn owe(&mut self, call: Numbers, told: Numbers) {
        self.made += 1;
        self.refused.count(told[0]);
        self.blocks.owe(Owed { told, call, place: self.made });
        self.blocks.write(call.into_iter().flat_map(u64::to_le_bytes));
    }

    /// How many there were, and which of them were refused.
    pub fn end(mut self) -> (u64, Refused) {
        self.blocks.flush();
        (self.made, self.refused)
    }
}

/// Refused calls, by number.
#[derive(Clone)]
pub struct Refused([u64; 256]);

impl Default for Refused {
    fn default() -> Self {
        Self([0; 256])
    }
}

impl Refused {
    /// The refusal of one more answer; 0 is none.
    pub fn count(&mut self, refusal: u64) {
        if refusal != 0 {
            self.0[refusal.min(255) as usize] += 1;
        }
    }

    /// `refused N` for each number that there was.
    pub fn named(&self) -> impl Iterator<Item = (String, u64)> + '_ {
        (0..).zip(self.0).filter(|(_, n)| *n != 0).map(|(refusal, n)| (format!("refused {refusal}"), n))
    }
}

impl std::fmt::Display for Refused {
    fn fmt(&self, out: &mut std::fmt::Formatter) -> std::fmt::Result {
        write!(out, "{} refused", self.0.iter().sum::<u64>())?;
        let each = (0..).zip(self.0).filter(|(_, n)| *n != 0).map(|(refusal, n)| format!("{refusal}: {n}"));
        let each = each.collect::<Vec<String>>().join(", ");
        if each.is_empty() {
            Ok(())
        } else {
            write!(out, " ({each})")
        }
    }
}

impl std::ops::AddAssign for Refused {
    fn add_assign(&mut self, more: Self) {
        self.0.iter_mut().zip(more.0).for_each(|(n, more)| *n += more);
    }
}

/// What a kind of calls or a stream counted, by name: what the least numbers are held to.
pub trait Counted {
    fn named(&self) -> Vec<(String, u64)>;
}

/// The least number of what a kind has to count, by name, so that it cannot pass unasked. 0 says that there is none at all.
pub type Least = &'static [(&'static str, u64)];

/// What falls short of the least numbers, in words; every kind names at least how many answers are the Rust's.
pub fn short_of(least: Least, counted: &impl Counted) -> Vec<String> {
    let named = counted.named();
    let number = |name: &str| named.iter().find(|(n, _)| n == name).map_or(0, |(_, n)| *n);
    let short = |(name, least): &(&str, u64)| number(name) < *least || (*least == 0 && number(name) != 0);
    let said = |(name, least): &(&str, u64)| match *least {
        0 => format!("{name}: {}, where none is said to be", number(name)),
        _ => format!("{name}: {} of at least {least}", number(name)),
    };
    let mut all: Vec<String> = least.iter().filter(|l| short(l)).map(said).collect();
    if !least.iter().any(|(name, _)| *name == BY_RUST) {
        all.push(format!("{BY_RUST}: {}, and no least number is named", number(BY_RUST)));
    }
    all
}

/// Names of counts: answers that are the Rust's too, those of its copy with opened fields, and looks at all numbers of its states.
pub const BY_RUST: &str = "by the Rust";
pub const BY_OPENED: &str = "by the Rust, opened";
pub const LOOKS: &str = "looks at its state";

/// Calls that were made, how many of their answers are the Rust's too, and which were refused.
#[derive(Default, Clone)]
pub struct Totals {
    pub calls: u64,
    pub by_rust: u64,
    pub by_opened: u64,
    pub looks: u64,
    pub refused: Refused,
}

impl Counted for Totals {
    fn named(&self) -> Vec<(String, u64)> {
        let Self { calls, by_rust, by_opened, looks, .. } = *self;
        let counts = [("calls", calls), (BY_RUST, by_rust), (BY_OPENED, by_opened), (LOOKS, looks)];
        counts.map(|(name, n)| (name.to_string(), n)).into_iter().chain(self.refused.named()).collect()
    }
}

impl std::fmt::Display for Totals {
    fn fmt(&self, out: &mut std::fmt::Formatter) -> std::fmt::Result {
        let Self { calls, by_rust, by_opened, looks, refused } = self;
        write!(out, "{calls:>9} calls, {by_rust:>9} by the Rust, {by_opened} by it opened, {looks} looks at its state, {refused}")
    }
}

impl std::ops::AddAssign for Totals {
    fn add_assign(&mut self, more: Self) {
        self.calls += more.calls;
        self.by_rust += more.by_rust;
        self.by_opened += more.by_opened;
        self.looks += more.looks;
        self.refused += more.refused;
    }
}

/// The Rust beside, and which of its builds it is.
pub struct Beside<T: ?Sized> {
    pub rust: Box<T>,
    pub opened: bool,
}

impl<T: ?Sized> Beside<T> {
    pub fn unchanged(rust: Box<T>) -> Self {
        Self { rust, opened: false }
    }

    pub fn opened(rust: Box<T>) -> Self {
        Self { rust, opened: true }
    }
}

/// The rules with the slip that this environment variable names, if it is one of these. A slip that is none of them changes nothing, and
/// slip.sh then says that it was not found.
pub fn slipped<R>(mut rules: R, slips: &[(&str, fn(&mut R))], variable: &str) -> R {
    let named = std::env::var(variable).ok();
    if let Some((_, alter)) = slips.iter().find(|s| Some(s.0) == named.as_deref()) {
        alter(&mut rules);
    }
    rules
}

/// Answers calls on standard input, as a replay program does.
pub fn serve(mut answer: impl FnMut(&Numbers) -> Numbers) -> std::io::Result<()> {
    let (mut calls, mut answers) = (BufReader::new(stdin()), BufWriter::new(stdout()));
    let mut bytes = [0; 192];
    while calls.read_exact(&mut bytes).is_ok() {
        let number = |k: usize| u64::from_le_bytes(std::array::from_fn(|j| bytes[8 * k + j]));
        answer(&std::array::from_fn(number)).iter().try_for_each(|n| answers.write_all(&n.to_le_bytes()))?;
    }
    answers.flush()
}
