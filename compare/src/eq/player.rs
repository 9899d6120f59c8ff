//! Makes calls with what each owes, while the Rust's `Equaliser` goes beside them in every state that is in range: the model has to agree
//! with it. The model alone answers for refusals. Taps of the Rust's `solve_sums` have to be the model's too, but where the kind is made of
//! systems in which `norm` may lead to another pivot: there they may differ if a pivot does.

use super::beside::{agree_in_state, can_take, follow, in_state, Beside};
use super::calls::{Call, Equaliser, Numbers, Sums};
use super::desk::{Answer, Desk, Said};
use super::slips;
use crate::inputs::Random;
use crate::stage::{self, Calls, Counted, Sink};
use crate::unchanged::eq::{pairs, solved_sums};
use isdbs3_phy::chain::eq as rust;

/// The whole state is looked at behind one in so many answers of the unchanged Rust, and of its opened copy.
const LOOKS_EVERY: [u64; 2] = [61, 5];

#[derive(Default, Clone)]
pub struct Totals {
    pub calls: stage::Totals,
    pub solved: Solved,
}

/// Systems that the model solves or finds singular, beside the Rust.
#[derive(Default, Clone)]
pub struct Solved {
    /// Solved by both, and of these with the same taps.
    pub both: u64,
    pub agreed: u64,
    pub singular: u64,
    /// The greatest difference of a tap, and the first difference.
    pub most: u32,
    pub first: Option<String>,
}

impl Counted for Totals {
    fn named(&self) -> Vec<(String, u64)> {
        let Solved { both, agreed, singular, .. } = self.solved;
        let in_a_hundred = 100 * agreed / both.max(1);
        let more = [
            ("solved", both),
            ("taps alike", agreed),
            ("taps alike in a hundred", in_a_hundred),
            ("singular", singular),
        ];
        self.calls.named().into_iter().chain(more.map(|(name, n)| (name.to_string(), n))).collect()
    }
}

impl std::fmt::Display for Totals {
    fn fmt(&self, out: &mut std::fmt::Formatter) -> std::fmt::Result {
        let Self { calls, solved } = self;
        write!(out, "{calls}")?;
        if solved.both != 0 {
            write!(out, ", taps alike in {} of {}", solved.agreed, solved.both)?;
        }
        Ok(())
    }
}

impl std::fmt::Display for Solved {
    fn fmt(&self, out: &mut std::fmt::Formatter) -> std::fmt::Result {
        let Self { both, agreed, singular, most, first } = self;
        write!(
            out,
            "solver beside the Rust's: {both} systems solved in both, {agreed} with all taps alike; {singular} singular in both, none in one"
        )?;
        if let Some(first) = first {
            write!(out, "\n  taps differ by up to {most}; the first difference (reported only): {first}")?;
        }
        Ok(())
    }
}

impl std::ops::AddAssign for Totals {
    fn add_assign(&mut self, more: Self) {
        self.calls += more.calls;
        let (all, more) = (&mut self.solved, more.solved);
        all.both += more.both;
        all.agreed += more.agreed;
        all.singular += more.singular;
        all.most = all.most.max(more.most);
        all.first = all.first.take().or(more.first);
    }
}

pub struct Player<'a> {
    desk: Desk,
    rust: Option<stage::Beside<dyn Beside>>,
    /// Systems follow in which the Rust may take another pivot.
    close_calls: bool,
    /// Of calls that may be left out, one in so many is made.
    every: u64,
    offered: u64,
    calls: Calls<'a>,
    disguise: Random,
    /// But for calls and refusals, which `calls` counts.
    totals: Totals,
}

impl<'a> Player<'a> {
    pub fn new(seed: u64, sink: &'a mut Sink<'a>) -> Self {
        Self {
            desk: Desk::new(slips::of_model()),
            rust: None,
            close_calls: false,
            every: 1,
            offered: 0,
            calls: Calls::new(sink),
            disguise: Random(!seed),
            totals: Totals::default(),
        }
    }

    /// For a sample: short.
    pub fn sparse(seed: u64, every: u64, sink: &'a mut Sink<'a>) -> Self {
        Self { every, ..Self::new(seed, sink) }
    }

    /// Whether this one of those that may be left out is made.
    pub fn takes_place(&mut self) -> bool {
        self.offered += 1;
        self.offered % self.every == 0
    }

    pub fn end(self) -> Totals {
        let (calls, refused) = self.calls.end();
        let Totals { calls: counted, solved } = self.totals;
        Totals { calls: stage::Totals { calls, refused, ..counted }, solved }
    }

    pub fn state(&self) -> &Equaliser {
        &self.desk.eq
    }

    pub fn sums(&self) -> &Sums {
        &self.desk.sums
    }

    /// From now on taps may differ from the Rust's where a pivot does.
    pub fn expect_close_calls(&mut self) {
        self.close_calls = true;
    }

    /// The Rust before a call that it takes too, in the state of the model.
    fn prepare(&mut self, call: &Call) {
        if call.is_put() {
            self.rust = None;
        } else if *call == Call::New {
            self.rust = Some(stage::Beside::unchanged(Box::new(rust::Equaliser::new())));
        } else if can_take(call) && self.rust.is_none() {
            self.rust = in_state(&self.desk.eq);
        }
    }

    fn go_beside(&mut self, call: &Call, answer: &Answer) {
        if *call == Call::Solve {
            return self.solve_beside(answer);
        }
        let Some(beside) = self.rust.as_mut().filter(|_| can_take(call) && answer.refusal == 0) else { return };
        follow(beside.rust.as_mut(), call, &answer.said, &self.desk);
        let counted = &mut self.totals.calls;
        *(if beside.opened { &mut counted.by_opened } else { &mut counted.by_rust }) += 1;
        if (counted.by_rust + counted.by_opened) % LOOKS_EVERY[usize::from(beside.opened)] == 0 {
            agree_in_state(&beside.rust.shown(), &self.desk.eq);
            counted.looks += 1;
        }
    }

    fn solve_beside(&mut self, answer: &Answer) {
        let Said::Taps(taps) = answer.said else { unreachable!() };
        let s = &self.desk.sums;
        if answer.refusal == 9 {
            // of what is refused the Rust refuses no more than count 0
            assert!(s.count != 0 || solved_sums(s).is_none());
            return;
        }
        let (all, rust, refusal) = (&mut self.totals.solved, solved_sums(s), answer.refusal);
        assert!(
            (refusal == 0) == rust.is_some(),
            "THE MODEL IS WRONG: refusal {refusal}\nthe Rust: {rust:?}, of {s:?}"
        );
        let Some(rust) = rust else {
            all.singular += 1;
            self.totals.calls.by_rust += 1;
            return;
        };
        let far = taps.iter().zip(&rust).map(|(a, b)| u32::from(a.abs_diff(*b))).max().expect("taps");
        all.both += 1;
        all.most = all.most.max(far);
        if far == 0 {
            all.agreed += 1;
            self.totals.calls.by_rust += 1;
        } else {
            let by_pivot = !self.desk.rules.pivots_as_the_rust(self.desk.rules.equations(s));
            let (taps, rust) = (pairs(&taps), pairs(&rust));
            let meant = self.close_calls && by_pivot;
            assert!(
                meant,
                "THE MODEL IS WRONG: taps {taps:?}, another pivot: {by_pivot}\nthe Rust: {rust:?}, of {s:?}"
            );
            all.first.get_or_insert_with(|| format!("taps {taps:?}, the Rust's {rust:?}, of {s:?}"));
        }
    }

    /// One call in four goes in other numbers than its plain ones.
    pub fn ask(&mut self, call: Call) -> Answer {
        self.prepare(&call);
        let plain = self.disguise.below(4) != 0;
        let numbers = if plain { call.numbers() } else { call.in_disguise(&mut self.disguise) };
        let answer = self.desk.answer(Some(call));
        self.go_beside(&call, &answer);
        self.calls.owe(numbers, answer.numbers);
        answer
    }

    /// A call that there is not.
    pub fn unknown(&mut self, call: Numbers) {
        let answer = self.desk.answer(None);
        self.calls.owe(call, answer.numbers);
    }

    /// A call that document 01 refuses with this number, or 0 for one that it takes: what is expected does not rest on the
    /// model.
    #[track_caller]
    pub fn refused(&mut self, call: Call, refusal: u8) {
        let answer = self.ask(call);
        assert_eq!(answer.refusal, refusal, "{call:?}");
    }

    /// The numbers of a state that differ from the kept one's, by puts.
    pub fn hand_in(&mut self, e: &Equaliser) {
        for put in Call::puts(&self.desk.eq, e) {
            self.ask(put);
        }
        assert_eq!(self.desk.eq, *e);
    }
}
