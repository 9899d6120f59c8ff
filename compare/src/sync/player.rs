//! Makes the calls of a stream, with what each told answer has to be.

use super::calls::{place, Answer, Call, Event, Told, Word};
use super::desk::Desk;
use super::model::{Lock, Reading, Stage, State};
use super::slips;
use crate::blocks::{Blocks, Sink};
use crate::stage::{Counted, Refused, BY_OPENED, BY_RUST, LOOKS};

/// When an answer is told. The digest holds all of them, told or not.
#[derive(Clone, Copy)]
pub struct Telling {
    /// After so many pushes.
    pub every: u64,
    /// After each push with an event, or a refusal that is not that of the push before.
    pub events: bool,
    /// After each push from one number to another.
    pub all: (u64, u64),
}

/// What a told answer has to be, and where in the stream it stands.
#[derive(Clone)]
pub struct Owed {
    pub told: Told,
    pub pushes: u64,
    pub position: u128,
    pub symbol: [i16; 2],
}

pub struct Player<'a> {
    pub desk: Desk,
    telling: Telling,
    blocks: Blocks<'a, Owed>,
    pub pushes: u64,
    pub events: u64,
    pub heads: u64,
    pub losses: u64,
    pub refused: Refused,
    told_at: u64,
    /// A run of equal symbols that is not written yet.
    run: u32,
    symbol: [i16; 2],
    refusal: u8,
    put: [Option<u32>; place::ALL],
}

impl<'a> Player<'a> {
    pub fn new(telling: Telling, sink: &'a mut Sink<'a, Owed>) -> Self {
        let mut player = Self {
            desk: Desk::new(slips::of_model()),
            telling,
            blocks: Blocks::new(sink),
            pushes: 0,
            events: 0,
            heads: 0,
            losses: 0,
            refused: Refused::default(),
            told_at: 0,
            run: 0,
            symbol: [0; 2],
            refusal: 0,
            put: [None; place::ALL],
        };
        player.lend(9_296);
        player
    }

    fn end_run(&mut self) {
        if self.run > 0 {
            self.blocks.write(Call::Push(self.run, self.symbol).bytes());
            self.run = 0;
        }
    }

    /// A call other than a push.
    pub fn call(&mut self, call: Call) {
        self.end_run();
        self.desk.call(call);
        self.blocks.write(call.bytes());
    }

    pub fn tell(&mut self) {
        self.end_run();
        self.desk.look();
        self.told_at = self.pushes;
        self.blocks.owe(Owed {
            told: self.desk.told,
            pushes: self.pushes,
            position: self.desk.position(),
            symbol: self.symbol,
        });
        self.blocks.write(Call::Tell.bytes());
    }

    /// An answer that is told and given back.
    fn answered(&mut self, call: Call) -> Answer {
        self.call(call);
        self.tell();
        self.desk.last
    }

    pub fn push(&mut self, symbol: [i16; 2]) {
        if symbol != self.symbol || self.run == (1 << 24) - 1 {
            self.end_run();
        }
        self.symbol = symbol;
        self.run += 1;
        self.desk.push(symbol);
        let last = &self.desk.last;
        let news = !last.quiet() || last.refusal != self.refusal;
        self.refusal = last.refusal;
        if news {
            let count = |of: fn(&Event) -> bool| last.events.iter().filter(|e| of(e)).count() as u64;
            self.events += count(|e| *e != Event::Nothing);
            self.heads += count(|e| matches!(e, Event::Head { .. }));
            self.losses += count(|e| matches!(e, Event::Lost { .. }));
        }
        self.refused.count(last.refusal.into());
        let Telling { every, events, all: (from, to) } = self.telling;
        let due = self.pushes + 1 - self.told_at >= every || (events && news);
        let each = from <= self.pushes && self.pushes < to;
        self.pushes += 1;
        if due || each {
            self.tell();
        }
    }

    pub fn run(&mut self, count: u64, symbol: [i16; 2]) {
        (0..count).for_each(|_| self.push(symbol));
    }

    /// All told, and nothing left to write.
    pub fn end(mut self) -> Totals {
        self.call(Call::Fold);
        self.tell();
        self.blocks.flush();
        let Self { pushes, events, heads, losses, refused, .. } = self;
        let Desk { by_rust, by_opened, looks, .. } = self.desk;
        Totals { pushes, events, heads, losses, refused, by_rust, by_opened, looks }
    }

    fn put(&mut self, k: u32, v: u32) {
        if self.put[k as usize] != Some(v) {
            self.put[k as usize] = Some(v);
            self.call(Call::Put(k, v));
        }
    }

    fn put_wide(&mut self, k: u32, v: u64) {
        self.put(k, v as u32);
        self.put(k + 1, (v >> 32) as u32);
    }

    fn put_corr(&mut self, k: u32, [re, im]: [i32; 2]) {
        self.put(k, re as u32);
        self.put(k + 1, im as u32);
    }

    pub fn lend(&mut self, accumulators: u32) {
        self.put(place::LENT, accumulators);
    }

    pub fn words(&mut self, f: &Word, s: &Word) {
        for (from, word) in [(place::F, f), (place::S, s)] {
            (0..48).for_each(|k| self.put(from + k, i32::from(word[k as usize]) as u32));
        }
        self.call(Call::Words);
    }

    pub fn start(&mut self, at: u64) -> Answer {
        self.put_wide(place::BASE, at);
        self.answered(Call::New)
    }

    pub fn restart(&mut self, at: u64) -> Answer {
        self.put_wide(place::BASE, at);
        self.answered(Call::Restart)
    }

    /// The state as one that is handed in.
    pub fn hand_in(&mut self, s: &State) {
        (0..48).for_each(|k| self.put(place::WINDOW + k, i32::from(s.window[k as usize]) as u32));
        self.put_wide(place::BASE, s.base);
        self.put_wide(place::T, s.t);
        self.put(place::PEAK, s.peak);
        self.put(place::PEAK_PLACE, s.place.into());
        self.put_wide(place::SUM, s.sum);
        let (kind, a, b) = match s.lock {
            Lock::Search { cand, count } => (0, cand, count),
            Lock::Locked { offset, misses } => (1, offset, misses),
        };
        self.put(place::LOCK, kind);
        self.put(place::LOCK + 1, a.into());
        self.put(place::LOCK + 2, b);
        match s.stage {
            Stage::Before => self.put(place::STAGE, 0),
            Stage::First(Reading { at, f, s }) => {
                self.put(place::STAGE, 1);
                self.put_wide(place::HELD_AT, at);
                self.put_corr(place::HELD, f);
                self.put_corr(place::HELD + 2, s);
            }
            Stage::Known { odd, due, last } => {
                self.put(place::STAGE, 2);
                self.put(place::ODD, odd.into());
                self.put(place::DUE, due.into());
                self.put_corr(place::LAST_S, last);
            }
        }
        self.put(place::MAJORITY, s.majority as u32);
        self.put(place::SLOT, s.slot.is_some().into());
        if let Some((number, frame)) = s.slot {
            self.put(place::SLOT + 1, number.into());
            self.put(place::SLOT + 2, frame);
        }
        self.put(place::RECORD, s.record.is_some().into());
        if let Some((at, frame)) = s.record {
            self.put_wide(place::RECORD + 1, at);
            self.put(place::RECORD + 3, frame);
        }
        self.put(place::MISSES, s.misses);
        self.put(place::STRAY, s.stray);
        self.put(place::MISSED, s.missed);
        self.call(Call::HandIn);
    }

    /// The next symbol's position.
    pub fn next(&self) -> u64 {
        self.desk.position() as u64
    }
}

#[derive(Default, Clone)]
pub struct Totals {
    pub pushes: u64,
    pub events: u64,
    pub heads: u64,
    pub losses: u64,
    pub refused: Refused,
    pub by_rust: u64,
    pub by_opened: u64,
    pub looks: u64,
}

impl Counted for Totals {
    fn named(&self) -> Vec<(String, u64)> {
        let all = [
            ("symbols", self.pushes),
            (BY_RUST, self.by_rust),
            (BY_OPENED, self.by_opened),
            (LOOKS, self.looks),
            ("events", self.events),
            ("heads", self.heads),
            ("losses", self.losses),
        ];
        all.map(|(name, n)| (name.to_string(), n)).into_iter().chain(self.refused.named()).collect()
    }
}

impl std::fmt::Display for Totals {
    fn fmt(&self, out: &mut std::fmt::Formatter) -> std::fmt::Result {
        let Self { pushes, events, heads, losses, refused, by_rust, by_opened, looks } = self;
        write!(
            out,
            "{pushes:>9} symbols, {by_rust:>9} by the Rust, {by_opened} by it opened, {looks} looks at its state, "
        )?;
        write!(out, "{events} events, {heads} of them heads and {losses} losses, {refused}")
    }
}

impl std::ops::AddAssign for Totals {
    fn add_assign(&mut self, more: Self) {
        self.pushes += more.pushes;
        self.events += more.events;
        self.heads += more.heads;
        self.losses += more.losses;
        self.refused += more.refused;
        self.by_rust += more.by_rust;
        self.by_opened += more.by_opened;
        self.looks += more.looks;
    }
}
