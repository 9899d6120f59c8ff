//! What the replay program owes for each call, by the model: it keeps a receiver, words, events, sums, the table and the stores, as the program does.

use super::calls::{Call, Lent as Entries, ACC, INPUT, SOFT, STORE, TABLE};
use super::model::{Answer, Feeding, Lent, Receiver, Rules};
use crate::eq::calls::Sums;
use crate::eq::desk::{of_sums, Desk as EqDesk};
use crate::eq::model::no_sums;
use crate::frame::calls::Ones;
use crate::phase::calls::{Numbers, Row};
use crate::sync::calls::{digest, Event};

/// What the soft buffer holds at first.
pub const FILL: i8 = 85;

pub struct Desk {
    pub receiver: Receiver,
    pub words: [Ones; 2],
    pub events: [Event; 3],
    /// Those that ended last.
    pub sums: Sums,
    pub table: Vec<i16>,
    pub acc: Vec<u32>,
    pub store: Vec<i16>,
    pub soft: Vec<i8>,
    pub input: Vec<i8>,
}

fn plain(refusal: u8) -> Numbers {
    Row::new(refusal.into()).numbers
}

fn part<T>(all: &mut [T], n: u64) -> &mut [T] {
    let n = all.len().min(usize::try_from(n).unwrap_or(usize::MAX));
    &mut all[..n]
}

fn set<T>(all: &mut [T], k: u64, v: T) {
    if let Some(entry) = usize::try_from(k).ok().and_then(|k| all.get_mut(k)) {
        *entry = v;
    }
}

/// An event with all its fields.
fn event(e: &Event) -> Numbers {
    let mut row = Row::new(0);
    match *e {
        Event::Nothing => row.put(0),
        Event::Head { at, word, corr, theta, amp, slot, nco_phase } => {
            row.all([1, at, word as u64, theta.into(), amp as u64]);
            row.slot(slot);
            row.corr(corr);
            row.put(nco_phase.into());
        }
        Event::Period { peak, place, sum, locked, offset, parity, stray, missed } => {
            row.all([2, peak.into(), place.into(), sum, locked.into()]);
            row.all([offset.into(), parity.into(), stray.into(), missed.into()]);
        }
        Event::Lost { at } => row.all([3, at]),
    }
    row.numbers
}

fn kind(e: &Event) -> u64 {
    match e {
        Event::Nothing => 0,
        Event::Head { .. } => 1,
        Event::Period { .. } => 2,
        Event::Lost { .. } => 3,
    }
}

/// What a play of so many symbols is told as.
pub fn played(a: &Answer, used: u64) -> Numbers {
    let mut row = Row::new(a.refusal.into());
    row.put(used);
    row.all(a.events.iter().map(kind));
    a.runs.iter().for_each(|r| row.all([r.at, r.j.into(), r.count as u64, r.bits.into()]));
    row.numbers
}

impl Desk {
    pub fn new(rules: Rules) -> Self {
        Self {
            receiver: Receiver::new(rules),
            words: [[0; 48]; 2],
            events: [Event::Nothing; 3],
            sums: no_sums(0),
            table: vec![0; TABLE],
            acc: vec![0; ACC],
            store: vec![0; STORE],
            soft: vec![FILL; SOFT],
            input: vec![0; INPUT],
        }
    }

    /// One symbol with so many entries lent.
    pub fn symbol(&mut self, x: [i8; 2], [table, acc, store, soft]: Entries) -> Answer {
        let mut lent = Lent {
            words: &self.words,
            table: part(&mut self.table, table),
            acc: part(&mut self.acc, acc),
            store: part(&mut self.store, store),
            soft: part(&mut self.soft, soft),
        };
        self.receiver.symbol(x, &mut lent)
    }

    /// Symbols one by one; the state's numbers are tested for each of them, or for the first alone.
    fn play(&mut self, n: u64, lent: Entries, symbols: &[[i8; 2]], each: bool) -> Numbers {
        let n = n.min(symbols.len() as u64);
        let mut used = 0;
        let mut last = Answer::refused(0);
        while used < n && last.quiet() {
            self.receiver.rules.tested = each || used == 0;
            last = self.symbol(symbols[used as usize], lent);
            used += u64::from(last.refusal == 0);
        }
        self.receiver.rules.tested = true;
        self.events = last.events;
        played(&last, used)
    }

    /// As a play, but a refusal comes only with no symbol taken. An odd last byte is no symbol.
    fn feed(&mut self, bytes: u64, lent: Entries, symbols: &[[i8; 2]]) -> Numbers {
        let Feeding { odd_byte_left, refused_alone, tests_each } = self.receiver.rules.feed;
        let bytes = bytes.min(2 * symbols.len() as u64);
        let n = if odd_byte_left { bytes / 2 } else { bytes.div_ceil(2) };
        if n == 0 {
            let refusal = self.standing(lent);
            self.events = [Event::Nothing; 3];
            return played(&Answer::refused(refusal), 0);
        }
        let mut told = self.play(n, lent, symbols, tests_each);
        if told[1] > 0 && refused_alone {
            told[0] = 0;
        }
        told
    }

    /// The refusal of a feed of no symbols.
    pub fn standing(&mut self, [table, acc, store, soft]: Entries) -> u8 {
        let lent = Lent {
            words: &self.words,
            table: part(&mut self.table, table),
            acc: part(&mut self.acc, acc),
            store: part(&mut self.store, store),
            soft: part(&mut self.soft, soft),
        };
        self.receiver.standing(&lent)
    }

    fn eq(&mut self, call: Option<crate::eq::calls::Call>) -> Numbers {
        let rules = self.receiver.rules.frame.eq;
        let mut desk = EqDesk { rules, eq: self.receiver.eq, sums: self.sums };
        let answer = desk.answer(call);
        (self.receiver.eq, self.sums) = (desk.eq, desk.sums);
        answer.numbers
    }

    fn end(&mut self) -> Numbers {
        let (refusal, ended) = self.receiver.end();
        self.sums = ended.unwrap_or(no_sums(0));
        let mut row = Row::new(refusal.into());
        row.put(ended.is_some().into());
        row.all(of_sums(&self.sums));
        row.numbers
    }

    /// None is a call that there is not.
    pub fn answer(&mut self, call: Option<&Call>) -> Numbers {
        let Some(call) = call else { return plain(255) };
        match *call {
            Call::Eq(call) => self.eq(Some(call)),
            Call::Words(words) => {
                self.words = words;
                plain(0)
            }
            Call::Points { bits, k, count, mut points } => {
                let points = part(&mut points, count);
                plain(self.receiver.load_points(bits, points, k))
            }
            Call::Taps { frame, taps } => plain(self.receiver.load_taps(taps, frame)),
            Call::Open(frame) => plain(self.receiver.open(frame)),
            Call::End => self.end(),
            Call::Event(n) => event(&self.events[n.min(2) as usize]),
            Call::Tell(part) => part.told(&self.receiver),
            Call::Put(part, numbers) => {
                part.replace(&numbers, &mut self.receiver);
                part.told(&self.receiver)
            }
            _ => self.with_stores(call),
        }
    }

    /// A call that takes stores.
    fn with_stores(&mut self, call: &Call) -> Numbers {
        match *call {
            Call::New { at, step, acc } => plain(self.receiver.start(at, step, part(&mut self.acc, acc))),
            Call::Restart { at, acc } => plain(self.receiver.restart(at, part(&mut self.acc, acc))),
            Call::Look => {
                let mut row = Row::new(0);
                row.put(digest(self.acc.iter().copied()));
                row.put(digest(self.store.iter().copied()));
                row.put(digest(self.soft.iter().copied()));
                row.numbers
            }
            Call::SetTable { k, v } => {
                set(&mut self.table, k, v);
                plain(0)
            }
            Call::SetAcc { k, v } => {
                set(&mut self.acc, k, v);
                plain(0)
            }
            Call::Play { n, lent, symbols } => self.play(n, lent, &symbols, true),
            Call::Feed { n, lent, symbols } => self.feed(n, lent, &symbols),
            Call::PutInput { k, bytes } => {
                (k..).zip(bytes).for_each(|(k, x)| set(&mut self.input, k, x));
                plain(0)
            }
            Call::FeedInput { n, lent } => {
                let symbols: Vec<[i8; 2]> = self.input.chunks(2).map(|x| [x[0], x[1]]).collect();
                self.feed(n, lent, &symbols)
            }
            _ => unreachable!("answered above"),
        }
    }
}
