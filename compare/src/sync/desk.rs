//! What the replay program owes for each call, by the model. The Rust goes beside it wherever it can be given the same, and the model has to
//! agree with it on every answer, and at each look on every number of the state.

use super::beside::{agree, fits, Beside, More};
use super::calls::{mixed, place, Answer, Call, Told, Word, STORE};
use super::model::{ones, Lock, Reading, Rules, Stage, State, Sync, SLOT};
use crate::{opened, unchanged};

pub struct Desk {
    places: [u32; place::ALL],
    f: Word,
    s: Word,
    store: Vec<u32>,
    pub sync: Sync,
    beside: Option<Box<dyn Beside>>,
    more: More,
    /// The sync beside has opened fields; it has to be made anew from what was handed in.
    opened: bool,
    altered: bool,
    /// A stand-in has no use for the Rust.
    alone: bool,
    pub told: Told,
    pub last: Answer,
    /// Answers of the Rust so far, of its unchanged files and of the opened ones, and looks at its states.
    pub by_rust: u64,
    pub by_opened: u64,
    pub looks: u64,
}

impl Desk {
    pub fn new(rules: Rules) -> Self {
        Self {
            places: [0; place::ALL],
            f: [1; 48],
            s: [1; 48],
            store: vec![0; STORE],
            sync: Sync::new(rules),
            beside: None,
            more: More::default(),
            opened: false,
            altered: false,
            alone: false,
            told: [0; 40],
            last: Answer::refused(0),
            by_rust: 0,
            by_opened: 0,
            looks: 0,
        }
    }

    pub fn alone(rules: Rules) -> Self {
        Self { alone: true, ..Self::new(rules) }
    }

    fn at(&self, k: u32) -> u32 {
        self.places[k as usize]
    }

    fn wide(&self, k: u32) -> u64 {
        u64::from(self.at(k)) | u64::from(self.at(k + 1)) << 32
    }

    fn corr(&self, k: u32) -> [i32; 2] {
        [self.at(k) as i32, self.at(k + 1) as i32]
    }

    fn lent(&self) -> usize {
        STORE.min(self.at(place::LENT) as usize)
    }

    fn word(&self, from: u32) -> Word {
        std::array::from_fn(|k| self.at(from + k as u32) as i8)
    }

    fn state(&self) -> State {
        let [a, b] = [self.at(place::LOCK + 1), self.at(place::LOCK + 2)];
        let [h, slot, record] = [place::HELD, place::SLOT, place::RECORD];
        State {
            window: std::array::from_fn(|k| self.at(place::WINDOW + k as u32) as i16),
            base: self.wide(place::BASE),
            t: self.wide(place::T),
            peak: self.at(place::PEAK),
            place: self.at(place::PEAK_PLACE) as u16,
            sum: self.wide(place::SUM),
            lock: match self.at(place::LOCK) {
                0 => Lock::Search { cand: a as u16, count: b },
                _ => Lock::Locked { offset: a as u16, misses: b },
            },
            stage: match self.at(place::STAGE) {
                0 => Stage::Before,
                1 => Stage::First(Reading { at: self.wide(place::HELD_AT), f: self.corr(h), s: self.corr(h + 2) }),
                _ => Stage::Known {
                    odd: self.at(place::ODD) != 0,
                    due: self.at(place::DUE) != 0,
                    last: self.corr(place::LAST_S),
                },
            },
            majority: self.at(place::MAJORITY) as i32,
            slot: (self.at(slot) != 0).then(|| (self.at(slot + 1) as u8, self.at(slot + 2))),
            record: (self.at(record) != 0).then(|| (self.wide(record + 1), self.at(record + 3))),
            misses: self.at(place::MISSES),
            stray: self.at(place::STRAY),
            missed: self.at(place::MISSED),
        }
    }

    fn note(&mut self, answer: Answer) {
        let digest = self.told[0];
        self.told = answer.numbers();
        self.told[0] = self.told.iter().fold(digest, |d, &n| mixed(d, n));
        self.last = answer;
    }

    pub fn position(&self) -> u128 {
        self.sync.state.next()
    }

    /// Every number of the Rust's state is the model's.
    pub fn look(&mut self) {
        if let Some(beside) = &self.beside {
            let (words, acc) = ([&self.f, &self.s], &self.store[..SLOT as usize]);
            agree(&beside.shown(), &self.sync.state, words, acc, &self.more);
            self.looks += 1;
        }
    }

    /// Something was handed in that the unchanged Rust cannot be given: its opened copy is made from it before the next accepted call.
    fn alter(&mut self) {
        self.look();
        self.beside = None;
        self.altered = !self.alone;
    }

    /// A Rust that may overflow at the next symbol does not go on.
    fn let_go(&mut self) {
        if self.beside.is_some() && !fits(&self.sync.state) {
            self.alter();
        }
    }

    /// The opened Rust in the state that was handed in.
    fn follow(&mut self) {
        if std::mem::take(&mut self.altered) && fits(&self.sync.state) {
            let acc = &self.store[..SLOT as usize];
            self.beside = Some(Box::new(opened::handed_in::slots(&self.sync.state, &self.f, &self.s, acc)));
            (self.more, self.opened) = (More::default(), true);
        }
    }

    pub fn push(&mut self, symbol: [i16; 2]) {
        let lent = self.lent();
        let refusal = self.sync.push_refusal(&self.f, &self.s, lent);
        if refusal != 0 {
            return self.note(Answer::refused(refusal));
        }
        self.let_go();
        self.follow();
        let answer = self.sync.push(symbol, &self.f, &self.s, &mut self.store[..lent]);
        if let Some(beside) = &mut self.beside {
            let by_rust = beside.push(symbol);
            assert!(answer == by_rust, "THE MODEL IS WRONG: {answer:?}\nthe Rust:  {by_rust:?}");
            *(if self.opened { &mut self.by_opened } else { &mut self.by_rust }) += 1;
        }
        self.more.note(&answer);
        self.note(answer);
    }

    /// One that is accepted.
    fn restart(&mut self, at: u64) {
        if ones(&self.f) && ones(&self.s) {
            self.follow();
        }
        self.sync.restart(at, &mut self.store[..SLOT as usize]);
        if let Some(beside) = &mut self.beside {
            beside.restart(at);
            self.more = More::default();
        }
        self.look();
    }

    /// A call other than a push.
    pub fn call(&mut self, call: Call) {
        let lent = self.lent();
        let at = self.wide(place::BASE);
        match call {
            Call::Put(n, v) => {
                if let Some(number) = self.places.get_mut(n as usize) {
                    *number = v;
                }
            }
            Call::Words => {
                let words = (self.word(place::F), self.word(place::S));
                if words != (self.f, self.s) {
                    self.alter();
                }
                (self.f, self.s) = words;
            }
            Call::New => {
                self.alter();
                let refusal = self.sync.start(at, &mut self.store[..lent]);
                if refusal == 0 && !self.alone && ones(&self.f) && ones(&self.s) {
                    self.beside = Some(Box::new(unchanged::sync::Slots::new(&self.f, &self.s, at)));
                    (self.more, self.opened, self.altered) = (More::default(), false, false);
                }
                self.note(Answer::refused(refusal));
            }
            Call::Restart => {
                let refusal = self.sync.restart_refusal(at, lent);
                if refusal == 0 {
                    self.restart(at);
                }
                self.note(Answer::refused(refusal));
            }
            Call::HandIn => {
                self.alter();
                self.sync.state = self.state();
            }
            Call::Fold => self.told[0] = self.store.iter().fold(self.told[0], |d, &a| mixed(d, a.into())),
            Call::Set(n, v) => {
                if self.store.get(n as usize).is_some_and(|a| *a != v) {
                    self.alter();
                    self.store[n as usize] = v;
                }
            }
            Call::Push(n, symbol) => (0..n).for_each(|_| self.push(symbol)),
            Call::Tell => {}
        }
    }

    /// A call of a kind that there is not.
    pub fn unknown(&mut self) {
        self.note(Answer::refused(255));
    }
}
