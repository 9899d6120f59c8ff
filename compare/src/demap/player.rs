//! Makes calls with what each owes, while the Rust goes beside them wherever it can be given the same: the model has to
//! agree with it. The model alone answers for refusals.

use super::beside::{agree_in_learning, points_of, Beside};
use super::calls::{soft_told, Block, Call, Numbers, SOFT};
use super::desk::{lent, Desk};
use super::model::{labels, numbers, Force, LABELS, NUMBERS, RULES};
use super::slips;
use super::soft::pairs;
use crate::inputs::Random;
use crate::opened::handed_in;
use crate::stage::{Calls, Sink, Totals};
use crate::sync::calls::digest;
use crate::unchanged::learn::{Learning, RATE};
use isdbs3_phy::chain::demap::{self as rust, MODULATIONS};
use std::fmt::Debug;

/// The right length.
pub const ALL: u64 = NUMBERS as u64;

pub struct Player<'a> {
    pub desk: Desk,
    /// The Rust beside, and whether its fields are opened.
    beside: Box<dyn Beside>,
    opened: bool,
    /// Numbers of what was learned were handed in: the opened Rust is made from them before the next call that reads them. Until then, and
    /// where they are out of range, the Rust has something else.
    altered: bool,
    /// Calls whose effect the Rust has not shown yet.
    fed: u64,
    nominal: Vec<i16>,
    /// For a sample: short.
    pub sparse: bool,
    calls: Calls<'a>,
    disguise: Random,
    by_rust: u64,
    by_opened: u64,
    looks: u64,
}

impl<'a> Player<'a> {
    pub fn new(seed: u64, sink: &'a mut Sink<'a>) -> Self {
        let nominal = MODULATIONS.iter().flat_map(|&m| rust::nominal(m, RATE)).flatten().collect();
        let mut player = Self {
            desk: Desk::new(slips::of_model()),
            beside: Box::new(Learning::new()),
            opened: false,
            altered: false,
            fed: 0,
            nominal,
            sparse: false,
            calls: Calls::new(sink),
            disguise: Random(!seed),
            by_rust: 0,
            by_opened: 0,
            looks: 0,
        };
        for (k, v) in (0..).zip(player.nominal.clone()) {
            player.ask(Call::SetNominal { k, v });
        }
        player
    }

    pub fn sparse(seed: u64, sink: &'a mut Sink<'a>) -> Self {
        Self { sparse: true, ..Self::new(seed, sink) }
    }

    /// One call in four goes in other numbers than its plain ones.
    pub fn ask(&mut self, call: Call) -> Numbers {
        let plain = self.disguise.below(4) != 0;
        let numbers = if plain { call.numbers() } else { call.in_disguise(&mut self.disguise) };
        self.follow_in(&call);
        let told = self.desk.answer(Some(call));
        if told[0] == 0 {
            self.go_beside(&call, &told);
        }
        self.calls.owe(numbers, told);
        told
    }

    /// A call that there is not.
    pub fn unknown(&mut self, call: Numbers) {
        let told = self.desk.answer(None);
        self.calls.owe(call, told);
    }

    /// A call that document 01 refuses with this number, or 0 for one that it takes: what is expected does not rest on the
    /// model.
    pub fn refused(&mut self, call: Call, refusal: u8) {
        let told = self.ask(call);
        assert_eq!(told[0], u64::from(refusal), "THE MODEL IS WRONG: {call:?}");
    }

    pub fn end(mut self) -> Totals {
        self.tell_all();
        self.look();
        let (calls, refused) = self.calls.end();
        let Self { by_rust, by_opened, looks, .. } = self;
        Totals { calls, by_rust, by_opened, looks, refused }
    }

    // ---- the Rust beside

    /// Before a call that reads what was learned: the opened Rust is given what was handed in. Before a new state the old one is looked at.
    fn follow_in(&mut self, call: &Call) {
        if *call == Call::New {
            self.look();
        }
        let reads = matches!(
            call,
            Call::Pilot { .. } | Call::Noise { .. } | Call::Points { .. } | Call::Figure | Call::Next { .. }
        );
        if self.altered && reads && RULES.learn_in_range(&self.desk.learn) {
            self.beside = Box::new(handed_in::learning(&self.desk.learn));
            (self.opened, self.altered, self.fed) = (true, false, 0);
            self.put_force();
        }
    }

    fn put_force(&mut self) {
        self.beside.put_force(&self.desk.force, &self.desk.learned);
    }

    /// The Rust has shown what it makes of all that it was given, and one answer more or none.
    fn shown(&mut self, more: u64) {
        let all = std::mem::take(&mut self.fed) + more;
        *(if self.opened { &mut self.by_opened } else { &mut self.by_rust }) += all;
    }

    #[track_caller]
    fn agree<T: PartialEq + Debug>(&mut self, model: T, rust: T) {
        assert!(model == rust, "THE MODEL IS WRONG: {model:?}\nthe Rust:  {rust:?}");
        self.shown(1);
    }

    /// Every number of what was learned is the model's.
    fn look(&mut self) {
        if !self.altered {
            agree_in_learning(&self.beside.shown(), &self.desk.learn);
            self.looks += 1;
            self.shown(0);
        }
    }

    /// An answer that was not refused.
    fn go_beside(&mut self, call: &Call, told: &Numbers) {
        match *call {
            Call::New => {
                self.beside = Box::new(Learning::new());
                (self.opened, self.altered) = (false, false);
                self.put_force();
            }
            Call::PutSum { .. } | Call::PutCount { .. } | Call::PutNoise { .. } => self.altered = true,
            Call::Default | Call::PutForce(_) | Call::SetLearned { .. } => self.put_force(),
            Call::Part { bits, .. } => self.part_beside(bits, told),
            Call::Metric { y, p } => self.agree(told[1] as i64, rust::metric(y, p)),
            Call::Block(b) => self.block_beside(b, told),
            _ if !self.altered => self.learning_beside(call, told),
            Call::Next { .. } | Call::Points { .. } => self.put_force(),
            _ => {}
        }
    }

    fn learning_beside(&mut self, call: &Call, told: &Numbers) {
        let desk = &self.desk;
        match *call {
            Call::Pilot { bits, t, z } => self.beside.pilot(bits, t, z),
            Call::Noise { y, best } => self.beside.noise(y, best),
            Call::Points { bits, .. } => {
                let model = (told[1] == 1).then(|| desk.learned[numbers(bits)].to_vec());
                self.agree(model, self.beside.points(bits));
                return self.put_force();
            }
            Call::Figure => return self.agree((told[1] == 1).then_some(told[2] as i64), self.beside.n0()),
            Call::Next { frame, .. } => {
                self.beside.next(frame);
                let model = (desk.force, points_of(&desk.force, &desk.learned));
                return self.agree(model, self.beside.force());
            }
            _ => return,
        }
        self.fed += 1;
        if self.fed == 40 {
            self.look();
        }
    }

    /// Where nominal points are chosen, they have to be the Rust's.
    fn part_beside(&mut self, bits: u64, told: &Numbers) {
        let desk = &self.desk;
        if desk.force.learned[bits as usize - 1] || desk.nominal[..NUMBERS] == self.nominal {
            let points = self.beside.part(bits);
            self.agree([told[1], told[2]], [points.len() as u64, digest(points)]);
        }
    }

    /// Of the Rust, one symbol after the other.
    fn block_beside(&mut self, b: Block, told: &Numbers) {
        let points = pairs(&self.desk.nominal[..lent(b.points)]);
        let symbols = pairs(&self.desk.learned[..lent(b.symbols)]);
        let mut soft = [85; SOFT];
        for (y, out) in symbols.into_iter().zip(soft.chunks_exact_mut(b.bits as usize)) {
            rust::demap(y, &points, b.bits as usize, b.k, out);
        }
        self.agree(*told, soft_told(0, b.from, &soft));
    }

    // ---- what is kept

    pub fn labels(&mut self) {
        for a in (0..LABELS as u64).step_by(if self.sparse { 11 } else { 1 }) {
            self.ask(Call::Label { a });
        }
    }

    pub fn slices(&mut self) {
        self.ask(Call::LearnedDigest);
        self.ask(Call::NominalDigest);
    }

    pub fn tell_all(&mut self) {
        self.labels();
        self.ask(Call::Force);
        self.slices();
    }

    // ---- calls, and their refusals

    pub fn new_learn(&mut self) {
        self.ask(Call::New);
    }

    pub fn start(&mut self) {
        self.ask(Call::Default);
        self.ask(Call::Force);
    }

    /// A state that these pilots of a set and noise samples lead to, handed in as it stands: the unchanged Rust is led there.
    pub fn hand_in_led(&mut self, bits: u64, pilots: &[(u64, [i16; 2])], samples: &[([i16; 2], i64)]) {
        let mut learning = Learning::new();
        let mut sums = vec![([0i64; 2], 0u32); 1 << bits];
        for &(t, z) in pilots {
            learning.pilot(bits, t, z);
            let (sum, count) = &mut sums[t as usize % (1 << bits)];
            (sum[0], sum[1], *count) = (sum[0] + i64::from(z[0]), sum[1] + i64::from(z[1]), *count + 1);
        }
        self.ask(Call::New);
        for (a, (sum, count)) in labels(bits).zip(sums) {
            self.ask(Call::PutCount { k: a as u64, v: count });
            self.ask(Call::PutSum { k: 2 * a as u64, v: sum[0] });
            self.ask(Call::PutSum { k: 2 * a as u64 + 1, v: sum[1] });
        }
        let mut noise = 0;
        for &(y, best) in samples {
            learning.noise(y, best);
            noise += i64::from(y[0]).pow(2) + i64::from(y[1]).pow(2) + best;
        }
        self.ask(Call::PutNoise { noise, samples: samples.len() as u32 });
        self.beside = Box::new(learning);
        (self.opened, self.altered, self.fed) = (false, false, 0);
        self.put_force();
    }

    pub fn hand_in_force(&mut self, f: Force) {
        self.ask(Call::PutForce(f));
    }

    pub fn pilot(&mut self, bits: u64, t: u64, z: [i16; 2]) -> u64 {
        self.ask(Call::Pilot { bits, t, z })[0]
    }

    pub fn noise(&mut self, y: [i16; 2], best: i64) -> u64 {
        self.ask(Call::Noise { y, best })[0]
    }

    pub fn points(&mut self, bits: u64) -> u64 {
        self.ask(Call::Points { bits, learned: ALL })[0]
    }

    pub fn figure(&mut self) -> u64 {
        self.ask(Call::Figure)[0]
    }

    pub fn next(&mut self, frame: u32) -> u64 {
        let told = self.ask(Call::Next { frame, learned: ALL });
        self.ask(Call::Force);
        self.ask(Call::LearnedDigest);
        told[0]
    }

    pub fn part(&mut self, bits: u64) -> u64 {
        self.ask(Call::Part { bits, learned: ALL, nominal: ALL })[0]
    }

    pub fn metric(&mut self, y: [i16; 2], p: [i16; 2]) {
        self.ask(Call::Metric { y, p });
    }

    pub fn block(&mut self, b: Block) -> u64 {
        self.ask(Call::Block(b))[0]
    }
}
