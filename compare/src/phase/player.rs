//! Makes calls with what each owes, while the Rust goes beside them wherever it can be given the same: the model has to
//! agree with it. The model alone answers for refusals, and for states that the Rust cannot be led to.

use super::beside::{self, agree_in_carrier, agree_in_slot};
use super::calls::{Answer, Call, Corrected, Head, Held, Nco, Numbers, Phase, Whole, Word, STORE};
use super::desk::Desk;
use super::model::{looked_up, RULES, SLOT};
use super::slips;
use crate::inputs::Random;
use crate::opened::handed_in;
use crate::stage::{Beside, Calls, Sink, Totals};
use isdb_frontend::tables::choose_table;
use isdbs3_phy::chain::phase::{gain_of, SlotPhase};
use isdbs3_phy::chain::sync::Nco as RustNco;
use std::fmt::Debug;

/// The right lengths.
pub const ENTRIES: u64 = 1_024;
pub const PLACES: u64 = 18_592;

pub struct Player<'a> {
    desk: Desk,
    /// The table in force; a sparse player sets only entries that are looked up.
    table: Vec<i16>,
    sparse: bool,
    /// Of calls that may be left out, one in so many is made.
    every: u64,
    offered: u64,
    calls: Calls<'a>,
    disguise: Random,
    by_rust: u64,
    by_opened: u64,
    looks: u64,
}

impl<'a> Player<'a> {
    pub fn new(seed: u64, sink: &'a mut Sink<'a>) -> Self {
        let mut player = Self {
            desk: Desk::new(slips::of_model()),
            table: Vec::new(),
            sparse: false,
            every: 1,
            offered: 0,
            calls: Calls::new(sink),
            disguise: Random(!seed),
            by_rust: 0,
            by_opened: 0,
            looks: 0,
        };
        player.set_table(&[0; ENTRIES as usize]);
        player
    }

    /// For a sample: short.
    pub fn sparse(seed: u64, every: u64, sink: &'a mut Sink<'a>) -> Self {
        Self { sparse: true, every, ..Self::new(seed, sink) }
    }

    /// The entries that an accepted call looks up.
    fn prepare(&mut self, call: &Call) {
        let angle = match (call, self.desk.answer(Some(*call))) {
            (Call::Rotate { nco, .. }, Answer::Nco(0, ..)) => nco.phase,
            (Call::Correct { .. }, Answer::Corrected(c)) => c.phi,
            _ => return,
        };
        for k in looked_up(angle) {
            self.set_entry(k);
        }
    }

    /// One call in four goes in other numbers than its plain ones.
    pub fn ask(&mut self, call: Call) -> Answer {
        if self.sparse && matches!(call, Call::Rotate { .. } | Call::Correct { .. }) {
            self.prepare(&call);
        }
        let plain = self.disguise.below(4) != 0;
        let numbers = if plain { call.numbers() } else { call.in_disguise(&mut self.disguise) };
        let answer = self.desk.answer(Some(call));
        self.calls.owe(numbers, answer.numbers());
        answer
    }

    /// A call that there is not.
    pub fn unknown(&mut self, call: Numbers) {
        let answer = self.desk.answer(None);
        self.calls.owe(call, answer.numbers());
    }

    /// A call that document 01 refuses with this number, or 0 for one that it takes: what is expected does not rest on the
    /// model.
    pub fn refused(&mut self, call: Call, refusal: u8) {
        self.offered += 1;
        if self.offered % self.every != 0 {
            return;
        }
        let before = matches!(call, Call::Push { .. }).then(|| self.desk.store.clone());
        let answer = self.ask(call);
        assert_eq!(answer.refusal(), refusal, "THE MODEL IS WRONG: {call:?}");
        let same = before.is_none_or(|before| before == self.desk.store);
        assert!(refusal == 0 || same, "THE MODEL IS WRONG: a refused push writes the store: {call:?}");
    }

    /// Both digests: nothing else was written.
    pub fn digests(&mut self) {
        self.ask(Call::TableDigest);
        self.ask(Call::StoreDigest);
    }

    pub fn end(mut self) -> Totals {
        self.digests();
        let (calls, refused) = self.calls.end();
        let Self { by_rust, by_opened, looks, .. } = self;
        Totals { calls, by_rust, by_opened, looks, refused }
    }

    /// The last answer, of the model and of the Rust.
    fn agree<T: PartialEq + Debug>(&mut self, model: T, rust: T) {
        self.agree_with(false, model, rust);
    }

    /// .. of the Rust as it is, or with opened fields.
    fn agree_with<T: PartialEq + Debug>(&mut self, opened: bool, model: T, rust: T) {
        assert!(model == rust, "THE MODEL IS WRONG: {model:?}\nthe Rust:  {rust:?}");
        *(if opened { &mut self.by_opened } else { &mut self.by_rust }) += 1;
    }

    /// Whether the Rust's state is looked at behind this answer: behind one in so many.
    fn looks_now(&mut self, every: u64) -> bool {
        let due = (self.by_rust + self.by_opened) % every == 0;
        self.looks += u64::from(due);
        due
    }

    fn set_entry(&mut self, k: usize) {
        let v = self.table[k];
        if self.desk.table[k] != v {
            self.ask(Call::SetTable { k: k as u64, v });
        }
    }

    /// The table from now on, of the Rust's stages that are made from now on too.
    pub fn set_table(&mut self, table: &[i16]) {
        self.table = table.to_vec();
        choose_table(table);
        if !self.sparse {
            (0..table.len()).for_each(|k| self.set_entry(k));
        }
    }

    /// A symbol at its place in the store.
    pub fn set_symbol(&mut self, j: u64, r: [i16; 2]) {
        for (k, v) in (2 * j..).zip(r) {
            if (k as usize) < STORE && self.desk.store[k as usize] != v {
                self.ask(Call::SetStore { k, v });
            }
        }
    }

    pub fn gain_of(&mut self, amp: i64) -> u64 {
        let answer = self.ask(Call::Gain { amp });
        if amp.unsigned_abs() <= 1 << 60 {
            self.agree(answer, Answer::Single(0, gain_of(amp) as u64));
        } else {
            assert_eq!(answer.refusal(), 6);
        }
        answer.numbers()[1]
    }
}

/// An Ssync head of this angle.
pub fn ssync(theta: u32) -> Head {
    Head { at: 0, word: Word::Ssync, theta, amp: 0, slot: None, corr: [0; 2], nco_phase: 0 }
}

/// A carrier, and the Rust's beside it.
pub struct Carrier {
    pub state: Nco,
    /// The last symbol.
    pub turned: [i16; 2],
    beside: Option<Beside<dyn beside::Carrier>>,
}

/// The Rust's `Nco` in this state, where Ssync heads can lead to it: the turns of the heads have its sum, and end at its
/// last angle.
fn led_to(state: &Nco) -> Option<RustNco> {
    let mut nco = RustNco::new(state.freq);
    if let Some(t) = state.trail {
        let turns = i64::from(t.steps);
        if turns > 59 || t.sum < turns * -(1 << 31) || turns * ((1 << 31) - 1) < t.sum {
            return None;
        }
        let mut theta = t.last.wrapping_sub(t.sum as u32);
        beside::Carrier::head(&mut nco, &ssync(theta));
        let mut left = t.sum;
        for to_go in (1..=turns).rev() {
            theta = theta.wrapping_add((left / to_go) as u32);
            left -= left / to_go;
            beside::Carrier::head(&mut nco, &ssync(theta));
        }
    }
    nco.phase = state.phase;
    Some(nco)
}

impl Carrier {
    pub fn new(p: &mut Player, freq: i32) -> Self {
        let rust = RustNco::new(freq);
        let answer = p.ask(Call::NcoNew { freq });
        p.agree(answer, Answer::Nco(0, Nco { phase: rust.phase, freq: rust.freq, trail: None }, [0; 2]));
        let beside = Some(Beside::unchanged(Box::new(rust) as Box<dyn beside::Carrier>));
        Self { state: Nco { phase: 0, freq, trail: None }, turned: [0; 2], beside }
    }

    /// The unchanged Rust is led to the state where heads lead there; else its opened copy is given it.
    pub fn handed_in(state: Nco) -> Self {
        let led = led_to(&state).map(|nco| Beside::unchanged(Box::new(nco) as Box<dyn beside::Carrier>));
        let given = || RULES.nco_in_range(&state).then(|| Beside::opened(Box::new(handed_in::nco(&state)) as _));
        Self { state, turned: [0; 2], beside: led.or_else(given) }
    }

    /// What the Rust shows, or nothing where it is not asked.
    fn answered(
        &mut self,
        p: &mut Player,
        answer: Answer,
        rust: impl FnOnce(&mut dyn beside::Carrier) -> [i64; 2],
    ) -> u8 {
        let Answer::Nco(refusal, nco, more) = answer else { unreachable!() };
        self.state = nco;
        if let (0, Some(beside)) = (refusal, &mut self.beside) {
            let by_rust = rust(beside.rust.as_mut());
            p.agree_with(beside.opened, (more, (nco.phase, nco.freq)), (by_rust, beside.rust.phase_and_step()));
            if p.looks_now(if beside.opened { 5 } else { 61 }) {
                agree_in_carrier(&beside.rust.shown(), &nco, &p.table);
            }
        }
        refusal
    }

    pub fn rotate(&mut self, p: &mut Player, x: [i8; 2]) -> u8 {
        let answer = p.ask(Call::Rotate { nco: self.state, x, table: ENTRIES });
        if let Answer::Nco(0, _, symbol) = answer {
            self.turned = symbol.map(|v| v as i16);
        }
        self.answered(p, answer, |nco| nco.rotate(x).map(i64::from))
    }

    pub fn head(&mut self, p: &mut Player, head: Head) -> u8 {
        let answer = p.ask(Call::Hear { nco: self.state, head });
        self.answered(p, answer, |nco| [nco.head(&head).into(), 0])
    }

    pub fn restart(&mut self, p: &mut Player) -> u8 {
        let answer = p.ask(Call::NcoRestart { nco: self.state });
        self.answered(p, answer, |nco| {
            nco.restart();
            [0; 2]
        })
    }
}

/// A slot's phase, the Rust's beside it, and what a head made of both: the slot that is due, and its corrected symbols.
pub struct Slots {
    pub state: Phase,
    beside: Option<Beside<dyn beside::Slot>>,
    /// The program's store has the symbols of the slot.
    stored: bool,
    pub due: Option<Whole>,
    corrected: Vec<Corrected>,
}

impl Slots {
    fn with(state: Phase, beside: Option<Beside<dyn beside::Slot>>) -> Self {
        Self { state, beside, stored: true, due: None, corrected: Vec::new() }
    }

    pub fn new(p: &mut Player) -> Self {
        let rust = SlotPhase::new();
        let answer = p.ask(Call::New);
        assert!(!rust.holding());
        p.agree(answer, Answer::Phase(0, None));
        Self::with(None, Some(Beside::unchanged(Box::new(rust))))
    }

    /// The Rust's opened copy is given the same, with the symbols that the program's store has.
    pub fn handed_in(p: &Player, state: Phase) -> Self {
        let given = RULES.phase_in_range(&state).then(|| handed_in::slot(&state, &p.desk.store));
        Self::with(state, given.map(|slot| Beside::opened(Box::new(slot) as _)))
    }

    /// A whole slot as it stands before its next head. The program's store needs to hold only the symbols that are looked at.
    pub fn full(head: Head, symbols: &[[i16; 2]]) -> Self {
        let mut rust = SlotPhase::new();
        beside::Slot::head(&mut rust, &head);
        symbols.iter().for_each(|&r| rust.push(r));
        let whole = Self::with(Some(Held { head, count: SLOT }), Some(Beside::unchanged(Box::new(rust))));
        Self { stored: false, ..whole }
    }

    fn kept(&mut self, p: &mut Player, answer: Answer, rust: impl FnOnce(&mut dyn beside::Slot)) -> u8 {
        let Answer::Phase(refusal, phase) = answer else { unreachable!() };
        self.state = phase;
        if let (0, Some(beside)) = (refusal, &mut self.beside) {
            rust(beside.rust.as_mut());
            let holding = beside.rust.holding();
            p.agree_with(beside.opened, phase.is_some(), holding);
            if self.stored && p.looks_now(if beside.opened { 5 } else { 997 }) {
                agree_in_slot(&beside.rust.shown(), &phase, &p.table, &p.desk.store);
            }
        }
        refusal
    }

    pub fn push(&mut self, p: &mut Player, r: [i16; 2]) -> u8 {
        let answer = p.ask(Call::Push { phase: self.state, r, store: PLACES });
        self.kept(p, answer, |phase| phase.push(r))
    }

    pub fn restart(&mut self, p: &mut Player) -> u8 {
        let answer = p.ask(Call::Restart { phase: self.state });
        self.kept(p, answer, |phase| phase.restart())
    }

    /// All three answers of a head.
    pub fn head(&mut self, p: &mut Player, head: Head) -> u8 {
        let phase = self.state;
        let Answer::Due(_, due) = p.ask(Call::Due { phase, head }) else { unreachable!() };
        p.ask(Call::Next { phase, head });
        let answer = p.ask(Call::Head { phase, head });
        let mut corrected = Vec::new();
        let refusal = self.kept(p, answer, |phase| corrected = phase.head(&head));
        if let (0, Some(beside)) = (refusal, &self.beside) {
            p.agree_with(beside.opened, due.map_or(0, |_| SLOT as usize), corrected.len());
        }
        (self.due, self.corrected) = (due, corrected);
        refusal
    }

    /// Symbol j of the slot that is due.
    pub fn correct(&mut self, p: &mut Player, j: u64) -> u8 {
        let slot = self.due.expect("a slot that is due");
        let answer = p.ask(Call::Correct { slot, j, table: ENTRIES, store: PLACES });
        if let (Some(c), Some(beside)) = (self.corrected.get(j as usize), &self.beside) {
            p.agree_with(beside.opened, answer, Answer::Corrected(*c));
        }
        answer.refusal()
    }
}
