//! Makes calls with what each owes, while the Rust's `Back` goes beside them: the model has to agree with it. Of the unchanged one, from a new
//! alignment on, there are to see: the equalised symbols of a whole numbered frame, at its end, the training sums of one with a layout, its
//! equaliser, and the frames that a gap, a restart or another frame's head drops. Everywhere else goes the opened one, in any state in range,
//! and shows all that it keeps. The model alone answers for refusals.

use super::beside::Beside;
use super::calls::{Call, Ones};
use super::desk::{Answer, Desk};
use super::model::RULES;
use super::slips;
use crate::eq::beside::{agree, agree_in_state, agree_in_sums, agree_in_taps, can_take, follow};
use crate::eq::calls::{Call as EqCall, Equaliser};
use crate::inputs::Random;
use crate::opened::back::{as_given, Aligner};
use crate::phase::calls::{Corrected, Numbers};
use crate::stage::{Calls, Counted, Refused, Sink, BY_OPENED, BY_RUST, LOOKS};
use crate::sync::model::ones;
use crate::unchanged::eq::pairs;
use isdbs3_core::params::SLOTS;

/// Symbols of a frame.
pub const FRAME: usize = SLOTS * super::PLACES;

/// The equaliser's whole state is looked at behind one in so many pushes of the unchanged Rust, and answers of its opened copy.
const LOOKS_EVERY: [u64; 2] = [31, 5];

#[derive(Default, Clone)]
pub struct Totals {
    pub calls: u64,
    pub refused: Refused,
    /// By the Rust: symbols of whole frames, sums, drops, and pushes that dropped nothing while a frame was open.
    pub symbols: u64,
    pub sums: u64,
    pub dropped: u64,
    pub undropped: u64,
    pub loads: u64,
    /// By its opened copy: calls, and of these pushes that let a symbol's value be seen.
    pub by_opened: u64,
    pub values: u64,
    pub looks: u64,
}

impl Counted for Totals {
    fn named(&self) -> Vec<(String, u64)> {
        let Self { calls, symbols, sums, dropped, undropped, loads, by_opened, values, looks, .. } = *self;
        let all = [
            ("calls", calls),
            (BY_RUST, symbols + sums + dropped + undropped + loads),
            ("symbols", symbols),
            ("sums", sums),
            ("drops", dropped),
            ("pushes without a drop", undropped),
            ("loads", loads),
            (BY_OPENED, by_opened),
            ("values by the Rust, opened", values),
            (LOOKS, looks),
        ];
        all.map(|(name, n)| (name.to_string(), n)).into_iter().chain(self.refused.named()).collect()
    }
}

impl std::fmt::Display for Totals {
    fn fmt(&self, out: &mut std::fmt::Formatter) -> std::fmt::Result {
        let Self { calls, refused, symbols, sums, dropped, undropped, loads, by_opened, values, looks } = self;
        write!(out, "{calls:>9} calls, {refused}")?;
        if symbols + dropped + undropped != 0 {
            write!(out, "; by the Rust: {symbols} symbols, {sums} frames' sums, {loads} loads, {dropped} drops, none at {undropped} others")?;
        }
        write!(out, "; by it opened: {by_opened} calls, {values} values; {looks} looks at its state")
    }
}

impl std::ops::AddAssign for Totals {
    fn add_assign(&mut self, more: Self) {
        self.calls += more.calls;
        self.refused += more.refused;
        self.symbols += more.symbols;
        self.sums += more.sums;
        self.dropped += more.dropped;
        self.undropped += more.undropped;
        self.loads += more.loads;
        self.by_opened += more.by_opened;
        self.values += more.values;
        self.looks += more.looks;
    }
}

pub struct Player<'a> {
    desk: Desk,
    /// The unchanged Rust, from a new alignment on, and its pushes so far.
    rust: Option<Beside>,
    pushes: u64,
    /// The opened Rust; whether it has to be handed in what is kept.
    opened: Aligner,
    altered: bool,
    calls: Calls<'a>,
    disguise: Random,
    /// But for calls and refusals, which `calls` counts.
    totals: Totals,
}

/// Whether a call replaces numbers that are kept.
fn replaces(call: &Call) -> bool {
    match call {
        Call::Eq(call) => call.is_put() || *call == EqCall::New,
        Call::New | Call::Words(_) | Call::MoveUp(_) | Call::Line { .. } => true,
        Call::Push(_) | Call::Restart => false,
    }
}

impl<'a> Player<'a> {
    pub fn new(seed: u64, sink: &'a mut Sink<'a>) -> Self {
        Self {
            desk: Desk::new(slips::of_model()),
            rust: None,
            pushes: 0,
            opened: Aligner::new(),
            altered: true,
            calls: Calls::new(sink),
            disguise: Random(!seed),
            totals: Totals::default(),
        }
    }

    pub fn end(self) -> Totals {
        let (calls, refused) = self.calls.end();
        Totals { calls, refused, ..self.totals }
    }

    pub fn desk(&self) -> &Desk {
        &self.desk
    }

    /// Whether the Rust, beside, loads taps by itself.
    pub fn solves(&self) -> bool {
        self.rust.as_ref().is_some_and(|rust| rust.solves)
    }

    pub fn eq(&self) -> &Equaliser {
        &self.desk.eq.eq
    }

    /// The symbol that the next push, at this position, lets out.
    fn next_out(&self, at: u64) -> Option<&Corrected> {
        let line = &self.desk.line;
        let comes = line.count == 5 && !RULES.gap(line, at);
        comes.then(|| &line.places[0])
    }

    /// One call in four goes in other numbers than its plain ones.
    fn answered(&mut self, call: &Call) -> Answer {
        let plain = self.disguise.below(4) != 0;
        let numbers = if plain { call.numbers() } else { call.in_disguise(&mut self.disguise) };
        let answer = self.desk.answer(Some(call));
        self.calls.owe(numbers, answer.numbers);
        answer
    }

    /// The opened Rust gets what is kept, before a call that it can take.
    fn prepare(&mut self) {
        let Desk { eq, line, words, .. } = &self.desk;
        if self.altered && words.iter().all(ones) && RULES.in_range(&eq.eq, line) {
            self.opened.hand_in(&eq.eq, line, words);
            self.altered = false;
        }
    }

    /// The opened Rust takes a call that the model took.
    fn follow(&mut self, call: &Call, answer: &Answer) {
        let (desk, opened) = (&self.desk, &mut self.opened);
        match call {
            Call::Push(c) => {
                let value = answer.out.filter(|a| Aligner::shows(&a.place)).map(|a| a.z);
                agree(value, opened.push(c));
                self.totals.values += u64::from(value.is_some());
            }
            Call::Restart => opened.restart(),
            Call::Eq(call) if can_take(call) => follow(opened.eq(), call, &answer.said, &desk.eq),
            _ => return,
        }
        let waiting = desk.line.places.iter().take(desk.line.count as usize).map(as_given);
        agree((waiting.collect(), desk.line.last), opened.waiting());
        agree_in_taps(opened.eq(), &desk.eq.eq);
        agree_in_sums(opened.eq(), &desk.eq.eq);
        self.totals.by_opened += 1;
        if self.totals.by_opened % LOOKS_EVERY[1] == 0 {
            agree_in_state(&opened.eq().shown(), &desk.eq.eq);
            self.totals.looks += 1;
        }
    }

    /// The unchanged Rust goes along with restarts and loads, too; of opened and closed sums it shows what `push` compares.
    fn follow_unchanged(&mut self, call: &Call) {
        match (call, &mut self.rust) {
            (Call::Restart, Some(rust)) => rust.restart(&mut self.totals),
            (Call::Eq(EqCall::Load { taps, .. }), Some(rust)) => {
                rust.back.load_taps(pairs(taps));
                self.totals.loads += 1;
            }
            (Call::Eq(EqCall::Tell | EqCall::Open { .. } | EqCall::Close | EqCall::Keep), _) => {}
            _ => self.rust = None,
        }
    }

    pub fn ask(&mut self, call: Call) -> Answer {
        if let (Call::Push(c), true) = (call, self.rust.is_some()) {
            return self.push(c);
        }
        let unchanged = self.rust.is_some();
        if unchanged || replaces(&call) {
            self.altered = true;
        } else {
            self.prepare();
        }
        let answer = self.answered(&call);
        if answer.refusal == 0 && unchanged {
            self.follow_unchanged(&call);
        } else if answer.refusal == 0 && !self.altered {
            self.follow(&call, &answer);
        }
        answer
    }

    /// A new alignment, with the unchanged Rust beside it.
    pub fn beside(&mut self, words: [Ones; 2], solves: bool) {
        self.ask(Call::Words(words));
        self.ask(Call::New);
        self.rust = Some(Beside::new(&words, solves));
    }

    fn push(&mut self, c: Corrected) -> Answer {
        let gap = RULES.gap(&self.desk.line, c.at);
        self.before(&c);
        let answer = self.answered(&Call::Push(c));
        let Some(rust) = self.rust.as_mut().filter(|_| answer.refusal == 0) else { return answer };
        let ended = rust.push(&c, gap, &answer.out, &mut self.totals);
        let (e, taps) = (&self.desk.eq.eq, rust.back.equaliser());
        agree(pairs(&e.taps), taps.taps);
        if rust.solves {
            agree(e.from, taps.taps_from);
        }
        self.pushes += 1;
        if self.pushes % LOOKS_EVERY[0] == 0 && ended.is_none() {
            rust.look(e);
            self.totals.looks += 1;
        }
        if let Some(whole) = ended.filter(|whole| whole.sums.is_some()) {
            self.answered(&Call::Eq(EqCall::Close));
            let rust = self.rust.as_mut().expect("beside");
            rust.agree_in_sums(&whole, &self.desk.eq.sums, &mut self.totals);
        }
        answer
    }

    /// What the Rust does by itself once a symbol comes out, document 01's caller does before: opens the sums at the head of
    /// a frame with a layout, and loads the taps that wait for a frame.
    fn before(&mut self, c: &Corrected) {
        let out = self.next_out(c.at).copied();
        let (Some(rust), Some(out)) = (&mut self.rust, out) else { return };
        let Some((number, frame)) = out.slot else { return };
        let opens = (number, out.j) == (0, 0) && rust.laid.contains(&frame);
        let loads = rust.pending.take_if(|(_, _, at)| frame >= *at);
        if let Some((taps, from, _)) = loads {
            let taps = std::array::from_fn(|k| taps[k / 2][k % 2]);
            self.answered(&Call::Eq(EqCall::Load { frame: from, taps }));
            self.totals.loads += 1;
        }
        if opens {
            self.answered(&Call::Eq(EqCall::Open { frame }));
        }
    }

    /// A call that there is not.
    pub fn unknown(&mut self, call: Numbers) {
        let answer = self.desk.answer(None);
        self.calls.owe(call, answer.numbers);
    }

    /// A call that document 01 refuses with this number, or 0 for one that it takes: what is expected does not rest on the
    /// model.
    #[track_caller]
    pub fn refused(&mut self, call: Call, refusal: u8) {
        let answer = self.ask(call);
        assert_eq!(answer.refusal, refusal, "{call:?}");
    }
}
