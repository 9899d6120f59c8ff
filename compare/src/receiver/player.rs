//! Makes calls with what each owes by the model, while the unchanged stages go beside, wired as a receiver: wherever they can be led to the same
//! state the model has to agree with them on every event with all its fields, the runs, the soft bits, the accumulators, the carrier. `Chain`
//! goes along with them. After a refused call everything is looked at.

use super::beside::{fits, Rust};
use super::calls::{Call, Lent, Symbols, INPUT, PLAY, PUT, RIGHT, SOFT};
use super::desk::{played, Desk};
use super::model::{Answer, Receiver};
use super::parts::PARTS;
use super::slips;
use crate::eq::calls::Call as EqCall;
use crate::frame::calls::Ones;
use crate::inputs::{pick, Random};
use crate::opened::handed_in;
use crate::phase::calls::Numbers;
use crate::stage::{Calls, Counted, Refused, Sink, BY_OPENED, BY_RUST, LOOKS};
use crate::sync::beside::fits as sync_fits;
use crate::sync::calls::{pairs, Event};
use crate::sync::model::ones;
use crate::unchanged::receiver::Stages;
use isdb_frontend::s3sync::choose_words;
use isdb_frontend::tables::choose_table;

/// What symbols told.
#[derive(Default, Clone)]
pub struct Told {
    pub symbols: u64,
    pub heads: u64,
    pub periods: u64,
    pub losses: u64,
    pub slots: u64,
    pub soft: u64,
}

impl Told {
    fn count(&mut self, answer: &Answer) {
        self.symbols += 1;
        for event in &answer.events {
            match event {
                Event::Nothing => {}
                Event::Head { .. } => self.heads += 1,
                Event::Period { .. } => self.periods += 1,
                Event::Lost { .. } => self.losses += 1,
            }
        }
        self.slots += u64::from(answer.corrected > 0);
        self.soft += answer.soft as u64;
    }
}

impl std::ops::AddAssign for Told {
    fn add_assign(&mut self, more: Self) {
        self.symbols += more.symbols;
        self.heads += more.heads;
        self.periods += more.periods;
        self.losses += more.losses;
        self.slots += more.slots;
        self.soft += more.soft;
    }
}

#[derive(Default, Clone)]
pub struct Totals {
    pub calls: u64,
    pub refused: Refused,
    pub all: Told,
    /// Symbols that a feed took, and feeds that stopped before one that is refused with 6, 7 or 8.
    pub fed: u64,
    pub stops: [u64; 3],
    /// Feeds that took more than a call holds, the symbols that these took, and those among them that stopped.
    pub long: u64,
    pub long_fed: u64,
    pub long_stops: u64,
    pub by_rust: Told,
    pub by_opened: Told,
    pub looks: u64,
    /// Sums that ended, and the trainings of those that were opened while the unchanged Rust went along.
    pub sums: u64,
    pub trainings: u64,
    /// Symbols that `Chain` went along for.
    pub by_chain: u64,
}

impl Counted for Totals {
    fn named(&self) -> Vec<(String, u64)> {
        let [six, seven, eight] = self.stops;
        let rust = &self.by_rust;
        let all = [
            ("calls", self.calls),
            ("symbols", self.all.symbols),
            ("symbols fed", self.fed),
            ("heads", self.all.heads),
            ("losses", self.all.losses),
            ("slots", self.all.slots),
            ("feeds that stop before 6", six),
            ("feeds that stop before 7", seven),
            ("feeds that stop before 8", eight),
            ("long feeds", self.long),
            ("symbols of long feeds", self.long_fed),
            ("long feeds that stop", self.long_stops),
            (BY_RUST, rust.symbols),
            (BY_OPENED, self.by_opened.symbols),
            (LOOKS, self.looks),
            ("heads by the Rust", rust.heads),
            ("periods by the Rust", rust.periods),
            ("losses by the Rust", rust.losses),
            ("slots by the Rust", rust.slots),
            ("soft values by the Rust", rust.soft),
            ("heads by the Rust, opened", self.by_opened.heads),
            ("losses by the Rust, opened", self.by_opened.losses),
            ("slots by the Rust, opened", self.by_opened.slots),
            ("sums by the Rust", self.sums),
            ("trainings by the Rust", self.trainings),
            ("symbols by Chain", self.by_chain),
        ];
        all.map(|(name, n)| (name.to_string(), n)).into_iter().chain(self.refused.named()).collect()
    }
}

impl std::fmt::Display for Totals {
    fn fmt(&self, out: &mut std::fmt::Formatter) -> std::fmt::Result {
        let Self { calls, refused, all, fed, stops: [six, seven, eight], by_rust: rust, looks, .. } = self;
        let Self { sums, trainings, by_chain, .. } = self;
        write!(out, "{calls:>9} calls, {refused}, {:>9} symbols, {fed} by feed, ", all.symbols)?;
        write!(out, "{} heads, {} losses, {} slots", all.heads, all.losses, all.slots)?;
        write!(out, ", {} long feeds of {} symbols, {} of which stop", self.long, self.long_fed, self.long_stops)?;
        if six + seven + eight != 0 {
            write!(out, ", feeds that stop before 6, 7, 8: {six}, {seven}, {eight}")?;
        }
        let Told { symbols, heads, periods, losses, slots, soft } = rust;
        write!(
            out,
            "; by the Rust: {symbols} symbols, {heads} heads, {periods} periods, {losses} losses, {slots} slots, "
        )?;
        write!(out, "{soft} soft values, {sums} sums of {trainings} trainings, {looks} looks at its state; by Chain: {by_chain} symbols; ")?;
        let Told { symbols, heads, losses, slots, soft, .. } = &self.by_opened;
        write!(
            out,
            "by the Rust opened: {symbols} symbols, {heads} heads, {losses} losses, {slots} slots, {soft} soft values"
        )
    }
}

impl std::ops::AddAssign for Totals {
    fn add_assign(&mut self, more: Self) {
        self.calls += more.calls;
        self.refused += more.refused;
        self.all += more.all;
        self.fed += more.fed;
        self.stops.iter_mut().zip(more.stops).for_each(|(n, more)| *n += more);
        self.long += more.long;
        self.long_fed += more.long_fed;
        self.long_stops += more.long_stops;
        self.by_rust += more.by_rust;
        self.by_opened += more.by_opened;
        self.looks += more.looks;
        self.sums += more.sums;
        self.trainings += more.trainings;
        self.by_chain += more.by_chain;
    }
}

/// As many as a call holds, from the front.
fn first(symbols: &[[i8; 2]]) -> Symbols {
    std::array::from_fn(|k| symbols.get(k).copied().unwrap_or([0; 2]))
}

pub struct Player<'a> {
    pub desk: Desk,
    lent: Lent,
    rust: Option<Rust>,
    /// Something was handed in: the opened Rust is made from it before the next call that is accepted.
    altered: bool,
    /// Symbols that were not played yet, and how many will be played together.
    waiting: Vec<[i8; 2]>,
    group: usize,
    /// Groups are as long as the input has room for.
    pub long: bool,
    calls: Calls<'a>,
    random: Random,
    /// But for calls and refusals, which `calls` counts.
    pub totals: Totals,
}

impl<'a> Player<'a> {
    pub fn new(seed: u64, sink: &'a mut Sink<'a>) -> Self {
        Self {
            desk: Desk::new(slips::of_model()),
            lent: RIGHT,
            rust: None,
            altered: false,
            waiting: Vec::with_capacity(PLAY),
            group: PLAY,
            long: false,
            calls: Calls::new(sink),
            random: Random(!seed),
            totals: Totals::default(),
        }
    }

    pub fn end(mut self) -> Totals {
        self.played(&Answer::refused(0));
        let (calls, refused) = self.calls.end();
        Totals { calls, refused, ..self.totals }
    }

    /// The symbols that wait as one play or feed, which ends with this answer.
    fn played(&mut self, last: &Answer) {
        if self.waiting.is_empty() {
            return;
        }
        let mut symbols = std::mem::take(&mut self.waiting);
        let n = symbols.len();
        let used = n - usize::from(last.refusal != 0);
        // what is told or refused ends it: any more that are given are not taken
        let room = if n <= PLAY { PLAY } else { n + PLAY };
        let more = if last.quiet() { 0 } else { self.random.below((room - n + 1) as u64) as usize };
        symbols.resize_with(n + more + 1, || [self.random.next() as i8, self.random.next() as i8]);
        self.desk.events = last.events;
        if n <= PLAY && self.random.below(2) == 0 {
            let (n, lent) = (self.or_more(n + more, PLAY), self.lent_now());
            self.calls.owe(Call::Play { n, lent, symbols: first(&symbols) }.numbers(), played(last, used as u64));
        } else {
            self.fed(n + more, &symbols, last, used);
        }
        for k in 0..last.events.iter().filter(|&&e| e != Event::Nothing).count() {
            self.plain(Call::Event(k as u64));
        }
        if self.random.below(64) == 0 {
            self.idle();
        }
        let lost = last.events.iter().any(|e| matches!(e, Event::Lost { .. }));
        if last.refusal != 0 || lost || last.runs.iter().any(|r| r.count > 0) || self.random.below(512) == 0 {
            self.look();
        }
        self.group = match self.random.below(64) {
            _ if self.long => INPUT / 2 - PLAY,
            0 => 1_000 + self.random.below(INPUT as u64 / 2 - 2_000) as usize,
            1..16 => 1 + self.random.below(PLAY as u64) as usize,
            _ => PLAY,
        };
    }

    /// The same by `feed`: a refusal comes with no symbol taken, so a refused one is given once more, by either call.
    fn fed(&mut self, n: usize, symbols: &[[i8; 2]], last: &Answer, used: usize) {
        let (lent, stops) = (self.lent_now(), last.refusal != 0 && used > 0);
        let mut odd = |n: usize| 2 * n + usize::from(self.random.below(3) == 0);
        let (bytes, again) = (odd(n), odd(1) as u64);
        let told = if stops { played(&Answer::refused(0), used as u64) } else { played(last, used as u64) };
        let call = if n <= PLAY {
            let n = self.or_more(bytes.min(2 * PLAY), 2 * PLAY);
            Call::Feed { n, lent, symbols: first(symbols) }
        } else {
            self.put_input(symbols);
            (self.totals.long, self.totals.long_fed) = (self.totals.long + 1, self.totals.long_fed + used as u64);
            self.totals.long_stops += u64::from(stops);
            // where it is told where to stop, all of the input may be given, and any greater number means that
            let all = !last.quiet() && self.random.below(4) == 0;
            Call::FeedInput { n: if all { INPUT as u64 + self.random.positive(62) as u64 } else { bytes as u64 }, lent }
        };
        self.calls.owe(call.numbers(), told);
        self.totals.fed += used as u64;
        if stops {
            if let Some(stops) = self.totals.stops.get_mut(usize::from(last.refusal).wrapping_sub(6)) {
                *stops += 1;
            }
            let one = first(&symbols[used..]);
            let call = match self.random.below(2) {
                0 => Call::Play { n: 1, lent, symbols: one },
                _ => Call::Feed { n: again, lent, symbols: one },
            };
            self.calls.owe(call.numbers(), played(last, 0));
        }
    }

    /// More symbols than a call holds go to the input first.
    fn put_input(&mut self, symbols: &[[i8; 2]]) {
        for (k, bytes) in (0..).step_by(PUT).zip(symbols.as_flattened().chunks(PUT)) {
            let mut all = [0; PUT];
            all[..bytes.len()].copy_from_slice(bytes);
            self.plain(Call::PutInput { k, bytes: all });
        }
    }

    /// A number of symbols or bytes: where all that a call has room for are meant, any greater one means the same.
    fn or_more(&mut self, n: usize, most: usize) -> u64 {
        let more = if n == most && self.random.below(16) == 0 { self.random.positive(62) as u64 } else { 0 };
        n as u64 + more
    }

    /// A feed of no symbol, or of half a one; its refusal.
    pub fn idle(&mut self) -> u64 {
        let (n, lent) = (self.random.below(2) as u64, self.lent_now());
        let symbols = [[self.random.next() as i8; 2]; PLAY];
        self.ask(Call::Feed { n, lent, symbols })[0]
    }

    /// A soft buffer that is long enough may have any such length.
    fn lent_now(&mut self) -> Lent {
        let [table, acc, store, soft] = self.lent;
        let any = 44_880 + self.random.below(SOFT as u64 - 44_880 + 1) as u64;
        let soft = if soft >= 44_880 { pick(&mut self.random, &[soft, 44_880, SOFT as u64, any, any]) } else { soft };
        [table, acc, store, soft]
    }

    /// One call in four goes in other numbers than its plain ones.
    fn plain(&mut self, call: Call) -> Numbers {
        let told = self.desk.answer(Some(&call));
        let plain = self.random.below(4) != 0;
        let numbers = if plain { call.numbers() } else { call.in_disguise(&mut self.random) };
        self.calls.owe(numbers, told);
        told
    }

    /// The stores, and all parts.
    pub fn look(&mut self) {
        self.played(&Answer::refused(0));
        self.plain(Call::Look);
        self.plain(Call::Eq(EqCall::Tell));
        for part in PARTS {
            self.plain(Call::Tell(part));
        }
        self.look_beside();
    }

    /// The Rust's own states.
    fn look_beside(&mut self) {
        if let Some(rust) = &self.rust {
            rust.agree(&self.desk);
            self.totals.looks += 1;
        }
    }

    /// Before a call that may be accepted: the opened Rust is given what was handed in. One that may overflow at the next symbol is let go.
    fn follow_in(&mut self) {
        if self.rust.is_some() && !sync_fits(&self.desk.receiver.sync.state) {
            self.alter();
        }
        if self.altered && fits(&self.desk) {
            let Desk { receiver, words, table, acc, store, .. } = &self.desk;
            choose_table(&table[..1_024]);
            let stages = handed_in::receiver(receiver, words, &acc[..9_296], store);
            (self.rust, self.altered) = (Some(Rust::new(Box::new(stages), true)), false);
        }
    }

    /// The Rust cannot go on as it is.
    fn alter(&mut self) {
        (self.rust, self.altered) = (None, true);
    }

    /// So many entries are lent from now on.
    pub fn lend(&mut self, lent: Lent) {
        self.played(&Answer::refused(0));
        self.lent = lent;
    }

    /// One symbol. It is played with those that wait.
    pub fn push(&mut self, x: [i8; 2]) -> Answer {
        self.follow_in();
        let answer = self.desk.symbol(x, self.lent);
        self.waiting.push(x);
        assert!(answer.refusal != 6 || !self.desk.receiver.in_range(), "6, and all numbers are in range");
        if answer.refusal == 0 {
            self.totals.all.count(&answer);
            self.go_beside(x, &answer);
        }
        if !answer.quiet() || self.waiting.len() >= self.group {
            self.played(&answer);
        }
        answer
    }

    fn go_beside(&mut self, x: [i8; 2], answer: &Answer) {
        let Some(rust) = &mut self.rust else { return };
        let told = rust.push(x);
        self.totals.by_chain += u64::from(told.chained);
        (if rust.opened { &mut self.totals.by_opened } else { &mut self.totals.by_rust }).count(answer);
        assert_eq!((told.events, told.runs), (answer.events, answer.runs), "THE MODEL IS WRONG");
        assert_eq!(told.corrected, answer.corrected, "corrected symbols");
        assert_eq!(told.soft, self.desk.soft[..answer.soft], "soft bits");
        let nco = &self.desk.receiver.nco;
        assert_eq!(told.carrier, (nco.phase, nco.freq), "the carrier");
    }

    /// Any call but a play. The Rust follows where it can.
    pub fn ask(&mut self, call: Call) -> Numbers {
        self.played(&Answer::refused(0));
        if matches!(call, Call::Restart { .. } | Call::Points { .. } | Call::Taps { .. } | Call::Open(_) | Call::End) {
            self.follow_in();
        }
        let told = self.plain(call);
        self.follow(&call, &told);
        if told[0] != 0 || matches!(call, Call::Restart { .. }) {
            self.look();
        }
        told
    }

    /// A call that there is not.
    pub fn unknown(&mut self, call: Numbers) {
        self.played(&Answer::refused(0));
        let of = Call::of_numbers(&call);
        assert!(of.is_none(), "{of:?}");
        let told = self.desk.answer(None);
        self.calls.owe(call, told);
        self.look();
    }

    /// The receiver's parts that differ from these are replaced.
    pub fn hand_in(&mut self, to: &Receiver) {
        self.played(&Answer::refused(0));
        for part in PARTS {
            let put = part.put(to);
            if put != part.put(&self.desk.receiver) {
                self.ask(Call::Put(part, put));
            }
        }
        for put in EqCall::puts(&self.desk.receiver.eq, &to.eq) {
            self.ask(Call::Eq(put));
        }
        assert!(PARTS.iter().all(|part| part.put(&self.desk.receiver) == part.put(to)), "parts handed in");
        assert_eq!(self.desk.receiver.eq, to.eq);
    }

    fn begin(&mut self, at: u64, step: i32) {
        self.alter();
        if self.desk.words.iter().all(ones) {
            let [f, s] = &self.desk.words;
            choose_words(pairs(f), pairs(s));
            choose_table(&self.desk.table[..1_024]);
            (self.rust, self.altered) = (Some(Rust::new(Box::new(Stages::new(at, step)), false)), false);
        }
    }

    fn follow(&mut self, call: &Call, told: &Numbers) {
        match *call {
            Call::New { at, step, .. } if told[0] == 0 => self.begin(at, step),
            Call::New { .. } | Call::Words(_) | Call::SetTable { .. } | Call::SetAcc { .. } | Call::Put(..) => {
                self.alter()
            }
            Call::Eq(call) if call != EqCall::Tell => self.alter(),
            _ => {}
        }
        let Some(rust) = self.rust.as_mut().filter(|_| told[0] == 0) else { return };
        let sums = rust.follow(call);
        if let Call::End = call {
            assert_eq!(sums.is_some(), told[1] == 1, "sums");
            if let Some(sums) = sums {
                self.totals.sums += 1;
                self.totals.trainings += if rust.opened { 0 } else { sums.count.into() };
                assert_eq!(sums, self.desk.sums, "sums");
            }
        }
    }

    /// Words and table, then a new receiver.
    pub fn start(&mut self, words: &[Ones; 2], table: &[i16], at: u64, step: i32) {
        if self.desk.words != *words {
            self.ask(Call::Words(*words));
        }
        for (k, &v) in (0..).zip(table) {
            if self.desk.table[k as usize] != v {
                self.ask(Call::SetTable { k, v });
            }
        }
        let told = self.ask(Call::New { at, step, acc: 9_296 });
        assert_eq!(told[0], 0, "a receiver that starts");
    }

    /// A call that document 01 refuses with this number, or takes: what is expected does not rest on the model.
    #[track_caller]
    pub fn refused(&mut self, call: Call, refusal: u8) {
        let told = self.ask(call);
        assert_eq!(told[0], refusal.into(), "{call:?}");
    }

    /// The same of a symbol.
    #[track_caller]
    pub fn refuses(&mut self, x: [i8; 2], refusal: u8) {
        let answer = self.push(x);
        assert_eq!(answer.refusal, refusal, "a symbol at {}", self.desk.receiver.next());
    }
}
