//! A receiver made of the stages' models, wired as document 01, "The receiver", says, with its refusals and docs/RANGES.md's figures for a
//! receiver: for what the Rust cannot be given, that is states handed in, lent memory of any contents, refusals.

use super::ranges::{Ends, END, ENDS};
use crate::demap::soft::pairs;
use crate::eq::calls::{Equaliser, Pairs, Sums};
use crate::eq::model::no_sums;
use crate::frame::calls::Ones;
use crate::frame::model as frame;
use crate::phase::calls::{Head, Held, Nco, Phase, Whole, Word};
use crate::phase::model as phase;
use crate::sync::calls::{Event, Kind};
use crate::sync::model as sync;
use isdbs3_phy::chain::demap::demap;
use isdbs3_phy::chain::frame::{part, Part};

const SLOT: u64 = 9_296;

/// What a refused symbol changes all the same.
#[derive(Clone, Copy, PartialEq, Eq)]
pub enum Spoils {
    Nothing,
    Window,
    Accumulators,
    Store,
    Soft,
}

/// A feed: the symbol call, repeated.
#[derive(Clone, Copy)]
pub struct Feeding {
    /// An odd last byte is no symbol.
    pub odd_byte_left: bool,
    /// A refusal comes with no symbol taken.
    pub refused_alone: bool,
    /// The state's numbers are tested for each symbol.
    pub tests_each: bool,
}

/// Document 01's choices. A slip is another one.
#[derive(Clone)]
pub struct Rules {
    pub sync: sync::Rules,
    pub phase: phase::Rules,
    pub frame: frame::Rules,
    /// How far back the symbol is that goes to the slot phase.
    pub behind: usize,
    /// A head goes to the slot phase before that symbol.
    pub head_first: bool,
    /// Heads go to the carrier.
    pub hears: bool,
    /// Events stand in the order in which they come.
    pub in_order: bool,
    /// Soft bits: the most significant first, of main symbols only, behind each other.
    pub top_bit_first: bool,
    pub main_only: bool,
    /// What a loss restarts.
    pub loss_drops_slot: bool,
    pub loss_drops_line: bool,
    pub loss_drops_trail: bool,
    /// A restart call drops the carrier's differences too.
    pub restart_drops_trail: bool,
    /// A loss keeps points and taps.
    pub loss_keeps_points: bool,
    /// A slot is given to the alignment before a loss in the same call.
    pub slot_before_loss: bool,
    /// Refusals: 6 before 7; 8 for any of a symbol's trainings, before anything is changed.
    pub range_first: bool,
    pub whole_or_nothing: bool,
    pub spoils: Spoils,
    /// 7 for a slot whose last symbol would stand past the end.
    pub slot_ends: bool,
    /// Sums may leave their range within a slot.
    pub sums_unseen: bool,
    /// The soft buffer's least length.
    pub soft: usize,
    pub ends: Ends,
    /// The state's numbers are tested.
    pub tested: bool,
    pub feed: Feeding,
}

pub const RULES: Rules = Rules {
    sync: sync::RULES,
    phase: phase::RULES,
    frame: frame::RULES,
    behind: 23,
    head_first: true,
    hears: true,
    in_order: true,
    top_bit_first: true,
    main_only: true,
    loss_drops_slot: true,
    loss_drops_line: true,
    loss_drops_trail: true,
    restart_drops_trail: true,
    loss_keeps_points: true,
    slot_before_loss: true,
    range_first: true,
    whole_or_nothing: true,
    spoils: Spoils::Nothing,
    slot_ends: true,
    sums_unseen: true,
    soft: 44_880,
    ends: ENDS,
    tested: true,
    feed: Feeding { odd_byte_left: true, refused_alone: true, tests_each: true },
};

/// A loaded constellation; 0 bits before a load.
#[derive(Clone, Copy, PartialEq, Eq, Debug)]
pub struct Points {
    pub bits: u8,
    pub points: [i16; 64],
    pub k: u32,
}

pub const NO_POINTS: Points = Points { bits: 0, points: [0; 64], k: 0 };

/// Aligned symbols one after another.
#[derive(Clone, Copy, PartialEq, Eq, Debug, Default)]
pub struct Run {
    pub at: u64,
    pub j: u16,
    pub count: usize,
    pub bits: u8,
}

#[derive(Clone, PartialEq, Eq, Debug)]
pub struct Answer {
    pub refusal: u8,
    pub events: [Event; 3],
    pub runs: [Run; 2],
    /// How many soft values were written.
    pub soft: usize,
    /// Not told: the slot that was corrected.
    pub corrected: usize,
}

impl Answer {
    pub fn refused(refusal: u8) -> Self {
        Self { refusal, events: [Event::Nothing; 3], runs: [Run::default(); 2], soft: 0, corrected: 0 }
    }

    /// Nothing told.
    pub fn quiet(&self) -> bool {
        self.refusal == 0 && self.events[0] == Event::Nothing && self.runs.iter().all(|r| r.count == 0)
    }
}

/// What is lent to a symbol.
pub struct Lent<'a> {
    pub words: &'a [Ones; 2],
    pub table: &'a [i16],
    pub acc: &'a mut [u32],
    pub store: &'a mut [i16],
    pub soft: &'a mut [i8],
}

#[derive(Clone)]
pub struct Receiver {
    pub rules: Rules,
    pub nco: Nco,
    pub sync: sync::Sync,
    pub phase: Phase,
    pub eq: Equaliser,
    pub line: frame::Line,
    pub points: Points,
}

fn head_of(event: &Event) -> Option<Head> {
    let Event::Head { at, word, corr, theta, amp, slot, nco_phase } = *event else { return None };
    let word = match word {
        Kind::Ssync => Word::Ssync,
        Kind::Fsync => Word::Fsync,
        Kind::NotFsync => Word::NotFsync,
    };
    Some(Head { at, word, theta, amp, slot, corr, nco_phase })
}

/// What a slot comes to.
struct Given {
    eq: Equaliser,
    line: frame::Line,
    aligned: Vec<frame::Aligned>,
    runs: [Run; 2],
    corrected: usize,
}

impl Receiver {
    pub fn new(rules: Rules) -> Self {
        let sync = sync::Sync::new(rules.sync.clone());
        let (eq, line) = (rules.frame.eq.start(), rules.frame.start());
        Self { nco: phase::Rules::nco_new(0), sync, phase: None, eq, line, points: NO_POINTS, rules }
    }

    /// "A new receiver is given position and step."
    pub fn start(&mut self, at: u64, step: i32, acc: &mut [u32]) -> u8 {
        let refusal = self.sync.start(at, acc);
        self.nco = phase::Rules::nco_new(step);
        self.phase = None;
        (self.eq, self.line) = (self.rules.frame.eq.start(), self.rules.frame.start());
        self.points = NO_POINTS;
        refusal
    }

    pub fn next(&self) -> u128 {
        self.sync.state.next()
    }

    /// A load or a training call: only a number out of range refuses it.
    fn taken(&mut self, change: impl FnOnce(&mut Self)) -> u8 {
        if !self.in_range() {
            return 6;
        }
        change(self);
        0
    }

    pub fn load_points(&mut self, bits: u8, points: &[i16], k: i64) -> u8 {
        if !(1..=5).contains(&bits) || points.len() != 2 << bits {
            return 4;
        }
        if !(0..=1 << 24).contains(&k) {
            return 5;
        }
        let mut all = [0; 64];
        all[..points.len()].copy_from_slice(points);
        self.taken(|r| r.points = Points { bits, points: all, k: k as u32 })
    }

    pub fn load_taps(&mut self, taps: Pairs, frame: u32) -> u8 {
        self.taken(|r| (r.eq.taps, r.eq.from) = (taps, Some(frame)))
    }

    pub fn open(&mut self, frame: u32) -> u8 {
        self.taken(|r| (r.eq.opened, r.eq.sums) = (true, no_sums(frame)))
    }

    pub fn end(&mut self) -> (u8, Option<Sums>) {
        let mut ended = None;
        let refusal = self.taken(|r| {
            if r.eq.opened {
                ended = Some(r.eq.sums);
                (r.eq.opened, r.eq.sums) = (false, no_sums(0));
            }
        });
        (refusal, ended)
    }

    pub fn restart(&mut self, at: u64, acc: &mut [u32]) -> u8 {
        if acc.len() != SLOT as usize {
            return 1;
        }
        if !self.in_range() {
            return 6;
        }
        let refusal = self.sync.restart_refusal(at, acc.len());
        if refusal == 0 {
            let trail = self.nco.trail.filter(|_| !self.rules.restart_drops_trail);
            self.sync.restart(at, acc);
            self.restart_others();
            self.nco.trail = self.nco.trail.or(trail);
        }
        refusal
    }

    /// "A loss, or a restart call, restarts sync, carrier, phase, equaliser and alignment."
    fn restart_others(&mut self) {
        if self.rules.loss_drops_trail {
            self.nco.trail = None;
        }
        if self.rules.loss_drops_slot {
            self.phase = None;
        }
        if self.rules.loss_drops_line {
            let taps = self.eq;
            self.eq = Equaliser { taps: taps.taps, from: taps.from, ..self.rules.frame.eq.start() };
            self.line = self.rules.frame.start();
        }
        if !self.rules.loss_keeps_points {
            self.points = NO_POINTS;
        }
    }

    /// A `feed` of no symbols: 1, 2, 3 and 6.
    pub fn standing(&self, l: &Lent) -> u8 {
        match self.early(l) {
            7 => 0,
            n => n,
        }
    }

    /// 1, 2, 3, 6, and 7 by the symbol's own position.
    fn early(&self, l: &Lent) -> u8 {
        let fit = l.acc.len() == 9_296 && l.store.len() == 18_592 && l.soft.len() >= self.rules.soft;
        let past = self.next() >= u128::from(END);
        if !fit {
            1
        } else if l.words.as_flattened().iter().any(|v| v.abs() != 1) {
            2
        } else if l.table.len() != 1_024 {
            3
        } else if past && !self.rules.range_first {
            7
        } else if self.rules.tested && !self.in_range() {
            6
        } else if past {
            7
        } else {
            0
        }
    }

    /// Nothing has changed, but for a slip.
    fn refused(&mut self, refusal: u8, l: &mut Lent) -> Answer {
        match self.rules.spoils {
            Spoils::Nothing => {}
            Spoils::Window => self.sync.state.window.rotate_left(2),
            Spoils::Accumulators => l.acc.iter_mut().take(1).for_each(|a| *a ^= 1),
            Spoils::Store => l.store.iter_mut().take(1).for_each(|v| *v ^= 1),
            Spoils::Soft => l.soft.iter_mut().take(1).for_each(|v| *v ^= 1),
        }
        Answer::refused(refusal)
    }

    pub fn symbol(&mut self, x: [i8; 2], l: &mut Lent) -> Answer {
        let refusal = self.early(l);
        if refusal != 0 {
            return self.refused(refusal, l);
        }
        let (_, nco, r) = self.rules.phase.rotate(&self.nco, x, l.table);
        let r = r.map(|v| v as i16);
        let place = self.sync.state.t.checked_sub(23).map(|t| t % SLOT);
        let locked = matches!(self.sync.state.lock, sync::Lock::Locked { offset, .. } if place == Some(offset.into()));
        // what a refusal puts back: events, and so slots, come at these places only
        let before = (locked || place == Some(SLOT - 1)).then(|| (l.acc.to_vec(), self.sync.state));
        let t = self.sync.state.t;
        let said = self.sync.push(r, &l.words[0], &l.words[1], l.acc);
        let window = if t >= 23 { self.window(&before, r) } else { [0; 2] };
        if said.events[0] == Event::Nothing {
            self.nco = nco;
            if t >= 23 {
                self.store(window, l.store);
            }
            return Answer::refused(0);
        }
        self.loud(nco, &said.events, window, before, t, l)
    }

    /// The symbol that goes to the slot phase.
    fn window(&self, before: &Option<(Vec<u32>, sync::State)>, newest: [i16; 2]) -> [i16; 2] {
        let k = 2 * (23 - self.rules.behind);
        match before {
            None => [self.sync.state.window[k], self.sync.state.window[k + 1]],
            Some(_) if k == 46 => newest,
            // the sync may have restarted
            Some((_, s)) => [s.window[k + 2], s.window[k + 3]],
        }
    }

    /// "Then the symbol 23 back to `SlotPhase`": those past the 9,296th are ignored.
    fn store(&mut self, r: [i16; 2], store: &mut [i16]) {
        let Some(x) = &mut self.phase else { return };
        if u64::from(x.count) < SLOT {
            store[2 * x.count as usize..][..2].copy_from_slice(&r);
            x.count += 1;
        }
    }

    /// "Each head to `Nco`, then `SlotPhase`": both afterwards, and the slot that is due.
    fn heard(&self, mut nco: Nco, events: &[Event; 3]) -> (Nco, Phase, Option<Whole>) {
        let (mut phase, mut due) = (self.phase, None);
        for head in events.iter().filter_map(head_of) {
            if self.rules.hears {
                nco = self.rules.phase.hear(&nco, &head).1;
            }
            let whole = phase.filter(|x| u64::from(x.count) == SLOT);
            due = due.or(whole.map(|_| self.rules.phase.head(&phase, &head).2.expect("a slot")));
            phase = Some(Held { head, count: 0 });
        }
        (nco, phase, due)
    }

    /// A symbol with events.
    fn loud(
        &mut self,
        nco: Nco,
        events: &[Event; 3],
        window: [i16; 2],
        before: Option<(Vec<u32>, sync::State)>,
        t: u64,
        l: &mut Lent,
    ) -> Answer {
        let lost = events.iter().any(|e| matches!(e, Event::Lost { .. }));
        let (nco, phase, due) = self.heard(nco, events);
        let given = match due {
            Some(slot) if self.rules.slot_before_loss || !lost => self.given(&slot, l),
            _ => Ok(None),
        };
        let given = match given {
            Ok(given) => given,
            Err(refusal) => {
                if self.rules.whole_or_nothing {
                    let (acc, state) = before.expect("events come at a loud place");
                    l.acc.copy_from_slice(&acc);
                    self.sync.state = state;
                }
                return self.refused(refusal, l);
            }
        };
        if !self.rules.head_first && !lost && t >= 23 {
            self.store(window, l.store);
        }
        (self.nco, self.phase) = (nco, phase);
        let answer = self.told(events, given, l.soft);
        if lost {
            self.restart_others();
        } else if t >= 23 && self.rules.head_first {
            self.store(window, l.store);
        }
        answer
    }

    /// What it tells, with the slot that it gives.
    fn told(&mut self, events: &[Event; 3], given: Option<Given>, soft: &mut [i8]) -> Answer {
        let mut answer = Answer { events: *events, ..Answer::refused(0) };
        if !self.rules.in_order && events[1] != Event::Nothing {
            answer.events.swap(0, 1);
        }
        if let Some(given) = given {
            (answer.runs, answer.corrected) = (given.runs, given.corrected);
            (self.eq, self.line) = (given.eq, given.line);
            answer.soft = self.soft(&given.aligned, soft);
        }
        answer
    }

    /// The slot's symbols corrected and aligned; 7 where one would stand past the end, 8 where a training finds the sums full.
    fn given(&self, slot: &Whole, l: &Lent) -> Result<Option<Given>, u8> {
        if self.rules.slot_ends && slot.head.at + SLOT > END {
            return Err(7);
        }
        let (mut eq, mut line) = (self.eq, self.line.clone());
        let waiting = if self.rules.frame.gap(&line, slot.head.at) { 0 } else { line.count as usize };
        let mut aligned = Vec::with_capacity(SLOT as usize + 5);
        for j in 0..SLOT {
            let c = self.rules.phase.correct(slot, j, l.table, l.store)?;
            if self.rules.frame.full(&eq, &line, &c) {
                return Err(8);
            }
            if !self.rules.sums_unseen && !self.rules.frame.in_range(&eq, &line) {
                return Err(6);
            }
            aligned.extend(self.rules.frame.taken(&mut eq, &mut line, &c, l.words));
        }
        let (tail, body) = aligned.split_at(waiting.min(aligned.len()));
        let run = |part: &[frame::Aligned]| {
            let first = part.first()?;
            Some(Run { at: first.place.at, j: first.place.j, count: part.len(), bits: self.points.bits })
        };
        let runs = [tail, body].map(|part| run(part).unwrap_or_default());
        Ok(Some(Given { eq, line, aligned, runs, corrected: SLOT as usize }))
    }

    /// Soft bits of the main symbols, from the buffer's start; how many.
    fn soft(&self, aligned: &[frame::Aligned], soft: &mut [i8]) -> usize {
        let bits = usize::from(self.points.bits);
        if bits == 0 {
            return 0;
        }
        let points = pairs(&self.points.points[..2 << bits]);
        let mut at = 0;
        for a in aligned {
            let main = matches!(part(usize::from(a.place.j)), Part::Main(_));
            if main || !self.rules.main_only {
                let Some(room) = soft.get_mut(at..at + bits) else { break };
                demap(a.z, &points, bits, self.points.k.into(), room);
                if !self.rules.top_bit_first {
                    room.reverse();
                }
                at += bits;
            }
        }
        at
    }
}
