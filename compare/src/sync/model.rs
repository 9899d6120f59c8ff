//! A slot sync written from document 01 and docs/RANGES.md, for what the Rust cannot be given: handed-in states,
//! accumulators of any contents, words that change on the way, refusals. Everywhere else it runs beside the Rust.

use super::calls::{Answer, Event, Kind, Word};
use isdbs3_phy::chain::fx::{cordic, mag_approx};

pub const SLOT: u64 = 9_296;
const END: u64 = 1 << 62;
const PART: i32 = 1_572_864;

/// Document 01's figures and choices. A slip is another one.
#[derive(Clone)]
pub struct Rules {
    pub lock_periods: u32,
    pub loss_periods: u32,
    pub ratio: u64,
    /// A period counts at exactly the ratio.
    pub equal_counts: bool,
    pub first_greatest: bool,
    /// Head zero stays silent if it is no Ssync.
    pub head_zero_waits: bool,
    /// A product of 0 is Fsync.
    pub zero_is_fsync: bool,
    /// Of equal margins head zero is Ssync.
    pub tie_is_zero: bool,
    /// A gap in frames: what is added before the division, its least and its greatest value, and whether the frame number wraps.
    pub half: u64,
    pub least_gap: u64,
    pub most_gap: u64,
    pub frame_wraps: bool,
    pub majority: i32,
    pub marks_from: i32,
    /// A mark is told by the majority before this head.
    pub majority_before: bool,
    pub missed_limit: u32,
    /// A mark at number 0 clears the misses, any other does not; a missed one begins a frame too.
    pub mark_clears: bool,
    pub stray_clears: bool,
    pub missed_begins: bool,
    /// The number goes on with every head.
    pub counts_ssync: bool,
    /// A period without a peak never counts.
    pub needs_peak: bool,
    /// A period that counts elsewhere is the first of four; one that does not sets the count to 0.
    pub moved_counts: u32,
    pub weak_clears: bool,
    /// One that counts at the lock clears the missed periods.
    pub good_clears: bool,
    /// The accumulator floors.
    pub floors: bool,
    /// A position's size is the larger of both words'.
    pub larger: bool,
    pub restart_zeroes: bool,
    pub restart_keeps_record: bool,
    pub loss_zeroes: bool,
    /// A loss by markers at 9,295 is followed by a period.
    pub period_after_loss: bool,
    pub loss_keeps_record: bool,
    pub counter_top: u32,
}

pub const RULES: Rules = Rules {
    lock_periods: 4,
    loss_periods: 8,
    ratio: 3,
    equal_counts: true,
    first_greatest: true,
    head_zero_waits: true,
    zero_is_fsync: true,
    tie_is_zero: true,
    half: 60 * SLOT,
    least_gap: 1,
    most_gap: u32::MAX as u64,
    frame_wraps: true,
    majority: 8,
    marks_from: 2,
    majority_before: true,
    missed_limit: 2,
    mark_clears: true,
    stray_clears: false,
    missed_begins: true,
    counts_ssync: true,
    needs_peak: true,
    moved_counts: 1,
    weak_clears: true,
    good_clears: true,
    floors: true,
    larger: true,
    restart_zeroes: true,
    restart_keeps_record: true,
    loss_zeroes: true,
    period_after_loss: true,
    loss_keeps_record: true,
    counter_top: u32::MAX,
};

#[derive(Clone, Copy, PartialEq, Eq, Debug)]
pub enum Lock {
    Search { cand: u16, count: u32 },
    Locked { offset: u16, misses: u32 },
}

#[derive(Clone, Copy, PartialEq, Eq, Debug)]
pub struct Reading {
    pub at: u64,
    pub f: [i32; 2],
    pub s: [i32; 2],
}

#[derive(Clone, Copy, PartialEq, Eq, Debug)]
pub enum Stage {
    Before,
    First(Reading),
    /// Whether the odd heads carry Ssync, whether the next one does, and the last such correlation.
    Known {
        odd: bool,
        due: bool,
        last: [i32; 2],
    },
}

#[derive(Clone, Copy, PartialEq, Eq, Debug)]
pub struct State {
    pub window: [i16; 48],
    pub base: u64,
    pub t: u64,
    pub peak: u32,
    pub place: u16,
    pub sum: u64,
    pub lock: Lock,
    pub stage: Stage,
    pub majority: i32,
    pub slot: Option<(u8, u32)>,
    pub record: Option<(u64, u32)>,
    pub misses: u32,
    pub stray: u32,
    pub missed: u32,
}

fn small(c: [i32; 2]) -> bool {
    c.iter().all(|v| (-PART..=PART).contains(v))
}

impl State {
    pub fn started(at: u64, record: Option<(u64, u32)>) -> Self {
        Self {
            window: [0; 48],
            base: at,
            t: 0,
            peak: 0,
            place: 0,
            sum: 0,
            lock: Lock::Search { cand: 0, count: 0 },
            stage: Stage::Before,
            majority: 0,
            slot: None,
            record,
            misses: 0,
            stray: 0,
            missed: 0,
        }
    }

    /// docs/RANGES.md, "Slot sync".
    pub fn in_range(&self) -> bool {
        let lock = match self.lock {
            Lock::Search { cand, count } => cand < 9_296 && count < 4,
            Lock::Locked { offset, misses } => offset < 9_296 && misses < 8,
        };
        let stage = match self.stage {
            Stage::Before => true,
            Stage::First(r) => (37_184..=END - 24).contains(&r.at) && small(r.f) && small(r.s),
            Stage::Known { last, .. } => small(last),
        };
        let period = self.peak <= 3_758_292_991 && self.place < 9_296 && self.sum <= 34_937_091_644_336;
        let course = (-8..=8).contains(&self.majority)
            && self.slot.is_none_or(|(number, _)| number < 120)
            && self.record.is_none_or(|(at, _)| (83_664..=END - 24).contains(&at))
            && self.misses < 2;
        self.t <= END && lock && stage && period && course
    }

    /// The position of the next symbol; it may pass 64 bits.
    pub fn next(&self) -> u128 {
        u128::from(self.base) + u128::from(self.t)
    }
}

fn correlate(window: &[i16; 48], w: &Word) -> [i32; 2] {
    let (mut re, mut im) = (0, 0);
    for k in 0..24 {
        let (i, q) = (i32::from(window[2 * k]), i32::from(window[2 * k + 1]));
        let (a, b) = (i32::from(w[2 * k]), i32::from(w[2 * k + 1]));
        re += i * a + q * b;
        im += q * a - i * b;
    }
    [re, im]
}

fn size(c: [i32; 2]) -> i64 {
    mag_approx(c[0].into(), c[1].into())
}

pub fn ones(w: &Word) -> bool {
    w.iter().all(|v| v.abs() == 1)
}

/// The calls, by document 01. Lent memory is `acc`.
#[derive(Clone)]
pub struct Sync {
    pub rules: Rules,
    pub state: State,
}

impl Sync {
    pub fn new(rules: Rules) -> Self {
        Self { rules, state: State::started(0, None) }
    }

    pub fn start(&mut self, at: u64, acc: &mut [u32]) -> u8 {
        self.state = State::started(at, None);
        if acc.len() != 9_296 {
            return 1;
        }
        if self.rules.restart_zeroes {
            acc.fill(0);
        }
        0
    }

    pub fn restart_refusal(&self, at: u64, lent: usize) -> u8 {
        if lent != 9_296 {
            1
        } else if !self.state.in_range() {
            6
        } else if u128::from(at) < self.state.next() {
            7
        } else {
            0
        }
    }

    /// A restart; without refusal.
    pub fn restart(&mut self, at: u64, acc: &mut [u32]) {
        let record = self.state.record.filter(|_| self.rules.restart_keeps_record);
        self.state = State::started(at, record);
        if self.rules.restart_zeroes {
            acc.fill(0);
        }
    }

    pub fn push_refusal(&self, f: &Word, s: &Word, lent: usize) -> u8 {
        if lent != 9_296 {
            1
        } else if !ones(f) || !ones(s) {
            2
        } else if !self.state.in_range() {
            6
        } else if self.state.next() >= u128::from(END) {
            7
        } else {
            0
        }
    }

    /// A symbol; without refusal.
    pub fn push(&mut self, [i, q]: [i16; 2], f: &Word, s: &Word, acc: &mut [u32]) -> Answer {
        let state = &mut self.state;
        state.window.copy_within(2.., 0);
        state.window[46] = i;
        state.window[47] = q;
        state.t += 1;
        let mut answer = Answer::refused(0);
        if state.t < 24 {
            return answer;
        }
        let place = (state.t - 24) % SLOT;
        let at = state.base + (state.t - 24);
        let (cf, cs) = (correlate(&state.window, f), correlate(&state.window, s));
        let level = self.leaked(acc[place as usize], if self.rules.larger { size(cf).max(size(cs)) } else { size(cf) });
        acc[place as usize] = level;
        self.count(place as u16, level);
        let mut events = Vec::new();
        let locked_here = matches!(self.state.lock, Lock::Locked { offset, .. } if u64::from(offset) == place);
        let lost = locked_here && self.read(Reading { at, f: cf, s: cs }, &mut events);
        if lost {
            self.lose(&mut events, acc);
        }
        let ends = place == SLOT - 1 && (!lost || self.rules.period_after_loss);
        let lost = ends && self.end(&mut events, acc) || lost;
        if !lost {
            (answer.f, answer.s, answer.level) = (cf, cs, level);
        }
        for (place, event) in answer.events.iter_mut().zip(events) {
            *place = event;
        }
        answer
    }

    /// "Accumulator: floor((7a + size)/8)."
    fn leaked(&self, a: u32, size: i64) -> u32 {
        ((7 * u64::from(a) + size as u64 + if self.rules.floors { 0 } else { 4 }) / 8) as u32
    }

    /// The period's figures with one more accumulator.
    fn count(&mut self, place: u16, a: u32) {
        let state = &mut self.state;
        if place == 0 {
            (state.peak, state.place, state.sum) = (0, 0, 0);
        }
        if a > state.peak || (!self.rules.first_greatest && a == state.peak) {
            (state.peak, state.place) = (a, place);
        }
        state.sum += u64::from(a);
    }

    /// "A loss restarts at the next symbol's position and keeps the last frame record."
    fn lose(&mut self, events: &mut Vec<Event>, acc: &mut [u32]) {
        let at = self.state.base + self.state.t;
        let record = if self.rules.loss_keeps_record { self.state.record } else { None };
        self.state = State::started(at, record);
        if self.rules.loss_zeroes {
            acc.fill(0);
        }
        events.push(Event::Lost { at });
    }

    /// The rule at a period's end; whether it loses.
    fn end(&mut self, events: &mut Vec<Event>, acc: &mut [u32]) -> bool {
        let (state, rules) = (&mut self.state, &self.rules);
        let (peak, least) = (u64::from(state.peak) * SLOT, rules.ratio * state.sum);
        let counts = (state.peak > 0 || !rules.needs_peak) && (peak > least || (rules.equal_counts && peak == least));
        match &mut state.lock {
            Lock::Search { cand, count } => {
                let same = *cand == state.place;
                let n = match (counts, same) {
                    (true, true) => *count + 1,
                    (true, false) => rules.moved_counts,
                    (false, _) => {
                        if rules.weak_clears {
                            0
                        } else {
                            *count
                        }
                    }
                };
                state.lock = if n >= rules.lock_periods {
                    Lock::Locked { offset: state.place, misses: 0 }
                } else {
                    Lock::Search { cand: state.place, count: n }
                };
            }
            Lock::Locked { offset, misses } => {
                *misses = match counts && *offset == state.place {
                    true => {
                        if rules.good_clears {
                            0
                        } else {
                            *misses
                        }
                    }
                    false => *misses + 1,
                };
                if *misses >= rules.loss_periods {
                    self.lose(events, acc);
                    return true;
                }
            }
        }
        let (locked, offset) = match state.lock {
            Lock::Search { .. } => (false, 0),
            Lock::Locked { offset, .. } => (true, offset),
        };
        let parity = u8::from(matches!(state.stage, Stage::Known { odd: true, .. }));
        events.push(Event::Period {
            peak: state.peak,
            place: state.place,
            sum: state.sum,
            locked,
            offset,
            parity,
            stray: state.stray,
            missed: state.missed,
        });
        false
    }

    /// A window at the locked position; whether its marker loses.
    fn read(&mut self, r: Reading, events: &mut Vec<Event>) -> bool {
        let margin = |r: &Reading| size(r.s) - size(r.f);
        match self.state.stage {
            Stage::Before => {
                self.state.stage = Stage::First(r);
                false
            }
            Stage::First(zero) => {
                let tie = margin(&zero) == margin(&r) && !self.rules.tie_is_zero;
                let odd = margin(&zero) < margin(&r) || tie;
                if odd {
                    if !self.rules.head_zero_waits {
                        events.push(self.head(zero.at, Kind::Fsync, zero.f));
                    }
                    self.ssync(r, true, events);
                    false
                } else {
                    self.ssync(zero, false, events);
                    self.fsync(r, zero.s, false, events)
                }
            }
            Stage::Known { odd, due: true, .. } => {
                self.ssync(r, odd, events);
                false
            }
            Stage::Known { odd, due: false, last } => self.fsync(r, last, odd, events),
        }
    }

    fn head(&self, at: u64, word: Kind, corr: [i32; 2]) -> Event {
        let (theta, amp) = cordic(corr[0].into(), corr[1].into());
        Event::Head { at, word, corr, theta, amp, slot: self.state.slot, nco_phase: 0 }
    }

    fn next_number(&mut self) {
        if let Some((number, _)) = &mut self.state.slot {
            *number = (*number + 1) % 120;
        }
    }

    fn ssync(&mut self, r: Reading, odd: bool, events: &mut Vec<Event>) {
        self.state.stage = Stage::Known { odd, due: false, last: r.s };
        if self.rules.counts_ssync {
            self.next_number();
        }
        events.push(self.head(r.at, Kind::Ssync, r.s));
    }

    fn fsync(&mut self, r: Reading, last: [i32; 2], odd: bool, events: &mut Vec<Event>) -> bool {
        self.state.stage = Stage::Known { odd, due: true, last };
        let side = i64::from(r.f[0]) * i64::from(last[0]) + i64::from(r.f[1]) * i64::from(last[1]);
        let positive = side > 0 || (side == 0 && self.rules.zero_is_fsync);
        self.next_number();
        let (before, limit) = (self.state.majority, self.rules.majority);
        let after = (before + if positive { 1 } else { -1 }).clamp(-limit, limit);
        let majority = if self.rules.majority_before { before } else { after };
        let marked = majority.abs() >= self.rules.marks_from && (majority > 0) != positive;
        self.state.majority = after;
        if self.marked(marked, r.at) {
            return true;
        }
        let (word, corr) = if positive { (Kind::Fsync, r.f) } else { (Kind::NotFsync, [-r.f[0], -r.f[1]]) };
        events.push(self.head(r.at, word, corr));
        false
    }

    /// What a mark, or none, makes of the frame; whether it is the second one missed.
    fn marked(&mut self, marked: bool, at: u64) -> bool {
        let top = self.rules.counter_top;
        let tick = |n: &mut u32| *n = if *n < top { *n + 1 } else { n.wrapping_add(u32::from(top != u32::MAX)) };
        match (self.state.slot, marked) {
            (None, true) => self.frame(at),
            (Some((0, _)), true) => {
                if self.rules.mark_clears {
                    self.state.misses = 0;
                }
                self.frame(at);
            }
            (Some((0, _)), false) => {
                tick(&mut self.state.missed);
                self.state.misses += 1;
                if self.state.misses >= self.rules.missed_limit {
                    return true;
                }
                if self.rules.missed_begins {
                    self.frame(at);
                }
            }
            (Some(_), true) => {
                tick(&mut self.state.stray);
                if self.rules.stray_clears {
                    self.state.misses = 0;
                }
            }
            (_, false) => {}
        }
        false
    }

    fn frame(&mut self, at: u64) {
        let rules = &self.rules;
        let frame = self.state.record.map_or(0, |(last, frame)| {
            let gap = (at.saturating_sub(last) + rules.half) / (120 * SLOT);
            let gap = gap.max(rules.least_gap).min(rules.most_gap) as u32;
            if rules.frame_wraps {
                frame.wrapping_add(gap)
            } else {
                frame.saturating_add(gap)
            }
        });
        self.state.record = Some((at, frame));
        self.state.slot = Some((0, frame));
    }
}
