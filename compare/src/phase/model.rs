//! Carrier and slot phase, written from document 01, docs/DECISIONS.md and docs/RANGES.md: not from the port, and with
//! other arithmetic than the Rust's.

use super::calls::{Corrected, Head, Held, Nco, Phase, Steps, Whole, Word};

pub const SLOT: u32 = 9_296;
const TURN: i128 = 1 << 32;
pub const END: u64 = 1 << 62;
/// The greatest size of a wide number.
const WIDE: i64 = 1 << 60;

/// What may be wrong in a stand-in.
#[derive(Clone, Copy)]
pub struct Rules {
    /// Rounding goes down, not toward zero.
    pub rounds_down: bool,
    /// A symbol is turned by the phase before the step.
    pub turns_first: bool,
    /// Differences that set the step.
    pub differences: u32,
    /// A setting adds to the step ..
    pub setting_adds: bool,
    /// .. and clears sum and number of differences.
    pub setting_clears: bool,
    pub clamp: i64,
    /// A turn of exactly a half is negative.
    pub half_is_negative: bool,
    /// Other heads than Ssync make no difference.
    pub ssync_only: bool,
    /// A restart drops the trail ..
    pub restart_drops: bool,
    /// .. and keeps the phase.
    pub restart_keeps: bool,
    /// The sine is looked up three quarters on, not one.
    pub quarter_back: bool,
    /// The least magnitude that a gain is computed for.
    pub least: i64,
    /// A push writes the slot store.
    pub stores: bool,
    /// Symbols that a slot holds.
    pub holds: u32,
    /// A slot with fewer symbols is not corrected.
    pub whole_only: bool,
    /// The gain goes from head to head.
    pub gain_moves: bool,
    pub lowest: i64,
    /// A refused symbol leaves the store as it was.
    pub tests_first: bool,
    /// The slot store is looked at before the table.
    pub store_first: bool,
    /// A push that would be ignored is not refused for its position.
    pub ignored_stands_nowhere: bool,
    /// The greatest number of differences that a carrier holds, and how far its sum may be beyond its range.
    pub most: u32,
    pub sum_spare: i64,
    /// The first position that no symbol has.
    pub end: u64,
}

pub const RULES: Rules = Rules {
    rounds_down: true,
    turns_first: true,
    differences: 60,
    setting_adds: true,
    setting_clears: true,
    clamp: 524_287,
    half_is_negative: true,
    ssync_only: true,
    restart_drops: true,
    restart_keeps: true,
    quarter_back: true,
    least: 64,
    stores: true,
    holds: SLOT,
    whole_only: true,
    gain_moves: true,
    lowest: -32_768,
    tests_first: true,
    store_first: true,
    ignored_stands_nowhere: true,
    most: 59,
    sum_spare: 0,
    end: END,
};

fn wide(v: i64) -> bool {
    !(-WIDE..=WIDE).contains(&v)
}

fn number(v: i128) -> i64 {
    v.try_into().expect("64 bits")
}

/// The table's entries for an angle's cosine and sine.
pub fn looked_up(angle: u32) -> [usize; 2] {
    let k = ((u64::from(angle) + (1 << 21)) % (1 << 32) / (1 << 22)) as usize;
    [k, (k + 768) % 1_024]
}

impl Rules {
    /// The floor of v / 2^s + 1/2.
    fn round_shift(&self, v: i64, s: u32) -> i64 {
        let (up, whole) = (2 * i128::from(v) + (1 << s), 2 << s);
        number(if self.rounds_down { up.div_euclid(whole) } else { up / whole })
    }

    /// Turned back by an angle.
    fn turned_back(&self, table: &[i16], angle: u32, [i, q]: [i64; 2], bits: u32) -> [i64; 2] {
        let [k, back] = looked_up(angle);
        let sine = if self.quarter_back { back } else { (k + 256) % 1_024 };
        let [c, s] = [k, sine].map(|k| i64::from(table[k]));
        [self.round_shift(i * c + q * s, bits), self.round_shift(q * c - i * s, bits)]
    }

    /// The turn from one angle to another, from -2^31 to 2^31 - 1.
    fn turn(&self, from: u32, to: u32) -> i64 {
        let d = (i128::from(to) - i128::from(from)).rem_euclid(TURN);
        let negative = if self.half_is_negative { d >= TURN / 2 } else { d > TURN / 2 };
        number(if negative { d - TURN } else { d })
    }

    // ---- the carrier

    pub fn nco_in_range(&self, nco: &Nco) -> bool {
        let sums = -126_701_535_232 - self.sum_spare..=126_701_535_173 + self.sum_spare;
        nco.trail.is_none_or(|t| t.steps <= self.most && sums.contains(&t.sum))
    }

    pub fn nco_new(freq: i32) -> Nco {
        Nco { phase: 0, freq, trail: None }
    }

    pub fn rotate(&self, nco: &Nco, [i, q]: [i8; 2], table: &[i16]) -> (u8, Nco, [i64; 2]) {
        let refusal = match (table.len(), self.nco_in_range(nco)) {
            (1_024, true) => 0,
            (1_024, false) => 6,
            _ => 3,
        };
        if refusal != 0 {
            return (refusal, *nco, [0; 2]);
        }
        let next = (i128::from(nco.phase) + i128::from(nco.freq)).rem_euclid(TURN) as u32;
        let angle = if self.turns_first { nco.phase } else { next };
        let symbol = self.turned_back(table, angle, [i.into(), q.into()], 11);
        (0, Nco { phase: next, ..*nco }, symbol)
    }

    fn head_refusal(&self, in_range: bool, head: &Head) -> u8 {
        if !in_range || wide(head.amp) {
            6
        } else if head.at >= self.end {
            7
        } else {
            0
        }
    }

    /// Also whether the step was set.
    pub fn hear(&self, nco: &Nco, head: &Head) -> (u8, Nco, bool) {
        let refusal = self.head_refusal(self.nco_in_range(nco), head);
        if refusal != 0 || (self.ssync_only && head.word != Word::Ssync) {
            return (refusal, *nco, false);
        }
        let last = head.theta;
        let Some(t) = nco.trail else {
            return (0, Nco { trail: Some(Steps { last, sum: 0, steps: 0 }), ..*nco }, false);
        };
        let all = Steps { last, sum: t.sum + self.turn(t.last, last), steps: t.steps + 1 };
        if all.steps < self.differences {
            return (0, Nco { trail: Some(all), ..*nco }, false);
        }
        let from = if self.setting_adds { nco.freq.into() } else { 0 };
        let freq = (from + self.round_shift(all.sum * 246_412, 39)).clamp(-self.clamp, self.clamp);
        let left = if self.setting_clears { Steps { last, sum: 0, steps: 0 } } else { Steps { last, ..t } };
        (0, Nco { freq: freq as i32, trail: Some(left), ..*nco }, true)
    }

    pub fn nco_restart(&self, nco: &Nco) -> (u8, Nco) {
        if !self.nco_in_range(nco) {
            return (6, *nco);
        }
        let phase = if self.restart_keeps { nco.phase } else { 0 };
        (0, Nco { phase, freq: nco.freq, trail: if self.restart_drops { None } else { nco.trail } })
    }

    // ---- the slot phase

    pub fn gain_of(&self, amp: i64) -> (u8, i64) {
        if wide(amp) {
            return (6, 0);
        }
        let amp = i128::from(amp.max(self.least));
        (0, number((2 * 4_555_500_750 + amp).div_euclid(2 * amp)))
    }

    pub fn phase_in_range(&self, phase: &Phase) -> bool {
        phase.is_none_or(|x| !wide(x.head.amp) && x.head.at < self.end && x.count <= SLOT)
    }

    pub fn restart(&self, phase: &Phase) -> (u8, Phase) {
        if self.phase_in_range(phase) {
            (0, None)
        } else {
            (6, *phase)
        }
    }

    fn push_refusal(&self, phase: &Phase, entries: usize) -> u8 {
        let past = phase.is_some_and(|x| {
            let stands = x.count < SLOT || !self.ignored_stands_nowhere;
            stands && u128::from(x.head.at) + u128::from(x.count) >= self.end.into()
        });
        match (entries, self.phase_in_range(phase)) {
            (18_592, true) if past => 7,
            (18_592, true) => 0,
            (18_592, false) => 6,
            _ => 1,
        }
    }

    pub fn push(&self, phase: &Phase, r: [i16; 2], store: &mut [i16]) -> (u8, Phase) {
        let refusal = self.push_refusal(phase, store.len());
        let Some(x) = *phase else { return (refusal, None) };
        let k = 2 * x.count.min(self.holds - 1) as usize;
        let taken = x.count < self.holds;
        if self.stores && taken && (refusal == 0 || !self.tests_first) {
            if let Some(pair) = store.get_mut(k..k + 2) {
                pair.copy_from_slice(&r);
            }
        }
        let count = if refusal == 0 && taken { x.count + 1 } else { x.count };
        (refusal, Some(Held { count, ..x }))
    }

    /// A difference over a slot as a step for each symbol.
    fn per_symbol(&self, d: i64) -> i64 {
        self.round_shift(d * 14_784_741, 21)
    }

    fn whole(&self, a: &Head, b: &Head) -> Whole {
        let [gain, next] = [a.amp, b.amp].map(|amp| self.gain_of(amp).1);
        let delta = self.per_symbol(self.turn(a.theta, b.theta));
        let gamma = if self.gain_moves { self.per_symbol(next - gain) } else { 0 };
        Whole { head: *a, next: *b, delta, gain, gamma }
    }

    /// The state afterwards, and the slot that is due.
    pub fn head(&self, phase: &Phase, head: &Head) -> (u8, Phase, Option<Whole>) {
        let refusal = self.head_refusal(self.phase_in_range(phase), head);
        if refusal != 0 {
            return (refusal, *phase, None);
        }
        let due = phase.filter(|x| x.count == SLOT || !self.whole_only).map(|x| self.whole(&x.head, head));
        (0, Some(Held { head: *head, count: 0 }), due)
    }

    fn correct_refusal(&self, s: &Whole, j: u64, table: usize, store: usize) -> u8 {
        let fits = !wide(s.head.amp)
            && !wide(s.next.amp)
            && (-15_139_574_784..=15_139_574_777).contains(&s.delta)
            && (0..=71_179_699).contains(&s.gain)
            && (-501_810_748..=501_810_748).contains(&s.gamma)
            && j < SLOT.into();
        let stands = u128::from(s.head.at) + u128::from(j) < self.end.into() && s.next.at < self.end;
        match (store == 18_592, table == 1_024) {
            (false, false) if !self.store_first => 3,
            (false, _) => 1,
            (true, false) => 3,
            _ if !fits => 6,
            _ if !stands => 7,
            _ => 0,
        }
    }

    pub fn correct(&self, s: &Whole, j: u64, table: &[i16], store: &[i16]) -> Result<Corrected, u8> {
        let refusal = self.correct_refusal(s, j, table.len(), store.len());
        if refusal != 0 {
            return Err(refusal);
        }
        let k = j as usize;
        let r = [store[2 * k], store[2 * k + 1]];
        let angle = i128::from(s.head.theta) + i128::from(self.round_shift(s.delta * j as i64, 16));
        let phi = angle.rem_euclid(TURN) as u32;
        let gain = s.gain + self.round_shift(s.gamma * j as i64, 16);
        let u = self.turned_back(table, phi, r.map(i64::from), 15);
        let y = u.map(|v| self.round_shift(v * gain, 17).clamp(self.lowest, 32_767) as i16);
        Ok(Corrected { at: s.head.at + j, word: s.head.word, slot: s.head.slot, j: j as u16, r, phi, gain, y })
    }
}
