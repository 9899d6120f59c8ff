//! States whose numbers are all in range and do not fit together, and long enough streams from there on.

use super::calls::Call;
use super::kinds::{any_call, any_taps, random_word};
use super::model::{Points, Receiver};
use super::player::{Player, Told};
use super::ranges::{END, ENDS};
use super::signal::SLOT;
use crate::demap::soft::any_points;
use crate::eq::calls::{Equaliser, Sums};
use crate::eq::kinds::any_state as any_equaliser;
use crate::eq::model::{upper, LIMIT};
use crate::frame::calls::Ones;
use crate::frame::model::Line;
use crate::inputs::{cosine_table, pick, times, Random, Size};
use crate::phase::calls::{Corrected, Head, Held, Nco, Phase, Steps, Word};
use crate::sync::calls::{Event, Kind};
use crate::sync::model::{Lock, Reading, Stage, State};
use crate::sync::streams::{any_state, between, standard};

const PERIOD: u64 = SLOT as u64;

fn any_word(r: &mut Random) -> Word {
    pick(r, &[Word::Ssync, Word::Fsync, Word::NotFsync])
}

fn any_slot(r: &mut Random) -> Option<(u8, u32)> {
    (r.below(3) != 0).then(|| (between(r, 0, 119) as u8, between(r, 0, u32::MAX.into()) as u32))
}

/// Of the CORDIC: an even number.
fn any_angle(r: &mut Random) -> u32 {
    r.next() as u32 & !1
}

/// Differences without a sum, a sum without differences.
fn any_nco(r: &mut Random) -> Nco {
    let any = r.next();
    let sum = between(r, 0, ENDS.turned[0].abs_diff(ENDS.turned[1])) as i64 + ENDS.turned[0];
    let steps = between(r, 0, 59) as u32;
    let trail = Steps { last: any_angle(r), sum: pick(r, &[0, sum, sum]), steps: pick(r, &[59, steps]) };
    Nco {
        phase: r.next() as u32,
        freq: pick(r, &[any as i32, 0, 1_000, i32::MIN, i32::MAX]),
        trail: (r.below(4) != 0).then_some(trail),
    }
}

/// Of any size; or such that one of the next symbols completes a window that fits a word, with both parts of each symbol at their end.
fn any_window(words: &[Ones; 2], r: &mut Random) -> [i16; 48] {
    let reach = pick(r, &[0, 1, 300, ENDS.window]);
    let mut window = [0; 48].map(|_: i16| (r.below(2 * reach as u64 + 1) - i64::from(reach)) as i16);
    if r.below(3) == 0 {
        let from = 2 + 2 * r.below(8) as usize;
        let word = pick(r, words);
        window[from..].iter_mut().zip(word).for_each(|(v, one)| *v = ENDS.window * i16::from(one));
    }
    window
}

/// A mark that is missed once more, at head one or at a later one, perhaps at the period's end.
fn missed_again(s: &mut State, r: &mut Random) {
    let offset = pick(r, &[9_295, 9_295, 5_000]);
    s.t = 23 + u64::from(offset) - r.below(50) as u64;
    (s.lock, s.majority, s.misses) = (Lock::Locked { offset, misses: r.below(8) as u32 }, 0, 1);
    let first = r.below(2) == 0;
    s.slot = Some((if first { 118 } else { 119 }, r.next() as u32));
    s.stage = if first {
        Stage::First(Reading { at: 40_000, f: [0; 2], s: [ENDS.part, 0] })
    } else {
        Stage::Known { odd: r.below(2) == 0, due: false, last: [5, 5] }
    };
}

/// The slot sync's own states, within a receiver's ranges, and something due within the next hundred symbols.
fn any_sync(words: &[Ones; 2], r: &mut Random) -> State {
    let mut s = any_state(r);
    let sooner = pick(r, &[1, 30, 100]);
    let sooner = r.below(sooner) as u64;
    if s.t >= 23 + sooner && (s.t - 23) % PERIOD >= sooner {
        s.t -= sooner;
    }
    s.window = any_window(words, r);
    (s.peak, s.sum) = (s.peak.min(ENDS.peak), s.sum.min(ENDS.sum));
    match r.below(16) {
        0 | 1 => s.peak = ENDS.peak,
        2 | 3 => s.sum = ENDS.sum - r.below(40 * 3_758_114_816) as u64,
        4 | 5 => s.sum = ENDS.sum - r.positive(20) as u64,
        6 => s.base = r.next(),
        _ => {}
    }
    if r.below(8) == 0 {
        missed_again(&mut s, r);
    }
    let narrow = |c: &mut [i32; 2]| c.iter_mut().for_each(|v| *v = (*v).clamp(-ENDS.part, ENDS.part));
    match &mut s.stage {
        Stage::Before => {}
        Stage::First(reading) => [&mut reading.f, &mut reading.s].into_iter().for_each(narrow),
        Stage::Known { last, .. } => narrow(last),
    }
    s
}

/// The symbols before the next head, while locked.
fn until_head(s: &State) -> Option<u64> {
    let place = s.t.checked_sub(23)? % PERIOD;
    match s.lock {
        Lock::Locked { offset, .. } => Some((u64::from(offset) + PERIOD - place) % PERIOD),
        Lock::Search { .. } => None,
    }
}

/// A slot with any count; it may be whole just when the next head comes, or its last symbol may stand past the end.
fn any_phase(s: &State, r: &mut Random) -> Phase {
    let at = match r.below(8) {
        0 => END - 24 - r.below(9_272) as u64,
        1 => (s.base.wrapping_add(s.t)).saturating_sub(PERIOD).clamp(46_480, END - 24),
        _ => between(r, 46_480, END - 24),
    };
    let part = |r: &mut Random| between(r, 0, 2 * ENDS.part as u64) as i32 - ENDS.part;
    let amp = [between(r, 0, 200), between(r, 0, ENDS.amp as u64)];
    let head = Head {
        at,
        word: any_word(r),
        theta: any_angle(r),
        amp: pick(r, &amp) as i64,
        slot: any_slot(r),
        corr: [part(r), part(r)],
        nco_phase: 0,
    };
    let due = until_head(s).unwrap_or(0).min(9_000);
    let any = between(r, 1, PERIOD);
    let count = pick(r, &[any, PERIOD, PERIOD - due, PERIOD - due - 1, PERIOD.min(PERIOD - due + 2)]);
    (r.below(6) != 0).then_some(Held { head, count: count as u32 })
}

/// The last five of a slot, from this position on.
pub fn places(at: u64) -> [Corrected; 5] {
    std::array::from_fn(|k| Corrected {
        at: at + k as u64,
        word: Word::Fsync,
        slot: None,
        j: 9_291 + k as u16,
        r: [0; 2],
        phi: 0,
        gain: 0,
        y: [0; 2],
    })
}

/// None or five wait, before a slot that adjoins or does not. Where none do, their places hold anything.
fn any_line(phase: &Phase, r: &mut Random) -> Line {
    let mut waiting = places(between(r, 55_771, END - 29));
    let garbage = r.below(2) == 0;
    let count = pick(r, &[0, 5, 5]);
    for place in &mut waiting {
        (place.word, place.slot) = (any_word(r), any_slot(r));
        if garbage && count == 0 {
            (place.at, place.j, place.slot) = (r.next(), r.next() as u16, Some((r.next() as u8, 7)));
        }
    }
    let before = phase.map_or(0, |x| x.head.at - 1);
    let last = match r.below(4) {
        0 => None,
        1 => Some(between(r, 55_775, END - 25)),
        _ => Some(before.clamp(55_775, END - 25)),
    };
    Line { places: waiting.to_vec(), count, last }
}

/// Entries as far as a receiver's go, at their ends or away from them.
fn narrow_sums(s: &mut Sums, r: &mut Random) {
    let at_ends = r.below(4) == 0;
    for ((row, column), v) in upper().zip(s.r.chunks_mut(2)) {
        let least = if row == column { 0 } else { ENDS.product[0] };
        v[0] = v[0].clamp(least, ENDS.square);
        v[1] = v[1].clamp(-ENDS.turn, ENDS.turn);
        if !at_ends {
            v.iter_mut().for_each(|v| *v /= 2);
        }
    }
    let most = ENDS.right_hand as i64;
    s.p.iter_mut().for_each(|v| *v = (*v).clamp(-most, most));
}

/// A line that is empty or full, whatever waits; sums with entries at their ends, that are full or nearly so.
fn any_eq(r: &mut Random) -> Equaliser {
    let mut e = any_equaliser(r);
    e.filled = pick(r, &[0, 11, 11]);
    e.taps = any_taps(r);
    e.opened = r.below(4) != 0;
    e.sums.count = match r.below(3) {
        0 => e.sums.count.min(ENDS.count),
        // no room, or room for a slot that leads out of the range, or to its end
        _ => LIMIT - pick(r, &[16, 17, 18, 19, 20, 21, 23, 24, 25, 39, 40]),
    };
    narrow_sums(&mut e.sums, r);
    e
}

fn any_loaded(r: &mut Random) -> Points {
    let bits = r.below(6) as u8;
    let mut points = [0; 64];
    if bits > 0 {
        let all = any_points(bits.into(), r);
        points[..all.len()].copy_from_slice(&all);
    }
    Points { bits, points, k: between(r, 0, 1 << 24) as u32 }
}

/// In range, and no more coherent than chance makes it.
pub fn any_receiver(p: &Player, r: &mut Random) -> Receiver {
    let mut x = p.desk.receiver.clone();
    x.nco = any_nco(r);
    x.sync.state = any_sync(&p.desk.words, r);
    x.phase = any_phase(&x.sync.state, r);
    x.line = any_line(&x.phase, r);
    x.eq = any_eq(r);
    x.points = any_loaded(r);
    assert!(x.in_range());
    x
}

/// Accumulators of the next places.
fn set_accumulators(p: &mut Player, r: &mut Random) {
    let state = p.desk.receiver.sync.state;
    let place = state.t.saturating_sub(23) % PERIOD;
    let one = pick(r, &[u32::MAX, 0, state.peak]);
    for k in 0..pick(r, &[0, 6, 60]) {
        let v = if r.below(4) == 0 { pick(r, &[0, 1, 8, ENDS.peak, u32::MAX]) } else { one };
        p.ask(Call::SetAcc { k: (place + k) % PERIOD, v });
    }
}

/// All of them at their end, for two periods.
fn full_accumulators(p: &mut Player, r: &mut Random) {
    let mut x = any_receiver(p, r);
    x.sync.state = State { t: 23 + 7 * PERIOD, ..State::started(1 << 40, None) };
    p.hand_in(&x);
    for k in 0..PERIOD {
        p.ask(Call::SetAcc { k, v: u32::MAX });
    }
    for _ in 0..2 * SLOT {
        p.refuses([r.next() as i8, r.next() as i8], 0);
    }
    p.look();
}

/// What a refusal was for is put right, if it is a slot's; whether the stream can go on.
fn put_right(p: &mut Player, refusal: u8) -> bool {
    let mut x = p.desk.receiver.clone();
    match refusal {
        7 if x.next() < END.into() => x.phase.iter_mut().for_each(|x| x.head.at -= 10_000),
        8 => x.eq.sums.count -= 100,
        _ => return false,
    }
    p.hand_in(&x);
    true
}

fn run(p: &mut Player, r: &mut Random, symbols: u64) {
    let reach = pick(r, &[0, 1, 20, 128]);
    for _ in 0..symbols {
        let x = [0; 2].map(|_| (r.below(2 * reach + 1) - reach as i64).clamp(-128, 127) as i8);
        let refusal = p.push(x).refusal;
        if refusal != 0 {
            // and again: nothing has changed
            p.refuses(x, refusal);
            if !put_right(p, refusal) {
                return;
            }
        }
        if r.below(400) == 0 {
            let call = any_call(p, r);
            p.ask(call);
        }
    }
}

/// Before a head, which the next symbol tells.
fn before_a_head() -> State {
    State {
        window: std::array::from_fn(|k| 80 * k as i16 - 2_000),
        t: 23 + 5_000 + 12 * PERIOD,
        lock: Lock::Locked { offset: 5_000, misses: 0 },
        stage: Stage::Known { odd: true, due: false, last: [700, -300] },
        ..State::started(1 << 40, None)
    }
}

/// Where the Rust overflows, by document 01: the two marker counters stay at 2^32 - 1, and a frame record later than the head counts as gap 0,
/// which is raised to 1.
fn ends_of_counts(p: &mut Player, r: &mut Random) {
    let mut head = |state: State| {
        let mut x = any_receiver(p, r);
        (x.sync.state, x.phase) = (state, None);
        p.hand_in(&x);
        let Event::Head { at, word, slot, .. } = p.push([100, -90]).events[0] else { panic!("no head") };
        (at, word, slot, [p.desk.receiver.sync.state.stray, p.desk.receiver.sync.state.missed])
    };
    let whole = before_a_head();
    let (at, word, ..) = head(whole);
    let same = if word == Kind::Fsync { 5 } else { -5 };
    let full = State { stray: u32::MAX, missed: u32::MAX, ..whole };
    for (majority, number) in [(-same, 17), (same, 119)] {
        let (.., counts) = head(State { majority, slot: Some((number, 3)), ..full });
        assert_eq!(counts, [u32::MAX; 2], "marker counters at their end");
    }
    let (.., slot, _) = head(State { majority: -same, slot: Some((119, 3)), record: Some((at + 1, 41)), ..whole });
    assert_eq!(slot, Some((0, 42)), "a record later than the head");
}

/// A slot that is due is given if its last symbol stands below 2^62, by document 01; the Rust has no such limit.
fn slots_at_the_end(p: &mut Player, r: &mut Random) {
    for (last, refusal) in [(END - 2, 0), (END - 1, 0), (END, 7), (END + 1, 7), (END + 9_271, 7)] {
        let mut x = any_receiver(p, r);
        let Held { head, .. } = std::iter::repeat_with(|| any_phase(&x.sync.state, r)).flatten().next().unwrap();
        x.phase = Some(Held { head: Head { at: last - (PERIOD - 1), ..head }, count: PERIOD as u32 });
        (x.sync.state, x.eq.opened) = (before_a_head(), false);
        p.hand_in(&x);
        p.refuses([100, -90], refusal);
    }
}

/// By the symbol's own call and by `feed`, from states that are handed in.
pub fn misfits(p: &mut Player, r: &mut Random, size: Size) {
    let Told { losses, slots, .. } = p.totals.all;
    if size != Size::Sample {
        p.start(&standard(), &cosine_table(), 0, 0);
        ends_of_counts(p, r);
    }
    for turn in 0..times(size, [0, 2_500, 100_000]) {
        if turn % 60 == 0 {
            let table = match r.below(8) {
                0 => (0..1_024).map(|_| r.next() as i16).collect(),
                _ => cosine_table(),
            };
            let words = [random_word(r), random_word(r)];
            p.start(&if r.below(4) == 0 { [words[0]; 2] } else { words }, &table, 0, 0);
        }
        if turn % 2_500 == 0 {
            full_accumulators(p, r);
        }
        p.hand_in(&any_receiver(p, r));
        set_accumulators(p, r);
        // from time to time as far as the heads after the next
        let symbols = if turn % 125 == 0 { 30_000 } else { 20 + r.below(150) as u64 };
        run(p, r, symbols);
        if r.below(4) == 0 {
            p.look();
        }
    }
    if size != Size::Sample {
        slots_at_the_end(p, r);
        assert!(p.totals.all.slots - slots > 200, "slots corrected from such states");
        assert!(p.totals.all.losses - losses > 100, "losses");
        assert!(p.totals.stops.iter().all(|&n| n > 4), "feeds that stop: {:?}", p.totals.stops);
    }
}
