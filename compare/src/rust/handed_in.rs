//! States handed in to the Rust: its fields are opened here, and nothing else of its files is changed (open.awk).

use super::eq::{pairs, sums};
use super::learn::Learning;
use super::phase::{given, head};
use super::phy::chain::eq::Equaliser;
use super::phy::chain::phase::SlotPhase;
use super::phy::chain::sync as rust;
use super::receiver::Stages;
use super::sync::Slots;
use super::wired::{Points, Receiver};
use crate::demap::model::{labels, numbers, Learn};
use crate::eq::calls as eq;
use crate::phase::calls::{Nco, Phase};
use crate::receiver::model as receiver;
use crate::sync::calls::Word;
use crate::sync::model::{Lock, Stage, State, SLOT};

/// A slot sync in this state, with these accumulators. Of the heads since the lock the Rust keeps the number, the model no more than it
/// needs of it: the least number that fits is taken.
pub fn slots(state: &State, f: &Word, s: &Word, acc: &[u32]) -> Slots {
    let mut slots = Slots::new(f, s, state.base);
    let sync = &mut slots.sync;
    sync.head = (state.t % 24) as usize;
    for (k, x) in state.window.chunks(2).enumerate() {
        let place = (sync.head + k) % 24;
        (sync.win[place], sync.win[place + 24]) = ([x[0], x[1]], [x[0], x[1]]);
    }
    sync.pos = (state.t.max(23) - 23) as usize % SLOT as usize;
    sync.t = state.t;
    sync.acc.copy_from_slice(acc);
    (sync.period.peak, sync.period.peak_pos, sync.period.sum) = (state.peak, state.place, state.sum);
    (sync.stats.stray_markers, sync.stats.missed_markers) = (state.stray, state.missed);
    sync.state = match state.lock {
        Lock::Search { cand, count } => rust::State::Search { cand, count },
        Lock::Locked { offset, misses } => rust::State::Locked { offset, misses },
    };
    match state.stage {
        Stage::Before => {}
        Stage::First(r) => (sync.heads, sync.first) = (1, Some((r.at, r.f, r.s))),
        Stage::Known { odd, due, last } => {
            sync.heads = 2 + u64::from(odd == due);
            (sync.parity, sync.last_ss) = (Some(odd.into()), Some(last));
            sync.stats.ssync_parity = odd.into();
        }
    }
    sync.majority = state.majority;
    (sync.number, sync.frame) = (state.slot.map(|s| s.0), state.slot.map(|s| s.1));
    (sync.last_frame_at, sync.misses) = (state.record, state.misses);
    slots.next = state.next() as u64;
    slots
}

/// A carrier in this state, with the table that is chosen.
pub fn nco(state: &Nco) -> rust::Nco {
    let mut nco = rust::Nco::new(state.freq);
    nco.phase = state.phase;
    if let Some(t) = state.trail {
        (nco.last_ss, nco.sum, nco.steps) = (Some(t.last), t.sum, t.steps);
    }
    nco
}

/// A slot phase in this state; its symbols are those of the slot store.
pub fn slot(phase: &Phase, store: &[i16]) -> SlotPhase {
    let mut slot = SlotPhase::new();
    let symbols = |count: u32| store[..2 * count as usize].chunks(2).map(|r| [r[0], r[1]]).collect();
    slot.cur = phase.map(|x| (head(&x.head), symbols(x.count)));
    slot
}

/// An equaliser in this state.
pub fn equaliser(e: &eq::Equaliser) -> Equaliser {
    let acc = e.opened.then(|| sums(&e.sums));
    Equaliser { line: pairs(&e.line), filled: e.filled.into(), taps: pairs(&e.taps), taps_from: e.from, acc }
}

/// The wired stages in a receiver's state, with the table that is chosen, these words, accumulators and slot store.
pub fn receiver(x: &receiver::Receiver, [f, s]: &[Word; 2], acc: &[u32], store: &[i16]) -> Stages {
    let state = &x.sync.state;
    let sync = slots(state, f, s, acc);
    let mut wired = Receiver::new(state.base, 0);
    (wired.nco, wired.sync, wired.phase, wired.eq) = (nco(&x.nco), sync.sync, slot(&x.phase, store), equaliser(&x.eq));
    let held = 24 - state.t.min(24) as usize;
    wired.window = state.window.chunks(2).skip(held).map(|r| [r[0], r[1]]).collect();
    wired.waiting = x.line.places[..x.line.count as usize].iter().map(given).collect();
    wired.last_at = x.line.last;
    let receiver::Points { bits, points, k } = &x.points;
    let pairs = points[..2 << bits].chunks(2).map(|p| [p[0], p[1]]).collect();
    wired.points = (*bits != 0).then(|| Points { bits: (*bits).into(), points: pairs, k: (*k).into() });
    (wired.next, wired.t) = (sync.next, state.t);
    wired.accumulators.copy_from_slice(acc);
    Stages::alone(wired)
}

/// Learning in this state, with nothing learned in force.
pub fn learning(l: &Learn) -> Learning {
    let mut learning = Learning::new();
    let learn = &mut learning.learn;
    for (bits, (sums, counts)) in (1..).zip(learn.sum.iter_mut().zip(&mut learn.count)) {
        sums.as_flattened_mut().copy_from_slice(&l.sum[numbers(bits)]);
        counts.copy_from_slice(&l.count[labels(bits)]);
    }
    (learn.noise, learn.samples) = (l.noise, l.samples);
    learning
}
