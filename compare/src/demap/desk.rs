//! What the replay program owes for each call, by the model: it keeps states and slices, as the program does.

use super::calls::{force_told, label_told, single, soft_told, Call, Numbers, SLICE, SOFT};
use super::model::{metric, Force, Learn, Rules, LABELS, NUMBERS};
use crate::sync::calls::digest;

pub struct Desk {
    pub rules: Rules,
    pub learn: Learn,
    pub force: Force,
    pub learned: Vec<i16>,
    pub nominal: Vec<i16>,
}

/// As many entries as a call says, of those that there are.
pub fn lent(n: u64) -> usize {
    n.min(SLICE as u64) as usize
}

fn put<T>(entries: &mut [T], most: usize, k: u64, v: T) {
    if k < most as u64 {
        entries[k as usize] = v;
    }
}

impl Desk {
    pub fn new(rules: Rules) -> Self {
        let (learned, nominal) = (vec![0; SLICE], vec![0; SLICE]);
        Self { rules, learn: Learn::new(), force: rules.start(), learned, nominal }
    }

    /// None is a call that there is not.
    pub fn answer(&mut self, call: Option<Call>) -> Numbers {
        let Some(call) = call else { return single(255, 0, 0) };
        let Self { rules, learn, force, learned, nominal } = self;
        match call {
            Call::New => *learn = Learn::new(),
            Call::Pilot { bits, t, z } => return single(rules.pilot(learn, bits, t, z), 0, 0),
            Call::Noise { y, best } => return single(rules.noise(learn, y, best), 0, 0),
            Call::PutSum { k, v } => put(&mut learn.sum, NUMBERS, k, v),
            Call::PutCount { k, v } => put(&mut learn.count, LABELS, k, v),
            Call::PutNoise { noise, samples } => (learn.noise, learn.samples) = (noise, samples),
            Call::Default => *force = rules.start(),
            Call::PutForce(f) => *force = f,
            Call::Next { frame, learned: n } => {
                return single(rules.next(force, learn, frame, &mut learned[..lent(n)]), 0, 0)
            }
            Call::Points { bits, learned: n } => {
                let (refusal, known) = rules.points(learn, bits, &mut learned[..lent(n)]);
                return single(refusal, known.into(), 0);
            }
            Call::SetLearned { k, v } => put(learned, SLICE, k, v),
            Call::SetNominal { k, v } => put(nominal, SLICE, k, v),
            Call::LearnedDigest => return single(0, digest(learned.iter().copied()), 0),
            Call::NominalDigest => return single(0, digest(nominal.iter().copied()), 0),
            Call::Part { bits, learned: a, nominal: b } => {
                return match rules.part(force, bits, &learned[..lent(a)], &nominal[..lent(b)]) {
                    Ok(part) => single(0, part.len() as u64, digest(part.iter().copied())),
                    Err(n) => single(n, 0, 0),
                }
            }
            Call::Label { a } if a < LABELS as u64 => return label_told(learn, a as usize),
            Call::Label { .. } => return single(255, 0, 0),
            Call::Force => return force_told(force),
            Call::Metric { y, p } => return single(0, metric(y, p) as u64, 0),
            Call::Block(b) => {
                let mut soft = [85; SOFT];
                let out = &mut soft[..b.room.min(SOFT as u64) as usize];
                let refusal = rules.block(&learned[..lent(b.symbols)], &nominal[..lent(b.points)], b.bits, b.k, out);
                return soft_told(refusal, b.from, &soft);
            }
            Call::Figure => {
                let (refusal, n0) = rules.n0(learn);
                return single(refusal, n0.is_some().into(), n0.unwrap_or(0) as u64);
            }
        }
        single(0, 0, 0)
    }
}
