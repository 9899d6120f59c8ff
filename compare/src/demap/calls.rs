//! Calls of the replay program and their answers, as numbers.

use super::model::{Force, Learn};
use crate::inputs::Random;

pub use crate::stage::Numbers;

/// One more than a call takes, of each slice.
pub const SLICE: usize = 125;

/// The soft buffer of a block.
pub const SOFT: usize = 41;

#[derive(Debug, Clone, Copy, PartialEq)]
pub enum Call {
    New,
    Pilot { bits: u64, t: u64, z: [i16; 2] },
    Noise { y: [i16; 2], best: i64 },
    PutSum { k: u64, v: i64 },
    PutCount { k: u64, v: u32 },
    PutNoise { noise: i64, samples: u32 },
    Default,
    PutForce(Force),
    Next { frame: u32, learned: u64 },
    Points { bits: u64, learned: u64 },
    SetLearned { k: u64, v: i16 },
    SetNominal { k: u64, v: i16 },
    LearnedDigest,
    NominalDigest,
    Part { bits: u64, learned: u64, nominal: u64 },
    Label { a: u64 },
    Force,
    Figure,
    Metric { y: [i16; 2], p: [i16; 2] },
    Block(Block),
}

/// A block of symbols from the learned numbers, with points from the nominal ones: how many are lent, and how much of the
/// buffer; the soft values from `from` on are told.
#[derive(Debug, Clone, Copy, PartialEq)]
pub struct Block {
    pub symbols: u64,
    pub points: u64,
    pub room: u64,
    pub bits: u64,
    pub k: i64,
    pub from: u64,
}

fn signed(v: impl Into<i64>) -> u64 {
    v.into() as u64
}

fn filled(front: &[u64]) -> Numbers {
    std::array::from_fn(|k| front.get(k).copied().unwrap_or(0))
}

fn force_numbers(f: &Force) -> [u64; 9] {
    let l = f.learned.map(u64::from);
    [l[0], l[1], l[2], l[3], l[4], signed(f.n0), signed(f.k), f.from.is_some().into(), f.from.unwrap_or(0).into()]
}

impl Call {
    pub fn numbers(&self) -> Numbers {
        match *self {
            Call::New => filled(&[0]),
            Call::Pilot { bits, t, z } => filled(&[1, bits, t, signed(z[0]), signed(z[1])]),
            Call::Noise { y, best } => filled(&[2, signed(y[0]), signed(y[1]), signed(best)]),
            Call::PutSum { k, v } => filled(&[3, k, signed(v)]),
            Call::PutCount { k, v } => filled(&[4, k, v.into()]),
            Call::PutNoise { noise, samples } => filled(&[5, signed(noise), samples.into()]),
            Call::Default => filled(&[6]),
            Call::PutForce(f) => {
                let mut numbers = filled(&[7]);
                numbers[1..10].copy_from_slice(&force_numbers(&f));
                numbers
            }
            Call::Next { frame, learned } => filled(&[8, frame.into(), learned]),
            Call::Points { bits, learned } => filled(&[9, bits, learned]),
            Call::SetLearned { k, v } => filled(&[10, k, signed(v)]),
            Call::SetNominal { k, v } => filled(&[11, k, signed(v)]),
            Call::LearnedDigest => filled(&[12]),
            Call::NominalDigest => filled(&[13]),
            Call::Part { bits, learned, nominal } => filled(&[14, bits, learned, nominal]),
            Call::Label { a } => filled(&[15, a]),
            Call::Force => filled(&[16]),
            Call::Figure => filled(&[17]),
            Call::Metric { y, p } => filled(&[18, signed(y[0]), signed(y[1]), signed(p[0]), signed(p[1])]),
            Call::Block(b) => filled(&[19, b.symbols, b.points, b.room, b.bits, signed(b.k), b.from]),
        }
    }

    /// The widths of the numbers that are read, from 1 on; 1 is a flag.
    fn widths(&self) -> &'static [u32] {
        match self {
            Call::Pilot { .. } => &[64, 64, 16, 16],
            Call::Noise { .. } => &[16, 16, 64],
            Call::PutSum { .. } => &[64, 64],
            Call::PutCount { .. } | Call::PutNoise { .. } => &[64, 32],
            Call::PutForce(_) => &[1, 1, 1, 1, 1, 64, 64, 1, 32],
            Call::Next { .. } => &[32, 64],
            Call::Points { .. } => &[64, 64],
            Call::SetLearned { .. } | Call::SetNominal { .. } => &[64, 16],
            Call::Part { .. } => &[64, 64, 64],
            Call::Label { .. } => &[64],
            Call::Metric { .. } => &[16, 16, 16, 16],
            Call::Block(_) => &[64, 64, 64, 64, 64, 64],
            _ => &[],
        }
    }

    /// Other numbers of the same call.
    pub fn in_disguise(&self, r: &mut Random) -> Numbers {
        let widths = self.widths();
        let mut numbers = self.numbers();
        for (k, n) in numbers.iter_mut().enumerate().skip(1) {
            match widths.get(k - 1) {
                None => *n = r.next(),
                Some(64) => {}
                Some(1) => *n = if *n == 0 { 0 } else { r.next() | 1 << r.below(64) },
                Some(width) => *n = *n & ((1 << width) - 1) | r.next() << width,
            }
        }
        numbers
    }

    pub fn of_numbers(n: &Numbers) -> Option<Self> {
        let pair = |k: usize| [n[k] as i16, n[k + 1] as i16];
        Some(match n[0] {
            0 => Call::New,
            1 => Call::Pilot { bits: n[1], t: n[2], z: pair(3) },
            2 => Call::Noise { y: pair(1), best: n[3] as i64 },
            3 => Call::PutSum { k: n[1], v: n[2] as i64 },
            4 => Call::PutCount { k: n[1], v: n[2] as u32 },
            5 => Call::PutNoise { noise: n[1] as i64, samples: n[2] as u32 },
            6 => Call::Default,
            7 => Call::PutForce(Force {
                learned: std::array::from_fn(|b| n[1 + b] != 0),
                n0: n[6] as i64,
                k: n[7] as i64,
                from: (n[8] != 0).then_some(n[9] as u32),
            }),
            8 => Call::Next { frame: n[1] as u32, learned: n[2] },
            9 => Call::Points { bits: n[1], learned: n[2] },
            10 => Call::SetLearned { k: n[1], v: n[2] as i16 },
            11 => Call::SetNominal { k: n[1], v: n[2] as i16 },
            12 => Call::LearnedDigest,
            13 => Call::NominalDigest,
            14 => Call::Part { bits: n[1], learned: n[2], nominal: n[3] },
            15 => Call::Label { a: n[1] },
            16 => Call::Force,
            17 => Call::Figure,
            18 => Call::Metric { y: pair(1), p: pair(3) },
            19 => {
                let (symbols, points, room, bits, k, from) = (n[1], n[2], n[3], n[4], n[5] as i64, n[6]);
                Call::Block(Block { symbols, points, room, bits, k, from })
            }
            _ => return None,
        })
    }
}

// ---- answers

/// A refusal, or 0, and two numbers.
pub fn single(refusal: u8, v: u64, w: u64) -> Numbers {
    filled(&[refusal.into(), v, w])
}

/// Four soft values from `from` on, if there are.
pub fn soft_told(refusal: u8, from: u64, soft: &[i8; SOFT]) -> Numbers {
    if from > SOFT as u64 - 4 {
        return single(255, 0, 0);
    }
    let at = |k: usize| signed(soft[from as usize + k]);
    filled(&[refusal.into(), at(0), at(1), at(2), at(3)])
}

pub fn force_told(f: &Force) -> Numbers {
    let mut numbers = filled(&[]);
    numbers[1..10].copy_from_slice(&force_numbers(f));
    numbers
}

/// The label at place a.
pub fn label_told(l: &Learn, a: usize) -> Numbers {
    filled(&[0, signed(l.sum[2 * a]), signed(l.sum[2 * a + 1]), l.count[a].into(), signed(l.noise), l.samples.into()])
}
