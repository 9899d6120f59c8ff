//! Symbols as a transmitter sends them: slots that begin with a word, F and S in turns, slot 0 of a frame marked by the F word's other sign, a
//! payload, a carrier, noise.

use super::calls::POINTS;
use crate::frame::calls::Ones;
use crate::inputs::Random;
use std::f64::consts::TAU;

pub const SLOT: u32 = 9_296;

/// 2^bits points of size about 1 in the order of their labels: opposite ones, a ring, or two rings.
pub fn constellation(bits: usize) -> Vec<[f64; 2]> {
    let count = 1usize << bits;
    let (inner, outer) = if bits < 4 { (0, count) } else { (count / 4, count - count / 4) };
    (0..count)
        .map(|k| {
            let (n, of, size) = if k < inner { (k, inner, 0.45) } else { (k - inner, outer, 1.1) };
            let angle = TAU * (n as f64 + 0.5) / of as f64 + if bits == 1 { -TAU / 8.0 } else { 0.0 };
            [size * angle.cos(), size * angle.sin()]
        })
        .collect()
}

/// The same as numbers to load.
pub fn points(bits: usize) -> [i16; POINTS] {
    let mut all = [0; POINTS];
    for (number, part) in all.iter_mut().zip(constellation(bits).as_flattened()) {
        *number = (part * 1_024.0).round() as i16;
    }
    all
}

pub struct Signal {
    pub words: [Ones; 2],
    pub amplitude: f64,
    /// Turns of the carrier: now, with each symbol, and how that changes.
    pub phase: f64,
    pub turn: f64,
    pub drift: f64,
    pub noise: u64,
    pub points: Vec<[f64; 2]>,
    /// Of the frame, and the next symbol's place in it.
    pub slot: u32,
    pub j: u32,
    pub marks: bool,
    pub sign: f64,
    /// A symbol in so many is sent as zero, so that a fade is not all silence; 0 for none.
    pub payload: f64,
}

impl Signal {
    pub fn new(words: [Ones; 2], amplitude: f64, bits: usize) -> Self {
        Self {
            words,
            amplitude,
            phase: 0.0,
            turn: 0.0,
            drift: 0.0,
            noise: 0,
            points: constellation(bits),
            slot: 1,
            j: 0,
            marks: true,
            sign: 1.0,
            payload: 1.0,
        }
    }

    fn sent(&mut self, r: &mut Random) -> [f64; 2] {
        let j = self.j as usize;
        if j >= 24 {
            let k = r.below(self.points.len() as u64) as usize;
            return self.points[k].map(|part| part * self.payload);
        }
        let odd = self.slot % 2;
        let marked = self.slot == 0 && self.marks;
        let sign = match (odd, marked) {
            (1, _) => 1.0,
            (_, true) => -self.sign,
            _ => self.sign,
        };
        let word = &self.words[odd as usize];
        [word[2 * j], word[2 * j + 1]].map(|one| sign * f64::from(one))
    }

    pub fn next(&mut self, r: &mut Random) -> [i8; 2] {
        let [i, q] = self.sent(r);
        let (sin, cos) = (TAU * self.phase).sin_cos();
        self.phase = (self.phase + self.turn).fract();
        self.turn += self.drift;
        self.j += 1;
        if self.j == SLOT {
            self.j = 0;
            self.slot = (self.slot + 1) % 120;
        }
        [i * cos - q * sin, q * cos + i * sin].map(|part| {
            let noise = if self.noise == 0 { 0 } else { r.below(2 * self.noise + 1) - self.noise as i64 };
            ((part * self.amplitude).round() as i64 + noise).clamp(-128, 127) as i8
        })
    }
}
