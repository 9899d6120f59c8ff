//! The functions of the demapper and its neighbours that take numbers and slices: document 01's refusals, stated once, and
//! the Rust's answers; and symbols, points and scales to try.

use crate::fx::Answer;
use crate::inputs::{pick, Random};
use crate::stage::slipped;
use isdb_frontend::tables::choose_table;
use isdbs3_phy::chain::{demap as rust, phase, sync};
use std::f64::consts::TAU;
use std::sync::OnceLock;

/// The greatest scale.
pub const TOP: i64 = 1 << 24;

/// Document 01's figures. A slip is another one.
#[derive(Clone)]
struct Limits {
    top: i64,
    wide: u64,
    entries: usize,
    /// The buffer stands before the points, and these before the scale.
    buffer_first: bool,
    points_before_scale: bool,
}

const LIMITS: Limits =
    Limits { top: TOP, wide: 1 << 60, entries: 1_024, buffer_first: true, points_before_scale: true };

/// Slips of these figures, planted by name in both sides at once (slip.sh): only the Rust, or what the lists below name, can show them.
const SLIPS: [(&str, fn(&mut Limits)); 6] = [
    ("scale_over_2_24_in_range", |l| l.top += 1),
    ("scale_of_2_24_out_of_range", |l| l.top -= 1),
    ("limit_of_2_61", |l| l.wide = 1 << 61),
    ("table_of_1023_in_range", |l| l.entries = 1_023),
    ("points_before_the_buffer", |l| l.buffer_first = false),
    ("scale_before_the_points", |l| l.points_before_scale = false),
];

fn limits() -> &'static Limits {
    static CHOSEN: OnceLock<Limits> = OnceLock::new();
    CHOSEN.get_or_init(|| slipped(LIMITS, &SLIPS, "SLIP_IN_MODEL"))
}

/// Demaps with the number that document 01 gives, whatever is stated below: room, bits, numbers of points, scale, refusal or 0.
pub const ASKED: [(usize, usize, usize, i64, u8); 16] = [
    (1, 1, 4, 0, 0),
    (5, 5, 64, TOP, 0),
    (9, 2, 8, 1, 0),
    (0, 1, 4, 0, 1),
    (4, 5, 64, 0, 1),
    (5, 9, 4, 0, 1),
    (0, 1, 3, -1, 1),
    (10, 9, 4, 0, 4),
    (0, 0, 2, 0, 4),
    (9, 6, 128, 0, 4),
    (9, 1, 3, 0, 4),
    (9, 1, 5, 0, 4),
    (9, 1, 3, -1, 4),
    (9, 1, 4, -1, 5),
    (9, 5, 64, TOP + 1, 5),
    (9, 3, 16, i64::MIN, 5),
];

/// The same of `scale_of` and `gain_of`, and of the carrier table that `rotate` is lent.
pub const ASKED_NUMBERS: [(i64, u8); 6] =
    [(0, 0), (1 << 60, 0), (-(1 << 60), 0), ((1 << 60) + 1, 6), (-(1 << 60) - 1, 6), (i64::MIN, 6)];
pub const ASKED_ENTRIES: [(usize, u8); 4] = [(1_024, 0), (1_023, 3), (1, 3), (0, 3)];

/// A demap: all that is given to it.
#[derive(Debug, Clone)]
pub struct Demap {
    pub y: [i16; 2],
    pub points: Vec<i16>,
    pub bits: usize,
    pub k: i64,
    /// The buffer before.
    pub out: Vec<i8>,
}

pub fn pairs(numbers: &[i16]) -> Vec<[i16; 2]> {
    numbers.chunks_exact(2).map(|p| [p[0], p[1]]).collect()
}

impl Demap {
    pub fn refusal(&self) -> u8 {
        let no_room = self.out.len() < self.bits;
        let no_points = !(1..=5).contains(&self.bits) || self.points.len() != 2 << self.bits;
        let no_scale = !(0..=limits().top).contains(&self.k);
        let mut places = [(no_room, 1), (no_points, 4), (no_scale, 5)];
        if !limits().buffer_first {
            places.swap(0, 1);
        }
        if !limits().points_before_scale {
            places.swap(1, 2);
        }
        places.into_iter().find(|place| place.0).map_or(0, |place| place.1)
    }

    /// The answer, and the buffer afterwards.
    pub fn expected(&self) -> (Answer, Vec<i8>) {
        let mut out = self.out.clone();
        match self.refusal() {
            0 => (Answer::one(rust::demap(self.y, &pairs(&self.points), self.bits, self.k, &mut out)), out),
            n => (Answer::refused(n), out),
        }
    }
}

fn narrow(v: i64, answer: impl FnOnce(i64) -> i64) -> Answer {
    if v.unsigned_abs() <= limits().wide {
        Answer::one(answer(v))
    } else {
        Answer::refused(6)
    }
}

pub fn scale_of(n0: i64) -> Answer {
    narrow(n0, rust::scale_of)
}

pub fn gain_of(amp: i64) -> Answer {
    narrow(amp, phase::gain_of)
}

/// A rotated symbol with the phase after it.
#[derive(Debug, Clone, Copy, PartialEq, Eq)]
pub struct Rotated {
    pub refusal: u8,
    pub phase: u32,
    pub turned: [i16; 2],
}

/// The Rust's carrier with a table.
pub struct Turner {
    nco: sync::Nco,
    table: Vec<i16>,
}

impl Turner {
    pub fn new(table: &[i16]) -> Self {
        choose_table(table);
        Self { nco: sync::Nco::new(0), table: table.to_vec() }
    }

    pub fn table(&self) -> &[i16] {
        &self.table
    }

    /// With so many entries of the table lent.
    pub fn rotate(&mut self, phase: u32, freq: i32, x: [i8; 2], lent: usize) -> Rotated {
        if !(limits().entries..=1_024).contains(&lent) {
            return Rotated { refusal: 3, phase, turned: [0; 2] };
        }
        (self.nco.phase, self.nco.freq) = (phase, freq);
        let turned = self.nco.rotate(x);
        Rotated { refusal: 0, phase: self.nco.phase, turned }
    }
}

// ---- inputs

fn clamped(v: i64) -> i16 {
    v.clamp(-32_768, 32_767) as i16
}

/// 2^bits points in the order of their labels.
pub fn any_points(bits: usize, r: &mut Random) -> Vec<i16> {
    let count = 1usize << bits;
    match r.below(8) {
        // anything
        0 | 1 => (0..2 * count).map(|_| r.next() as i16).collect(),
        // one point
        2 => {
            let p = [r.next() as i16, r.next() as i16];
            p.into_iter().cycle().take(2 * count).collect()
        }
        // few places, so that distances tie
        3 => {
            let size = 1 + r.positive(14);
            (0..2 * count).map(|_| clamped((r.below(3) - 1) * size)).collect()
        }
        // the ends
        4 => (0..2 * count).map(|_| pick(r, &[i16::MIN, i16::MIN + 1, -1, 0, 1, i16::MAX])).collect(),
        // a ring, in any order of labels
        _ => {
            let (size, turn) = ((1 + r.positive(11)) as f64, r.below(count as u64));
            let odd = 2 * r.below(count as u64) + 1;
            let angle = |k: i64| TAU * ((k * odd + turn) % count as i64) as f64 / count as f64;
            let ring = (0..count as i64).flat_map(|k| [size * angle(k).cos(), size * angle(k).sin()]);
            ring.map(|v| v.round() as i16).collect()
        }
    }
}

/// Anything, an end, close to a point, or about halfway between two.
pub fn any_symbol(points: &[i16], r: &mut Random) -> [i16; 2] {
    let p = pairs(points);
    match r.below(6) {
        0 => [r.next() as i16, r.next() as i16],
        1 => [0; 2].map(|_: i16| pick(r, &[i16::MIN, i16::MIN + 1, -1, 0, 1, i16::MAX])),
        2 => pick(r, &p),
        3 | 4 => pick(r, &p).map(|v| clamped(i64::from(v) + r.signed(9))),
        _ => {
            let (a, b) = (pick(r, &p), pick(r, &p));
            [0, 1].map(|i| clamped((i64::from(a[i]) + i64::from(b[i])) / 2 + r.near()))
        }
    }
}

pub fn any_scale(r: &mut Random) -> i64 {
    match r.below(8) {
        0 => pick(r, &[0, 1, 512, 513, TOP - 1, TOP]),
        1 => r.below(TOP as u64 + 1),
        2 => 81_722,
        _ => r.positive(24),
    }
}

/// A buffer of something, a little longer than needed at times.
fn buffer(len: usize, r: &mut Random) -> Vec<i8> {
    (0..len).map(|_| r.next() as i8).collect()
}

pub fn any_demap(bits: usize, r: &mut Random) -> Demap {
    let points = any_points(bits, r);
    let y = any_symbol(&points, r);
    let room = bits + r.below(4) as usize;
    Demap { y, k: any_scale(r), bits, out: buffer(room, r), points }
}

/// Every length of points and of the buffer around the right ones, bits and scales at and past their limits.
pub fn demaps_at_limits(r: &mut Random) -> Vec<Demap> {
    let mut all = Vec::new();
    let scales = [i64::MIN, -1, 0, 1, 512, 513, TOP, TOP + 1, 1 << 32, i64::MAX];
    for bits in [0, 1, 2, 3, 4, 5, 6, 7, 31, 32, 63, 64, 65, usize::MAX] {
        for len in 0..=66 {
            for (room, k) in (0..=7).flat_map(|room| scales.map(|k| (room, k))) {
                let points = (0..len).map(|_| r.next() as i16).collect();
                all.push(Demap { y: [r.next() as i16, r.next() as i16], points, bits, k, out: buffer(room, r) });
            }
        }
    }
    // 2^bits points, or as many as 2 << bits is after a wrap
    for (bits, len) in [(6, 128), (7, 256), (64, 2), (63, 0), (62, 0)] {
        for (room, k) in [(0, 0), (5, 0), (bits, 0), (bits, -1), (bits - 1, 1)] {
            all.push(Demap { y: [1, 2], points: vec![3; len], bits, k, out: buffer(room, r) });
        }
    }
    all
}

/// About each place where a scale changes much, at limits, or anything.
pub fn any_noise(r: &mut Random) -> i64 {
    match r.below(8) {
        0 => r.next() as i64,
        1 => r.by_power(),
        2 => 256 + r.near(),
        // where the scale's rounding turns: 2^33 over an odd number
        3 => (1i64 << 33) / (2 * r.positive(24) + 1) + r.near(),
        4 => r.signed(60),
        _ => r.positive(34),
    }
}
