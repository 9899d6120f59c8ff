//! The port, as the C functions of crate c_api.

use cases::demap::soft::Rotated;
use cases::eq::systems::{Solution, System};
use cases::frame::reference::Reference;
use cases::fx::Answer;
use cases::sync::correlate::Correlate;

#[repr(C)]
pub struct Number {
    pub value: i64,
    pub refusal: u8,
}

#[repr(C)]
pub struct Numbers {
    pub first: i64,
    pub second: i64,
    pub refusal: u8,
}

impl From<Number> for Answer {
    fn from(n: Number) -> Self {
        Self { refusal: n.refusal, x: n.value, y: 0 }
    }
}

impl From<Numbers> for Answer {
    fn from(n: Numbers) -> Self {
        Self { refusal: n.refusal, x: n.first, y: n.second }
    }
}

#[repr(C)]
pub struct Rotation {
    pub phase: u32,
    pub i: i16,
    pub q: i16,
    pub refusal: u8,
}

#[repr(C)]
struct Window {
    x: [i16; 48],
}

#[repr(C)]
struct OneWord {
    w: [i8; 48],
}

#[repr(C)]
struct Words {
    f: [i8; 48],
    s: [i8; 48],
}

#[repr(C)]
struct Equations {
    a: [f64; 242],
    b: [f64; 22],
}

#[repr(C)]
struct Unknowns {
    x: [f64; 22],
    refusal: u8,
}

extern "C" {
    pub fn sv_round_shift(v: i64, s: u32) -> Number;
    pub fn sv_sat16(v: i64) -> Number;
    pub fn sv_sat127(v: i64) -> Number;
    pub fn sv_sat32(v: i64) -> Number;
    pub fn sv_mag_approx(re: i64, im: i64) -> Number;
    pub fn sv_cordic(re: i64, im: i64) -> Numbers;
    pub fn sv_cordic_scale(re: i64, im: i64) -> Numbers;
    pub fn sv_signed_angle(a: u32) -> i64;
    pub fn sv_cos_sin_trunc(table: *const i16, len: usize, a: u32) -> Numbers;
    pub fn sv_cos_sin_round(table: *const i16, len: usize, a: u32) -> Numbers;
    pub fn sv_div_round(a: i64, b: i64) -> Number;
    fn sv_rotate(phase: u32, freq: i32, xi: i8, xq: i8, table: *const i16, len: usize) -> Rotation;
    fn sv_gain_of(amp: i64) -> Number;
    fn sv_part(j: usize) -> Numbers;
    fn sv_correlate(window: Window, word: OneWord) -> Numbers;
    fn sv_reference(word: u8, k: usize, words: Words) -> Numbers;
    fn sv_solve(e: Equations) -> Unknowns;
    fn sv_scale_of(n0: i64) -> Number;
    fn sv_demap(
        yi: i16,
        yq: i16,
        points: *const i16,
        len: usize,
        bits: usize,
        k: i64,
        out: *mut i8,
        room: usize,
    ) -> Number;
}

/// One function of the port, called as those of `fx::FUNCTIONS` are.
pub type Call = fn(&[i16], i64, i64) -> Answer;

// SAFETY (all): numbers only, or a slice by its pointer and its length, which the port reads.
pub const CALLS: [Call; 11] = [
    |_, v, s| unsafe { sv_round_shift(v, s as u32) }.into(),
    |_, v, _| unsafe { sv_sat16(v) }.into(),
    |_, v, _| unsafe { sv_sat127(v) }.into(),
    |_, v, _| unsafe { sv_sat32(v) }.into(),
    |_, re, im| unsafe { sv_mag_approx(re, im) }.into(),
    |_, re, im| unsafe { sv_cordic(re, im) }.into(),
    |_, re, im| unsafe { sv_cordic_scale(re, im) }.into(),
    |_, a, _| Answer::one(unsafe { sv_signed_angle(a as u32) }),
    |table, a, _| unsafe { sv_cos_sin_trunc(table.as_ptr(), table.len(), a as u32) }.into(),
    |table, a, _| unsafe { sv_cos_sin_round(table.as_ptr(), table.len(), a as u32) }.into(),
    |_, a, b| unsafe { sv_div_round(a, b) }.into(),
];

// SAFETY: as above; of the buffer the port writes within its length.
pub fn demap(y: [i16; 2], points: &[i16], bits: usize, k: i64, out: &mut [i8]) -> Answer {
    unsafe { sv_demap(y[0], y[1], points.as_ptr(), points.len(), bits, k, out.as_mut_ptr(), out.len()) }.into()
}

pub fn scale_of(n0: i64) -> Answer {
    unsafe { sv_scale_of(n0) }.into()
}

pub fn part(j: usize) -> Answer {
    unsafe { sv_part(j) }.into()
}

pub fn gain_of(amp: i64) -> Answer {
    unsafe { sv_gain_of(amp) }.into()
}

pub fn rotate(phase: u32, freq: i32, x: [i8; 2], table: &[i16]) -> Rotated {
    let r = unsafe { sv_rotate(phase, freq, x[0], x[1], table.as_ptr(), table.len()) };
    Rotated { refusal: r.refusal, phase: r.phase, turned: [r.i, r.q] }
}

pub fn correlate(c: &Correlate) -> Answer {
    unsafe { sv_correlate(Window { x: c.window }, OneWord { w: c.word }) }.into()
}

pub fn reference(r: &Reference) -> Answer {
    let [f, s] = r.words;
    unsafe { sv_reference(r.word, r.k, Words { f, s }) }.into()
}

pub fn solve(system: &System) -> Solution {
    let (a, b) = system.flat();
    let Unknowns { x, refusal } = unsafe { sv_solve(Equations { a, b }) };
    Solution { refusal, x }
}
