//! The port's C functions made of the Rust itself, with one slip planted by name (environment
//! variable SLIP): shows that the comparison finds it. Without SLIP the stand-in is right.

mod correlate;
mod place;
mod reference;
mod soft;
mod solve;

use cases::fx::{Answer, FUNCTIONS};
use isdbs3_phy::chain::fx as rust;
use std::sync::OnceLock;

#[repr(C)]
pub struct Number {
    value: i64,
    refusal: u8,
}

#[repr(C)]
pub struct Numbers {
    first: i64,
    second: i64,
    refusal: u8,
}

/// Table, a, b and the right answer, to a wrong one.
type Slip = fn(&[i16], i64, i64, Answer) -> Answer;

/// Each slip: its name, the function it is planted in (slip.sh reads both), and what it does.
const SLIPS: [(&str, &str, Slip); 17] = [
    ("shift_toward_zero", "round_shift", |_, v, s, r| accepted(r, || Answer::one(v / (1 << s)))),
    ("shift_61_taken", "round_shift", |_, v, s, r| if s == 61 { Answer::one((v + (1 << 60)) >> s) } else { r }),
    ("sat16_symmetric", "sat16", |_, _, _, r| Answer { x: r.x.max(-32767), ..r }),
    ("sat127_to_minus_128", "sat127", |_, v, _, r| accepted(r, || Answer::one(v.clamp(-128, 127)))),
    ("sat32_wraps", "sat32", |_, v, _, r| accepted(r, || Answer::one(v as i32))),
    ("quarter_of_smaller", "mag_approx", |_, a, b, r| {
        accepted(r, || Answer::one(a.abs().max(b.abs()) + (a.abs().min(b.abs()) >> 2)))
    }),
    ("angle_off_by_one", "cordic", |_, re, im, r| accepted(r, || cordic_with_a_wrong_angle(re, im))),
    ("cordic_takes_2_22", "cordic", |_, a, b, r| if (a, b) == (1 << 22, 0) { Answer::two(0, 1 << 22) } else { r }),
    ("scale_toward_zero", "cordic_scale", |_, re, im, r| accepted(r, || scale_toward_zero(re, im))),
    ("angle_unsigned", "signed_angle", |_, a, _, _| Answer::one(a)),
    ("sine_a_quarter_on", "cos_sin_trunc", |table, a, _, r| {
        accepted(r, || Answer { y: table[((a >> 22) as usize + 256) % 1024].into(), ..r })
    }),
    ("lookup_truncates", "cos_sin_round", |table, a, _, r| accepted(r, || FUNCTIONS[8].expected(table, a, 0))),
    ("long_table_taken", "cos_sin_round", |table, a, _, r| {
        if table.len() == 1025 {
            FUNCTIONS[9].expected(&table[..1024], a, 0)
        } else {
            r
        }
    }),
    ("divides_toward_zero", "div_round", |_, a, b, r| accepted(r, || Answer::one((2 * a + b) / (2 * b)))),
    ("limit_under_2_60", "sat16", |_, v, _, r| if v.unsigned_abs() == 1 << 60 { Answer::refused(6) } else { r }),
    ("refusal_5_for_6", "div_round", |_, _, _, r| if r.refusal == 6 { Answer::refused(5) } else { r }),
    ("value_left_after_refusal", "mag_approx", |_, a, _, r| if r.refusal == 6 { Answer { x: a, ..r } } else { r }),
];

fn accepted(right: Answer, wrong: impl FnOnce() -> Answer) -> Answer {
    if right.refusal == 0 {
        wrong()
    } else {
        right
    }
}

/// `cordic` with the angle of step 15 one too great.
fn cordic_with_a_wrong_angle(re: i64, im: i64) -> Answer {
    let (angle, size) = rust::cordic(re, im);
    let (mut x, mut y) = if re < 0 { (-re << 8, -im << 8) } else { (re << 8, im << 8) };
    for i in 0..15 {
        let (dx, dy) = (y >> i, x >> i);
        (x, y) = if y > 0 { (x + dx, y - dy) } else { (x - dx, y + dy) };
    }
    Answer::two(if y > 0 { angle.wrapping_add(1) } else { angle.wrapping_sub(1) }, size)
}

fn scale_toward_zero(mut re: i64, mut im: i64) -> Answer {
    while re.abs() >= 1 << 22 || im.abs() >= 1 << 22 {
        (re, im) = (re / 2, im / 2);
    }
    Answer::two(re, im)
}

fn planted() -> &'static Option<(&'static str, Slip)> {
    static PLANTED: OnceLock<Option<(&str, Slip)>> = OnceLock::new();
    PLANTED.get_or_init(|| {
        let name = std::env::var("SLIP").ok().filter(|name| !name.is_empty())?;
        let slip = SLIPS.iter().find(|s| s.0 == name);
        let (_, function, wrong) = slip.unwrap_or_else(|| panic!("no slip of the name {name}"));
        Some((*function, *wrong))
    })
}

fn answer(op: usize, table: &[i16], a: i64, b: i64) -> Answer {
    let f = &FUNCTIONS[op];
    let right = f.expected(table, a, b);
    match planted() {
        Some((function, wrong)) if *function == f.name => wrong(table, a, b, right),
        _ => right,
    }
}

fn number(op: usize, a: i64, b: i64) -> Number {
    let Answer { refusal, x, .. } = answer(op, &[], a, b);
    Number { value: x, refusal }
}

fn numbers(op: usize, table: &[i16], a: i64, b: i64) -> Numbers {
    let Answer { refusal, x, y } = answer(op, table, a, b);
    Numbers { first: x, second: y, refusal }
}

#[no_mangle]
pub extern "C" fn sv_round_shift(v: i64, s: u32) -> Number {
    number(0, v, i64::from(s))
}

#[no_mangle]
pub extern "C" fn sv_sat16(v: i64) -> Number {
    number(1, v, 0)
}

#[no_mangle]
pub extern "C" fn sv_sat127(v: i64) -> Number {
    number(2, v, 0)
}

#[no_mangle]
pub extern "C" fn sv_sat32(v: i64) -> Number {
    number(3, v, 0)
}

#[no_mangle]
pub extern "C" fn sv_mag_approx(re: i64, im: i64) -> Number {
    number(4, re, im)
}

#[no_mangle]
pub extern "C" fn sv_cordic(re: i64, im: i64) -> Numbers {
    numbers(5, &[], re, im)
}

#[no_mangle]
pub extern "C" fn sv_cordic_scale(re: i64, im: i64) -> Numbers {
    numbers(6, &[], re, im)
}

#[no_mangle]
pub extern "C" fn sv_signed_angle(a: u32) -> i64 {
    number(7, i64::from(a), 0).value
}

/// # Safety
/// `table` points to `len` entries (both lookups).
#[no_mangle]
pub unsafe extern "C" fn sv_cos_sin_trunc(table: *const i16, len: usize, a: u32) -> Numbers {
    numbers(8, std::slice::from_raw_parts(table, len), i64::from(a), 0)
}

/// # Safety
/// As above.
#[no_mangle]
pub unsafe extern "C" fn sv_cos_sin_round(table: *const i16, len: usize, a: u32) -> Numbers {
    numbers(9, std::slice::from_raw_parts(table, len), i64::from(a), 0)
}

#[no_mangle]
pub extern "C" fn sv_div_round(a: i64, b: i64) -> Number {
    number(10, a, b)
}
