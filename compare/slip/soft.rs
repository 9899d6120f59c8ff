//! The demapper's C functions and those of its neighbours, made as those of stand_in.rs are.

use super::{accepted, Number};
use cases::demap::soft::{self, Demap, Turner};
use cases::fx::Answer;
use std::cell::RefCell;
use std::sync::OnceLock;

/// What a demap is given, its right answer and the buffer afterwards, to wrong ones.
type SoftSlip = fn(&Demap, Answer, &mut Vec<i8>) -> Answer;

/// Each slip of a demap, as above.
const SOFT_SLIPS: [(&str, &str, SoftSlip); 6] = [
    ("least_significant_bit_first", "demap", |d, a, out| {
        out[..if a.refusal == 0 { d.bits } else { 0 }].reverse();
        a
    }),
    ("soft_to_minus_128", "demap", |d, a, out| {
        let soft = &mut out[..if a.refusal == 0 { d.bits } else { 0 }];
        soft.iter_mut().filter(|v| **v == -127).for_each(|v| *v = -128);
        a
    }),
    ("sign_turned", "demap", |d, a, out| {
        out[..if a.refusal == 0 { d.bits } else { 0 }].iter_mut().for_each(|v| *v = v.wrapping_neg());
        a
    }),
    ("rest_cleared", "demap", |d, a, out| {
        out.iter_mut().skip(if a.refusal == 0 { d.bits } else { usize::MAX }).for_each(|v| *v = 0);
        a
    }),
    ("scale_before_points", "demap", |d, a, _| {
        if a.refusal == 4 && !(0..=soft::TOP).contains(&d.k) {
            Answer::refused(5)
        } else {
            a
        }
    }),
    ("scale_2_24_refused", "demap", |d, a, out| {
        if a.refusal == 0 && d.k == soft::TOP {
            out.clone_from(&d.out);
            Answer::refused(5)
        } else {
            a
        }
    }),
];

/// Each slip of a function of one number, as above.
const NUMBER_SLIPS: [(&str, &str, fn(i64, Answer) -> Answer); 3] = [
    ("scale_toward_zero", "scale_of", |v, a| accepted(a, || Answer::one((1i64 << 32) / v.max(256)))),
    ("noise_of_255_taken", "scale_of", |v, a| {
        accepted(a, || Answer::one(((1i64 << 33) + v.max(255)) / (2 * v.max(255))))
    }),
    ("gain_a_unit_up", "gain_of", |v, a| if v == 12_345 { Answer { x: a.x + 1, ..a } } else { a }),
];

pub fn slip_named<T: Copy>(slips: &[(&'static str, &'static str, T)], function: &str) -> Option<T> {
    static NAME: OnceLock<Option<String>> = OnceLock::new();
    let name = NAME.get_or_init(|| std::env::var("SLIP").ok()).as_deref()?;
    slips.iter().find(|s| s.0 == name && s.1 == function).map(|s| s.2)
}

fn one_number(function: &str, v: i64, right: Answer) -> Number {
    let Answer { refusal, x, .. } = slip_named(&NUMBER_SLIPS, function).map_or(right, |slip| slip(v, right));
    Number { value: x, refusal }
}

#[no_mangle]
pub extern "C" fn sv_scale_of(n0: i64) -> Number {
    one_number("scale_of", n0, soft::scale_of(n0))
}

#[no_mangle]
pub extern "C" fn sv_gain_of(amp: i64) -> Number {
    one_number("gain_of", amp, soft::gain_of(amp))
}

/// # Safety
/// `points` points to `len` numbers, `out` to `room`.
#[no_mangle]
pub unsafe extern "C" fn sv_demap(
    yi: i16,
    yq: i16,
    points: *const i16,
    len: usize,
    bits: usize,
    k: i64,
    out: *mut i8,
    room: usize,
) -> Number {
    let buffer = std::slice::from_raw_parts_mut(out, room);
    let points = std::slice::from_raw_parts(points, len).to_vec();
    let d = Demap { y: [yi, yq], points, bits, k, out: buffer.to_vec() };
    let (right, mut after) = d.expected();
    let Answer { refusal, x, .. } = slip_named(&SOFT_SLIPS, "demap").map_or(right, |slip| slip(&d, right, &mut after));
    buffer.copy_from_slice(&after);
    Number { value: x, refusal }
}

#[repr(C)]
pub struct Rotation {
    phase: u32,
    i: i16,
    q: i16,
    refusal: u8,
}

/// # Safety
/// `table` points to `len` entries.
#[no_mangle]
pub unsafe extern "C" fn sv_rotate(phase: u32, freq: i32, xi: i8, xq: i8, table: *const i16, len: usize) -> Rotation {
    thread_local! {
        static TURNER: RefCell<Option<Turner>> = const { RefCell::new(None) };
    }
    let table = std::slice::from_raw_parts(table, len);
    TURNER.with_borrow_mut(|kept| {
        if len == 1_024 && kept.as_ref().is_none_or(|t| t.table() != table) {
            *kept = Some(Turner::new(table));
        }
        let turner = kept.get_or_insert_with(|| Turner::new(&[0; 1_024]));
        let r = turner.rotate(phase, freq, [xi, xq], len);
        Rotation { phase: r.phase, i: r.turned[0], q: r.turned[1], refusal: r.refusal }
    })
}
