//! The eleven functions of chain/fx.rs: which calls document 01 refuses, and what the Rust answers to
//! all others. Nothing here knows the port.

use crate::stage::slipped;
use isdbs3_phy::chain::fx as rust;
use std::sync::OnceLock;

/// A refusal's number, or 0 and the answer. An answer of one number has y = 0.
#[derive(Clone, Copy, PartialEq, Eq, Debug)]
pub struct Answer {
    pub refusal: u8,
    pub x: i64,
    pub y: i64,
}

impl Answer {
    pub fn one(x: impl Into<i64>) -> Self {
        Self::two(x, 0)
    }

    pub fn two(x: impl Into<i64>, y: impl Into<i64>) -> Self {
        Self { refusal: 0, x: x.into(), y: y.into() }
    }

    pub fn refused(refusal: u8) -> Self {
        Self { refusal, x: 0, y: 0 }
    }
}

/// What an argument stands for: decides its refusal and where its limits lie.
#[derive(Clone, Copy, PartialEq, Eq)]
pub enum Kind {
    Unused,
    /// A u32.
    Angle,
    /// A u32.
    Shift,
    Divisor,
    Cordic,
    /// Any other i64.
    Wide,
}

/// Document 01's figures. A slip is another one.
#[derive(Clone)]
struct Limits {
    shift: i64,
    divisor: i64,
    cordic: u64,
    wide: u64,
    /// Entries of the table, at least and at most, and the number of its refusal.
    table: [usize; 2],
    no_table: u8,
}

const LIMITS: Limits = Limits { shift: 60, divisor: 1, cordic: 1 << 22, wide: 1 << 60, table: [1_024; 2], no_table: 3 };

/// Slips of these figures, planted by name in both sides at once (slip.sh): only the Rust, or what `ASKED` names, can show them.
const SLIPS: [(&str, fn(&mut Limits)); 7] = [
    ("limit_of_61_for_shifts", |l| l.shift = 61),
    ("divisor_0_in_range", |l| l.divisor = 0),
    ("cordic_input_of_2_22_in_range", |l| l.cordic = (1 << 22) + 1),
    ("limit_of_2_61", |l| l.wide = 1 << 61),
    ("limit_below_2_60", |l| l.wide = (1 << 60) - 1),
    ("table_of_1025_in_range", |l| l.table[1] = 1_025),
    ("table_is_arithmetic", |l| l.no_table = 6),
];

fn limits() -> &'static Limits {
    static CHOSEN: OnceLock<Limits> = OnceLock::new();
    CHOSEN.get_or_init(|| slipped(LIMITS, &SLIPS, "SLIP_IN_MODEL"))
}

impl Kind {
    /// Document 01, refusal table, place "arithmetic".
    fn refused(self, v: i64) -> bool {
        let wide = v.unsigned_abs() > limits().wide;
        match self {
            Kind::Unused | Kind::Angle => false,
            Kind::Shift => v > limits().shift,
            Kind::Divisor => v < limits().divisor || wide,
            Kind::Cordic => v.unsigned_abs() >= limits().cordic,
            Kind::Wide => wide,
        }
    }
}

pub struct Function {
    pub name: &'static str,
    pub takes_table: bool,
    pub kinds: [Kind; 2],
    rust: fn(&[i16], i64, i64) -> Answer,
}

impl Function {
    /// Document 01, refusal table: the places from top to bottom.
    fn refusal(&self, table: &[i16], a: i64, b: i64) -> u8 {
        let [least, most] = limits().table;
        if self.takes_table && !(least..=most).contains(&table.len()) {
            limits().no_table
        } else if self.kinds[0].refused(a) || self.kinds[1].refused(b) {
            6
        } else {
            0
        }
    }

    pub fn expected(&self, table: &[i16], a: i64, b: i64) -> Answer {
        match self.refusal(table, a, b) {
            0 => (self.rust)(table, a, b),
            n => Answer::refused(n),
        }
    }
}

const fn plain(name: &'static str, kinds: [Kind; 2], rust: fn(&[i16], i64, i64) -> Answer) -> Function {
    Function { name, takes_table: false, kinds, rust }
}

const fn lookup(name: &'static str, rust: fn(&[i16], i64, i64) -> Answer) -> Function {
    Function { name, takes_table: true, kinds: [Kind::Angle, Kind::Unused], rust }
}

/// In the order of the replay program's operations. An argument that is a u32 comes as its i64.
pub const FUNCTIONS: [Function; 11] = [
    plain("round_shift", [Kind::Wide, Kind::Shift], |_, v, s| Answer::one(rust::round_shift(v, s as u32))),
    plain("sat16", [Kind::Wide, Kind::Unused], |_, v, _| Answer::one(rust::sat16(v))),
    plain("sat127", [Kind::Wide, Kind::Unused], |_, v, _| Answer::one(rust::sat127(v))),
    plain("sat32", [Kind::Wide, Kind::Unused], |_, v, _| Answer::one(rust::sat32(v))),
    plain("mag_approx", [Kind::Wide, Kind::Wide], |_, re, im| Answer::one(rust::mag_approx(re, im))),
    plain("cordic", [Kind::Cordic, Kind::Cordic], |_, re, im| {
        let (angle, size) = rust::cordic(re, im);
        Answer::two(angle, size)
    }),
    plain("cordic_scale", [Kind::Wide, Kind::Wide], |_, re, im| {
        let (re, im) = rust::cordic_scale(re, im);
        Answer::two(re, im)
    }),
    plain("signed_angle", [Kind::Angle, Kind::Unused], |_, a, _| Answer::one(rust::signed_angle(a as u32))),
    lookup("cos_sin_trunc", |table, a, _| {
        let (cos, sin) = rust::cos_sin_trunc(table, a as u32);
        Answer::two(cos, sin)
    }),
    lookup("cos_sin_round", |table, a, _| {
        let (cos, sin) = rust::cos_sin_round(table, a as u32);
        Answer::two(cos, sin)
    }),
    plain("div_round", [Kind::Wide, Kind::Divisor], |_, a, b| Answer::one(rust::div_round(a, b))),
];

/// Calls with the number that document 01's table gives, whatever is stated above: function, entries of the table, arguments, refusal or 0.
pub const ASKED: [(&str, usize, i64, i64, u8); 37] = {
    const WIDE: i64 = 1 << 60;
    const CORDIC: i64 = 1 << 22;
    [
        ("round_shift", 0, 3, 60, 0),
        ("round_shift", 0, 3, 61, 6),
        ("round_shift", 0, WIDE, 1, 0),
        ("round_shift", 0, WIDE + 1, 1, 6),
        ("round_shift", 0, -WIDE - 1, 0, 6),
        ("sat16", 0, WIDE, 0, 0),
        ("sat16", 0, -WIDE - 1, 0, 6),
        ("sat127", 0, -WIDE, 0, 0),
        ("sat127", 0, WIDE + 1, 0, 6),
        ("sat32", 0, WIDE, 0, 0),
        ("sat32", 0, WIDE + 1, 0, 6),
        ("mag_approx", 0, WIDE, -WIDE, 0),
        ("mag_approx", 0, WIDE + 1, 0, 6),
        ("mag_approx", 0, 0, -WIDE - 1, 6),
        ("cordic", 0, CORDIC - 1, 1 - CORDIC, 0),
        ("cordic", 0, CORDIC, 0, 6),
        ("cordic", 0, 0, -CORDIC, 6),
        ("cordic_scale", 0, WIDE, -WIDE, 0),
        ("cordic_scale", 0, WIDE + 1, 0, 6),
        ("cordic_scale", 0, 0, -WIDE - 1, 6),
        ("signed_angle", 0, 1 << 31, 0, 0),
        ("cos_sin_trunc", 1_024, 0, 0, 0),
        ("cos_sin_trunc", 1_023, 0, 0, 3),
        ("cos_sin_trunc", 1_025, 0, 0, 3),
        ("cos_sin_trunc", 0, 0, 0, 3),
        ("cos_sin_round", 1_024, 7, 0, 0),
        ("cos_sin_round", 1_023, 7, 0, 3),
        ("cos_sin_round", 1_025, 7, 0, 3),
        ("cos_sin_round", 2_048, 7, 0, 3),
        ("div_round", 0, 1, 1, 0),
        ("div_round", 0, 1, 0, 6),
        ("div_round", 0, 1, -1, 6),
        ("div_round", 0, WIDE, WIDE, 0),
        ("div_round", 0, WIDE + 1, 1, 6),
        ("div_round", 0, 1, WIDE + 1, 6),
        ("div_round", 0, i64::MIN, 1, 6),
        ("div_round", 0, 1, i64::MAX, 6),
    ]
};
