//! The solver's C function, made of the model as the replay program's stand-in is: a slip of its rules is in both.

use super::soft::slip_named;
use cases::eq::model::Rules;
use cases::eq::slips;
use cases::eq::systems::Solution;
use std::sync::OnceLock;

#[repr(C)]
pub struct Equations {
    a: [f64; 242],
    b: [f64; 22],
}

#[repr(C)]
pub struct Unknowns {
    x: [f64; 22],
    refusal: u8,
}

/// Each slip of `solve`, as above.
const SOLVE_SLIPS: [(&str, &str, fn(Solution) -> Solution); 4] = [
    ("unknowns_left_after_refusal", "solve", |s| if s.refusal == 0 { s } else { Solution { x: [1.0; 22], ..s } }),
    ("singular_refused_by_9", "solve", |s| if s.refusal == 10 { Solution { refusal: 9, ..s } } else { s }),
    ("negative_zero_lost", "solve", |s| Solution { x: s.x.map(|v| v + 0.0), ..s }),
    ("nan_refused", "solve", |s| if s.x[0].is_nan() { Solution { refusal: 10, x: [0.0; 22] } } else { s }),
];

#[no_mangle]
pub extern "C" fn sv_solve(e: Equations) -> Unknowns {
    static RULES: OnceLock<Rules> = OnceLock::new();
    let pair = |l: &[f64], k: usize| (l[2 * k], l[2 * k + 1]);
    let entry = |row: usize, column: usize| if column < 11 { pair(&e.a, 11 * row + column) } else { pair(&e.b, row) };
    let all = std::array::from_fn(|row| std::array::from_fn(|column| entry(row, column)));
    let right = Solution::from(RULES.get_or_init(slips::of_stand_in).unknowns(all));
    let Solution { refusal, x } = slip_named(&SOLVE_SLIPS, "solve").map_or(right, |slip| slip(right));
    Unknowns { x, refusal }
}
