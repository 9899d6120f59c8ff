//! The correlation's C function, made as those of stand_in.rs are.

use super::soft::slip_named;
use super::{accepted, Numbers};
use cases::fx::Answer;
use cases::sync::correlate::Correlate;

#[repr(C)]
pub struct Window {
    x: [i16; 48],
}

#[repr(C)]
pub struct OneWord {
    w: [i8; 48],
}

/// Each slip of `correlate`, as above.
const CORRELATE_SLIPS: [(&str, &str, fn(&Correlate, Answer) -> Answer); 5] = [
    ("conj_of_the_window", "correlate", |_, a| Answer { y: -a.y, ..a }),
    ("last_symbol_left_out", "correlate", |c, a| accepted(a, || without_the_last(c))),
    ("sum_cut_to_16_bits", "correlate", |_, a| Answer { x: (a.x as i16).into(), ..a }),
    ("last_entry_not_tested", "correlate", |c, a| if wrong_at_the_end(c) { Answer::two(0, 0) } else { a }),
    ("entry_of_2_taken", "correlate", |c, a| if c.word.contains(&2) { Answer::two(0, 0) } else { a }),
];

fn without_the_last(c: &Correlate) -> Answer {
    let mut c = *c;
    c.window[46..].fill(0);
    c.expected()
}

fn wrong_at_the_end(c: &Correlate) -> bool {
    c.word[47].unsigned_abs() != 1 && c.word[..47].iter().all(|one| one.unsigned_abs() == 1)
}

#[no_mangle]
pub extern "C" fn sv_correlate(window: Window, word: OneWord) -> Numbers {
    let c = Correlate { window: window.x, word: word.w };
    let right = c.expected();
    let Answer { refusal, x, y } = slip_named(&CORRELATE_SLIPS, "correlate").map_or(right, |slip| slip(&c, right));
    Numbers { first: x, second: y, refusal }
}
