//! The slot map's C function, made as those of stand_in.rs are.

use super::soft::slip_named;
use super::Numbers;
use cases::frame::part_of;
use cases::fx::Answer;

/// Each slip of `part`, as above.
const PLACE_SLIPS: [(&str, &str, fn(usize, Answer) -> Answer); 4] = [
    ("run_of_137", "part", |j, a| if j >= 56 && (j - 56) % 141 == 136 { Answer { x: 2, ..a } } else { a }),
    ("last_place_refused", "part", |j, a| if j == 9_295 { Answer::refused(6) } else { a }),
    ("place_past_the_end_taken", "part", |j, a| if j == 9_296 { part_of(9_295) } else { a }),
    ("place_cut_to_16_bits", "part", |j, _| part_of(j & 0xffff)),
];

#[no_mangle]
pub extern "C" fn sv_part(j: usize) -> Numbers {
    let Answer { refusal, x, y } = slip_named(&PLACE_SLIPS, "part").map_or(part_of(j), |slip| slip(j, part_of(j)));
    Numbers { first: x, second: y, refusal }
}
