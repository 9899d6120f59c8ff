//! Makes calls of carrier and slot phase to the replay program and compares all numbers of all answers, while the Rust goes
//! beside it.

use crate::stage_check::compare_stage;
use cases::inputs::Size;

pub fn compare(size: Size, seed: u64) {
    println!("comparing with the Rust's Nco in chain/sync.rs and its chain/phase.rs, seed {seed}");
    let all = compare_stage!(phase, "PHASE_REPLAY", size, seed);
    println!("{:22} {all}: no difference", "all of phase");
}
