//! Calls of the receiver to its replay program, with all numbers of all answers compared, while the unchanged stages go beside, wired as a
//! receiver.

use crate::stage_check::compare_stage;
use cases::inputs::Size;

pub fn compare(size: Size, seed: u64) {
    println!("comparing with the Rust's stages wired as a receiver and with its Chain, seed {seed}");
    let all = compare_stage!(receiver, "RECEIVER_REPLAY", size, seed);
    println!("{:22} {all}: no difference", "all of receiver");
}
