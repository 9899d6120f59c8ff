//! Stands for phy sync.rs (the float receiver's): the names that phy eq.rs imports. `solve` uses neither.

use crate::Cplx;

pub struct SlotHead {
    pub at: usize,
    pub phase: Cplx,
}

pub fn phase_at(_: &[SlotHead], _: usize, _: usize) -> (Cplx, f64) {
    unimplemented!("the float receiver is not compared")
}
