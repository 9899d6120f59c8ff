//! Stands for main_signal.rs: what chain/frame.rs takes from it, without BCH and dispersal.

use isdbs3_core::slots::Slot;

/// Slot, LDPC iterations, bits.
pub type Decoded = (usize, Option<usize>, Vec<u8>);

pub struct Finished {
    pub ldpc_iterations: Option<usize>,
    pub bch_corrected: Option<usize>,
    pub header: Vec<u8>,
    pub data: Vec<u8>,
}

pub fn finish_frame(decoded: Vec<Decoded>, _: &[Slot]) -> Vec<Finished> {
    let finish =
        |(_, ldpc_iterations, data)| Finished { ldpc_iterations, bch_corrected: Some(0), header: Vec::new(), data };
    decoded.into_iter().map(finish).collect()
}
