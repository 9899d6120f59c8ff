//! Stands for chain/ldpc.rs: hard decisions, no correction.

use isdbs3_core::ldpc::Code;

pub struct Done {
    pub iterations: usize,
}

pub type Decoded = (Result<Done, Done>, Vec<u8>);

pub trait LdpcDecoder {
    fn decode(&mut self, code: &'static Code, words: &[&[i8]]) -> Vec<Decoded>;
}

pub struct FixedLdpc;

impl FixedLdpc {
    pub fn new() -> Self {
        Self
    }
}

impl LdpcDecoder for FixedLdpc {
    fn decode(&mut self, _: &'static Code, words: &[&[i8]]) -> Vec<Decoded> {
        let hard = |w: &&[i8]| w.iter().map(|&soft| u8::from(soft < 0)).collect();
        words.iter().map(|w| (Ok(Done { iterations: 0 }), hard(w))).collect()
    }
}
