//! Stands for the crate `isdbs3_core`. constellation.rs is the original, unchanged; the rest is ours.

pub mod constellation;
pub mod params;
pub mod slots;

/// Pilot signs: all positive.
pub mod dispersal {
    use crate::params::{PILOT_SYMBOLS, SLOTS};

    pub fn pilot_signs() -> Vec<i8> {
        vec![1; SLOTS * PILOT_SYMBOLS]
    }
}

/// No interleaving: soft bits stay in the order of the symbols.
pub mod interleave {
    use crate::params::{CodeRate, Modulation, N_LDPC};

    pub fn permutation(_: Modulation, _: CodeRate) -> Vec<u32> {
        (0..N_LDPC as u32).collect()
    }
}

/// No code: the decoder of the shims takes hard decisions.
pub mod ldpc {
    pub struct Code;

    pub fn code(_: crate::params::CodeRate) -> &'static Code {
        &Code
    }
}

/// No TMCC: its contents are never looked at.
pub mod tmcc {
    pub const DATA_BITS: usize = 9_614;
    pub const NULL_HEAD: usize = 1_870;
    pub const NULL_TAIL: usize = 11_330;

    #[derive(Debug, Clone, PartialEq, Eq)]
    pub struct TmccInfo;

    impl TmccInfo {
        pub fn parse(_: &[u8]) -> Self {
            Self
        }
    }

    pub fn disperse(_: &mut [u8]) {}
}
