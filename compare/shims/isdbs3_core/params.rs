//! Stands for `isdbs3_core::params`: lengths, the two words, modulations and code rates.

pub const FSYNC: u32 = 0x52_F866;
pub const SSYNC: u32 = 0x36_715A;

pub const SYNC_SYMBOLS: usize = 24;
pub const PILOT_SYMBOLS: usize = 32;
pub const RUNS: usize = 66;
pub const MAIN_RUN: usize = 136;
pub const TMCC_RUN: usize = 4;
pub const MAIN_PER_MOD_SLOT: usize = RUNS * MAIN_RUN;
pub const TMCC_PER_MOD_SLOT: usize = RUNS * TMCC_RUN;
const WHOLE_SLOT: usize = SYNC_SYMBOLS + PILOT_SYMBOLS + MAIN_PER_MOD_SLOT + TMCC_PER_MOD_SLOT;
/// The slot, or its first so many symbols if `SLOT_CUT` is set at the build: runs short enough to prove by computing.
pub const MOD_SLOT: usize = match option_env!("SLOT_CUT") {
    Some(digits) => number(digits.as_bytes()),
    None => WHOLE_SLOT,
};
pub const SLOTS: usize = 120;

pub const N_LDPC: usize = 44_880;
pub const TMCC_SIGNAL_BITS: usize = SLOTS * TMCC_PER_MOD_SLOT;
pub const TMCC_INFO_BITS: usize = 9_422;

const _: () = assert!(WHOLE_SLOT == 9_296);

const fn number(digits: &[u8]) -> usize {
    let (mut n, mut k) = (0, 0);
    while k < digits.len() {
        assert!(digits[k].is_ascii_digit());
        n = 10 * n + (digits[k] - b'0') as usize;
        k += 1;
    }
    n
}

#[derive(Debug, Clone, Copy, PartialEq, Eq, PartialOrd, Ord, Hash)]
pub enum Modulation {
    Bpsk,
    Qpsk,
    Psk8,
    Apsk16,
    Apsk32,
}

impl Modulation {
    pub fn bits(self) -> usize {
        self as usize + 1
    }
}

/// A rate of `numerator` over 120.
#[derive(Debug, Clone, Copy, PartialEq, Eq, PartialOrd, Ord, Hash)]
pub struct CodeRate(pub u8);

impl CodeRate {
    pub const TMCC: Self = Self(61);

    pub fn numerator(self) -> u8 {
        self.0
    }
}

/// Ring ratios. Not the standard's: nominal points are not ported, the caller gives them, so any
/// ratio will do as long as both sides get the same points.
pub fn gamma16(_: CodeRate) -> f64 {
    2.7
}

pub fn gamma32(_: CodeRate) -> (f64, f64) {
    (2.8, 5.2)
}
