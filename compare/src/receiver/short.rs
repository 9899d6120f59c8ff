//! Short runs for proofs by computing: calls of a receiver whose slot is cut to a few symbols.

use super::wired::{Points, Symbol};
use isdb_frontend::s3sync::Word as Signs;
use isdbs3_core::params::{FSYNC, MOD_SLOT, SSYNC, SYNC_SYMBOLS};
use isdbs3_phy::chain::sync::word_symbols;
use isdbs3_phy::eq::TAPS;
use std::f64::consts::TAU;

pub enum Call {
    /// The symbols so many times.
    Symbols(usize, Vec<[i8; 2]>),
    Points(Points),
    Taps([Symbol; TAPS], u32),
    Open(u32),
    End,
    Restart(u64),
}

pub struct Plan {
    pub name: &'static str,
    pub says: &'static str,
    pub words: [Signs; 2],
    pub table: Vec<i16>,
    pub at: u64,
    pub step: i32,
    /// Length of the soft buffer.
    pub soft: usize,
    /// What is told from so many symbols on is shown; before, it goes into the digest.
    pub from: usize,
    pub calls: Vec<Call>,
}

/// The run at this length of a slot.
pub fn plan() -> Plan {
    match MOD_SLOT {
        64 => slots(),
        24 => periods(),
        3 => markers(),
        n => panic!("no run with a slot of {n}"),
    }
}

/// The words of the standard.
fn words() -> [Signs; 2] {
    [word_symbols(FSYNC), word_symbols(SSYNC)]
}

struct Signal {
    /// Position of the first slot.
    start: usize,
    /// Slots with an F word that is negated.
    negated: &'static [usize],
    amp: f64,
    /// Carrier, in 2^-32 turns a symbol.
    turn: f64,
    noise: u32,
    seed: u32,
}

impl Signal {
    /// A number below m.
    fn random(&mut self, m: u32) -> u32 {
        self.seed = self.seed.wrapping_mul(1_664_525).wrapping_add(1_013_904_223);
        (self.seed >> 16) % m
    }

    fn sent(&mut self, t: usize) -> [f64; 2] {
        let Some(p) = t.checked_sub(self.start) else { return [0.0, 0.0] };
        let (slot, j) = (p / MOD_SLOT, p % MOD_SLOT);
        if j >= SYNC_SYMBOLS {
            return [0, 1].map(|_| if self.random(2) == 0 { -1.0 } else { 1.0 });
        }
        let sign = if self.negated.contains(&slot) { -1.0 } else { 1.0 };
        words()[1 - slot % 2][j].map(|part| f64::from(part) * if slot % 2 == 1 { sign } else { 1.0 })
    }

    /// The symbols from position a up to b.
    fn symbols(&mut self, a: usize, b: usize) -> Vec<[i8; 2]> {
        (a..b).map(|t| self.symbol(t)).collect()
    }

    fn symbol(&mut self, t: usize) -> [i8; 2] {
        let [i, q] = self.sent(t);
        let (sin, cos) = (TAU * self.turn * t as f64 / 2f64.powi(32)).sin_cos();
        let width = 2 * self.noise + 1;
        [i * cos - q * sin, q * cos + i * sin].map(|part| {
            let noise = self.random(width) as i32 - self.noise as i32;
            ((part * self.amp).round() as i32 + noise) as i8
        })
    }
}

/// Cosines in 16 steps, so that the table can be read at a glance.
fn coarse_cosines() -> Vec<i16> {
    (0..1024).map(|i| (32767.0 * (TAU * f64::from(i / 64) / 16.0).cos()).round() as i16).collect()
}

fn qpsk() -> Points {
    Points { bits: 2, points: vec![[724, 724], [-724, 724], [724, -724], [-724, -724]], k: 1 << 17 }
}

/// Not the identity: a neighbour on each side, and a turn.
fn taps() -> [Symbol; TAPS] {
    let mut taps = [[0; 2]; TAPS];
    taps[4] = [-800, 500];
    taps[5] = [16000, -1500];
    taps[6] = [600, 900];
    taps
}

/// Lock, heads of all words, three corrected slots with soft bits, training, other taps on the way.
fn slots() -> Plan {
    let mut signal = Signal { start: 10, negated: &[7], amp: 40.0, turn: 5_400_000.0, noise: 4, seed: 1 };
    let calls = vec![
        Call::Points(qpsk()),
        Call::Open(7),
        Call::Symbols(1, signal.symbols(0, 424)),
        Call::Taps(taps(), 3),
        Call::Symbols(1, signal.symbols(424, 488)),
        Call::End,
        Call::Open(8),
        Call::Symbols(1, signal.symbols(488, 552)),
        Call::End,
    ];
    Plan {
        name: "slots",
        says: "lock, heads of all words, three corrected slots with soft bits, training, other taps on the way",
        words: words(),
        table: coarse_cosines(),
        at: 1000,
        step: 5_000_000,
        soft: 20,
        from: 0,
        calls,
    }
}

/// The signal moves by 11 symbols: the lock is lost by eight other periods, found again, and given up by a restart call. Heads stand at the
/// period's last position first, so that the losing call has a head, too.
fn periods() -> Plan {
    let mut before = Signal { start: 23, negated: &[], amp: 30.0, turn: 0.0, noise: 2, seed: 1 };
    let mut after = Signal { start: 34, negated: &[], amp: 60.0, turn: 0.0, noise: 2, seed: 2 };
    let calls = vec![
        Call::Open(1),
        Call::Symbols(1, before.symbols(0, 168)),
        Call::Symbols(1, after.symbols(168, 520)),
        Call::End,
        Call::Open(2),
        Call::Symbols(1, after.symbols(520, 544)),
        Call::Restart(5000),
        Call::End,
        Call::Symbols(1, after.symbols(544, 592)),
    ];
    Plan {
        name: "periods",
        says: "a lock, its loss by eight other periods, a lock again, a restart call",
        words: words(),
        table: coarse_cosines(),
        at: 0,
        step: 0,
        soft: 0,
        from: 0,
        calls,
    }
}

/// One symbol of each slot of 3 is not zero, and 8 slots are a window. The words are such that windows at the two other places have a size
/// under 8, and that a symbol of another value in a slot of the F parity makes the head there, and no other, NotFsync.
fn marker_words() -> [Signs; 2] {
    let turns = |i: usize| if i % 2 == 0 { 1 } else { -1 };
    let f = [1, 1, -1, 1, -1, 1, -1, 1];
    let word = |first: [i8; 8]| std::array::from_fn(|k| [if k % 3 == 0 { first[k / 3] } else { turns(k / 3) }; 2]);
    [word(f), word([1; 8])]
}

/// All zero but for what such a signal needs: entry 0 leaves a symbol as it is, the others turn back those of heads at -90 and -45 degrees.
fn marker_table() -> Vec<i16> {
    let mut table = vec![0; 1024];
    for (place, value) in [(0, 2048), (512, -32767), (640, -23170), (896, 23170)] {
        table[place] = value;
    }
    table
}

/// A frame head, two frames of 120 slots without a further one, the loss at the period's last position, a lock again, and a frame head
/// that is numbered by the record. On the way the signal turns, so that the carrier's step is set to another value.
fn markers() -> Plan {
    // 8 slots, one of them perhaps with a mark: other values, or the sizes at the other places go up
    let block = |value: [i8; 2], mark: Option<(usize, [i8; 2])>| -> Vec<[i8; 2]> {
        let slot = |slot| match mark {
            Some((at, other)) if at == slot => other,
            _ => value,
        };
        (0..24).map(|t| if t % 3 == 2 { slot(t / 3) } else { [0, 0] }).collect()
    };
    let (early, late) = ([1, -1], [2, 0]);
    let calls = vec![
        Call::Symbols(2, block(early, None)),
        Call::Symbols(1, block(early, Some((1, [-2, 2])))),
        Call::Open(1),
        Call::Symbols(1, block(early, None)),
        Call::End,
        Call::Symbols(3, block(early, None)),
        Call::Symbols(27, block(late, None)),
        Call::Symbols(1, block(late, Some((2, [-3, 0])))),
        Call::Symbols(1, block(late, None)),
    ];
    Plan {
        name: "markers",
        says: "a frame head, two missed ones and the loss, a lock again, a frame head numbered by the record",
        words: marker_words(),
        table: marker_table(),
        at: 0,
        step: 0,
        soft: 0,
        from: 780,
        calls,
    }
}
