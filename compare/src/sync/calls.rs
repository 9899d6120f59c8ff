//! What goes to the replay program and comes back. A call is 8 bytes: kind, n (3 bytes), value (4 bytes), least byte
//! first. A told answer is 40 numbers of 8 bytes. README.md has the list.

/// 24 pairs, I before Q.
pub type Word = [i8; 48];

pub fn pairs(w: &Word) -> [[i8; 2]; 24] {
    std::array::from_fn(|k| [w[2 * k], w[2 * k + 1]])
}

/// Places of the desk's numbers, 32 bits each; a number of 64 bits takes two, the low half first.
pub mod place {
    pub const F: u32 = 0;
    pub const S: u32 = 48;
    pub const WINDOW: u32 = 96;
    /// Also the position that `new` and `restart` name.
    pub const BASE: u32 = 144;
    pub const T: u32 = 146;
    pub const PEAK: u32 = 148;
    pub const PEAK_PLACE: u32 = 149;
    pub const SUM: u32 = 150;
    /// 0 searching, 1 locked; then candidate and count, or offset and misses.
    pub const LOCK: u32 = 152;
    /// 0 no head, 1 one held, 2 parity known.
    pub const STAGE: u32 = 155;
    pub const HELD_AT: u32 = 156;
    /// Four parts: F re, im, S re, im.
    pub const HELD: u32 = 158;
    pub const ODD: u32 = 162;
    pub const DUE: u32 = 163;
    pub const LAST_S: u32 = 164;
    pub const MAJORITY: u32 = 166;
    /// 0 unknown, 1 known; then number and frame.
    pub const SLOT: u32 = 167;
    /// 0 never, 1 a record; then its position and frame.
    pub const RECORD: u32 = 170;
    pub const MISSES: u32 = 174;
    pub const STRAY: u32 = 175;
    pub const MISSED: u32 = 176;
    /// How many accumulators are lent.
    pub const LENT: u32 = 177;
    pub const ALL: usize = 192;
}

/// Accumulators that the program has: one more than a sync takes, so that too many can be lent.
pub const STORE: usize = 9_297;

#[derive(Clone, Copy, PartialEq, Eq, Debug)]
pub enum Call {
    /// The number at this place.
    Put(u32, u32),
    /// The words of the pushes from now on, from their places.
    Words,
    New,
    /// One symbol, so many times.
    Push(u32, [i16; 2]),
    Restart,
    /// The state of the places.
    HandIn,
    /// The digest and the last answer are written.
    Tell,
    /// The accumulators go into the digest.
    Fold,
    /// The accumulator at this place.
    Set(u32, u32),
}

impl Call {
    pub fn bytes(self) -> [u8; 8] {
        let (kind, n, value) = match self {
            Call::Put(n, v) => (0, n, v),
            Call::Words => (1, 0, 0),
            Call::New => (2, 0, 0),
            Call::Push(n, [i, q]) => (3, n, u32::from(i as u16) | u32::from(q as u16) << 16),
            Call::Restart => (4, 0, 0),
            Call::HandIn => (5, 0, 0),
            Call::Tell => (6, 0, 0),
            Call::Fold => (7, 0, 0),
            Call::Set(n, v) => (8, n, v),
        };
        assert!(n < 1 << 24);
        (u64::from(value) << 32 | u64::from(n) << 8 | kind).to_le_bytes()
    }

    /// None for a kind that there is not.
    pub fn of_bytes(bytes: [u8; 8]) -> Option<Self> {
        let word = u64::from_le_bytes(bytes);
        let (n, value) = ((word >> 8) as u32 & 0xFF_FFFF, (word >> 32) as u32);
        Some(match word & 0xFF {
            0 => Call::Put(n, value),
            1 => Call::Words,
            2 => Call::New,
            3 => Call::Push(n, [value as i16, (value >> 16) as i16]),
            4 => Call::Restart,
            5 => Call::HandIn,
            6 => Call::Tell,
            7 => Call::Fold,
            8 => Call::Set(n, value),
            _ => return None,
        })
    }
}

/// One event: its kind, then its fields; zeros behind them.
pub type Row = [u64; 11];

#[derive(Clone, Copy, PartialEq, Eq, Debug)]
pub enum Kind {
    Ssync,
    Fsync,
    NotFsync,
}

#[derive(Clone, Copy, PartialEq, Eq, Debug)]
pub enum Event {
    Nothing,
    Head { at: u64, word: Kind, corr: [i32; 2], theta: u32, amp: i64, slot: Option<(u8, u32)>, nco_phase: u32 },
    Period { peak: u32, place: u16, sum: u64, locked: bool, offset: u16, parity: u8, stray: u32, missed: u32 },
    Lost { at: u64 },
}

impl Event {
    pub fn row(&self) -> Row {
        match *self {
            Event::Nothing => [0; 11],
            Event::Head { at, word, corr: [re, im], theta, amp, slot, nco_phase } => {
                let (known, number, frame) = slot.map_or((0, 0, 0), |(n, f)| (1, n.into(), f.into()));
                let (re, im) = (i64::from(re) as u64, i64::from(im) as u64);
                [1, at, word as u64, re, im, theta.into(), amp as u64, known, number, frame, nco_phase.into()]
            }
            Event::Period { peak, place, sum, locked, offset, parity, stray, missed } => [
                2,
                peak.into(),
                place.into(),
                sum,
                locked.into(),
                offset.into(),
                parity.into(),
                stray.into(),
                missed.into(),
                0,
                0,
            ],
            Event::Lost { at } => [3, at, 0, 0, 0, 0, 0, 0, 0, 0, 0],
        }
    }

    /// For a report: fields that no event has become those of the nearest.
    pub fn of_row(row: &[u64]) -> Self {
        match row[0] {
            0 => Event::Nothing,
            1 => Event::Head {
                at: row[1],
                word: [Kind::Ssync, Kind::Fsync, Kind::NotFsync][row[2].min(2) as usize],
                corr: [row[3] as i32, row[4] as i32],
                theta: row[5] as u32,
                amp: row[6] as i64,
                slot: (row[7] != 0).then_some((row[8] as u8, row[9] as u32)),
                nco_phase: row[10] as u32,
            },
            2 => Event::Period {
                peak: row[1] as u32,
                place: row[2] as u16,
                sum: row[3],
                locked: row[4] != 0,
                offset: row[5] as u16,
                parity: row[6] as u8,
                stray: row[7] as u32,
                missed: row[8] as u32,
            },
            _ => Event::Lost { at: row[1] },
        }
    }
}

/// The answer to a push, to `new` or to `restart`.
#[derive(Clone, Copy, PartialEq, Eq, Debug)]
pub struct Answer {
    pub refusal: u8,
    pub f: [i32; 2],
    pub s: [i32; 2],
    pub level: u32,
    pub events: [Event; 3],
}

impl Answer {
    pub fn refused(refusal: u8) -> Self {
        Self { refusal, f: [0; 2], s: [0; 2], level: 0, events: [Event::Nothing; 3] }
    }

    pub fn quiet(&self) -> bool {
        self.events[0] == Event::Nothing
    }

    /// With a place for the digest before it.
    pub fn numbers(&self) -> Told {
        let mut all = [0; 40];
        let part = |v: i32| i64::from(v) as u64;
        all[1] = self.refusal.into();
        all[2..7].copy_from_slice(&[
            part(self.f[0]),
            part(self.f[1]),
            part(self.s[0]),
            part(self.s[1]),
            self.level.into(),
        ]);
        for (event, row) in self.events.iter().zip(all[7..].chunks_exact_mut(11)) {
            if *event != Event::Nothing {
                row.copy_from_slice(&event.row());
            }
        }
        all
    }

    pub fn of_numbers(all: &Told) -> Self {
        Self {
            refusal: all[1] as u8,
            f: [all[2] as i32, all[3] as i32],
            s: [all[4] as i32, all[5] as i32],
            level: all[6] as u32,
            events: [7, 18, 29].map(|k| Event::of_row(&all[k..k + 11])),
        }
    }
}

/// The digest, then an answer.
pub type Told = [u64; 40];

/// One more number in a digest. The factor is odd, so a single difference never goes away.
pub fn mixed(digest: u64, number: u64) -> u64 {
    digest.wrapping_mul(2_654_435_761).wrapping_add(number)
}

/// Of entries from the first on.
pub fn digest(entries: impl IntoIterator<Item = impl Into<i64>>) -> u64 {
    entries.into_iter().fold(0, |d, v| mixed(d, v.into() as u64))
}
