//! What goes to the replay program and comes back: 24 numbers for each call and each answer. README.md has the list. A
//! field takes the low bits of its number, as many as it has.

use crate::inputs::Random;

pub use crate::stage::Numbers;

/// Entries that the program has: one more than a call takes, so that too many can be lent.
pub const TABLE: usize = 1_025;
pub const STORE: usize = 18_593;

#[derive(Clone, Copy, PartialEq, Eq, Debug)]
pub enum Word {
    Ssync,
    Fsync,
    NotFsync,
}

/// The angle of the last Ssync head, and the differences since the last setting.
#[derive(Clone, Copy, PartialEq, Eq, Debug)]
pub struct Steps {
    pub last: u32,
    pub sum: i64,
    pub steps: u32,
}

#[derive(Clone, Copy, PartialEq, Eq, Debug)]
pub struct Nco {
    pub phase: u32,
    pub freq: i32,
    pub trail: Option<Steps>,
}

#[derive(Clone, Copy, PartialEq, Eq, Debug)]
pub struct Head {
    pub at: u64,
    pub word: Word,
    pub theta: u32,
    pub amp: i64,
    /// Slot number and frame.
    pub slot: Option<(u8, u32)>,
    pub corr: [i32; 2],
    pub nco_phase: u32,
}

/// The current slot's head, and how many of its symbols came.
#[derive(Clone, Copy, PartialEq, Eq, Debug)]
pub struct Held {
    pub head: Head,
    pub count: u32,
}

pub type Phase = Option<Held>;

/// A slot to correct.
#[derive(Clone, Copy, PartialEq, Eq, Debug)]
pub struct Whole {
    pub head: Head,
    pub next: Head,
    pub delta: i64,
    pub gain: i64,
    pub gamma: i64,
}

#[derive(Clone, Copy, PartialEq, Eq, Debug)]
pub struct Corrected {
    pub at: u64,
    pub word: Word,
    pub slot: Option<(u8, u32)>,
    pub j: u16,
    pub r: [i16; 2],
    pub phi: u32,
    pub gain: i64,
    pub y: [i16; 2],
}

/// `table` and `store` are how many entries are lent. A head makes three calls: one answers the state afterwards, one the
/// slot that is due, one that slot's next head. Of a slot's next head only `at` and `amp` go with a correction.
#[derive(Clone, Copy, PartialEq, Eq, Debug)]
pub enum Call {
    TableDigest,
    StoreDigest,
    NcoNew { freq: i32 },
    Rotate { nco: Nco, x: [i8; 2], table: u64 },
    Hear { nco: Nco, head: Head },
    NcoRestart { nco: Nco },
    Gain { amp: i64 },
    New,
    Restart { phase: Phase },
    Head { phase: Phase, head: Head },
    Due { phase: Phase, head: Head },
    Next { phase: Phase, head: Head },
    Correct { slot: Whole, j: u64, table: u64, store: u64 },
    Push { phase: Phase, r: [i16; 2], store: u64 },
    SetTable { k: u64, v: i16 },
    SetStore { k: u64, v: i16 },
}

/// First the refusal, or 0. Behind a carrier stand a symbol's two parts, or whether the step was set.
#[derive(Clone, Copy, PartialEq, Eq, Debug)]
pub enum Answer {
    Single(u8, u64),
    Nco(u8, Nco, [i64; 2]),
    Phase(u8, Phase),
    Due(u8, Option<Whole>),
    Next(u8, Option<Head>),
    Corrected(Corrected),
}

impl Answer {
    pub fn refusal(&self) -> u8 {
        match *self {
            Answer::Single(n, _)
            | Answer::Nco(n, ..)
            | Answer::Phase(n, _)
            | Answer::Due(n, _)
            | Answer::Next(n, _) => n,
            Answer::Corrected(_) => 0,
        }
    }

    pub fn numbers(&self) -> Numbers {
        let mut row = Row::new(self.refusal().into());
        match *self {
            Answer::Single(_, v) => row.put(v),
            Answer::Nco(_, nco, more) => {
                row.nco(&nco);
                row.all(more.map(|v| v as u64));
            }
            Answer::Phase(_, phase) => row.phase(&phase),
            Answer::Due(_, due) => {
                row.put(due.is_some().into());
                if let Some(slot) = due {
                    row.head(&slot.head);
                    row.all([slot.delta, slot.gain, slot.gamma].map(|v| v as u64));
                }
            }
            Answer::Next(_, next) => {
                row.put(next.is_some().into());
                next.iter().for_each(|head| row.head(head));
            }
            Answer::Corrected(c) => row.corrected(&c),
        }
        row.numbers
    }
}

/// Numbers, filled from the front.
pub(crate) struct Row {
    pub(crate) numbers: Numbers,
    used: usize,
}

impl Row {
    pub(crate) fn new(first: u64) -> Self {
        let mut row = Self { numbers: [0; 24], used: 0 };
        row.put(first);
        row
    }

    pub(crate) fn put(&mut self, v: u64) {
        self.numbers[self.used] = v;
        self.used += 1;
    }

    pub(crate) fn all(&mut self, numbers: impl IntoIterator<Item = u64>) {
        numbers.into_iter().for_each(|v| self.put(v));
    }

    pub(crate) fn pair(&mut self, pair: [i16; 2]) {
        self.all(pair.map(|v| i64::from(v) as u64));
    }

    /// Parts of a correlation.
    pub(crate) fn corr(&mut self, corr: [i32; 2]) {
        self.all(corr.map(|v| i64::from(v) as u64));
    }

    /// Eight bytes a number, the first lowest.
    pub(crate) fn bytes(&mut self, bytes: impl IntoIterator<Item = u8>) {
        let bytes: Vec<u8> = bytes.into_iter().collect();
        self.all(bytes.chunks(8).map(|b| (0..).zip(b).map(|(k, &v)| u64::from(v) << (8 * k)).sum()));
    }

    /// Four numbers of 16 bits in each.
    pub(crate) fn sixteens(&mut self, numbers: &[i16]) {
        self.bytes(numbers.iter().flat_map(|v| v.to_le_bytes()));
    }

    pub(crate) fn nco(&mut self, nco: &Nco) {
        self.put(nco.phase.into());
        self.put(i64::from(nco.freq) as u64);
        self.put(nco.trail.is_some().into());
        let Steps { last, sum, steps } = nco.trail.unwrap_or(Steps { last: 0, sum: 0, steps: 0 });
        self.all([last.into(), sum as u64, steps.into()]);
    }

    pub(crate) fn slot(&mut self, slot: Option<(u8, u32)>) {
        let (number, frame) = slot.unwrap_or((0, 0));
        self.all([slot.is_some().into(), number.into(), frame.into()]);
    }

    pub(crate) fn head(&mut self, head: &Head) {
        self.put(head.at);
        self.put(head.word as u64);
        self.put(head.theta.into());
        self.put(head.amp as u64);
        self.slot(head.slot);
        self.corr(head.corr);
        self.put(head.nco_phase.into());
    }

    /// What is kept of a corrected symbol while it waits.
    pub(crate) fn place(&mut self, c: &Corrected) {
        self.put(c.at);
        self.put(c.word as u64);
        self.slot(c.slot);
        self.put(c.j.into());
    }

    pub(crate) fn corrected(&mut self, c: &Corrected) {
        self.place(c);
        self.pair(c.r);
        self.put(c.phi.into());
        self.put(c.gain as u64);
        self.pair(c.y);
    }

    /// Without a slot nothing but that is put.
    pub(crate) fn phase(&mut self, phase: &Phase) {
        self.put(phase.is_some().into());
        if let Some(Held { head, count }) = phase {
            self.head(head);
            self.put((*count).into());
        }
    }
}

/// Reads fields from the front.
pub(crate) struct Fields<'a> {
    numbers: &'a Numbers,
    used: usize,
}

impl<'a> Fields<'a> {
    /// Behind the number that tells which call it is.
    pub(crate) fn of_call(numbers: &'a Numbers) -> Self {
        Self { numbers, used: 1 }
    }

    pub(crate) fn get(&mut self) -> u64 {
        self.used += 1;
        self.numbers[self.used - 1]
    }

    pub(crate) fn flag(&mut self) -> bool {
        self.get() != 0
    }

    /// As many bytes, eight to a number.
    pub(crate) fn bytes<const N: usize>(&mut self) -> [u8; N] {
        let numbers: Vec<u64> = (0..N.div_ceil(8)).map(|_| self.get()).collect();
        std::array::from_fn(|k| numbers[k / 8].to_le_bytes()[k % 8])
    }

    pub(crate) fn sixteens<const N: usize>(&mut self) -> [i16; N] {
        let numbers: Vec<u64> = (0..N.div_ceil(4)).map(|_| self.get()).collect();
        std::array::from_fn(|k| (numbers[k / 4] >> (16 * (k % 4))) as i16)
    }

    pub(crate) fn corr(&mut self) -> [i32; 2] {
        [self.get() as i32, self.get() as i32]
    }

    pub(crate) fn nco(&mut self) -> Nco {
        let (phase, freq, known) = (self.get() as u32, self.get() as i32, self.flag());
        let steps = Steps { last: self.get() as u32, sum: self.get() as i64, steps: self.get() as u32 };
        Nco { phase, freq, trail: known.then_some(steps) }
    }

    fn word(&mut self) -> Word {
        [Word::Ssync, Word::Fsync, Word::NotFsync][self.get().min(2) as usize]
    }

    pub(crate) fn slot(&mut self) -> Option<(u8, u32)> {
        let known = self.flag();
        let slot = (self.get() as u8, self.get() as u32);
        known.then_some(slot)
    }

    fn pair(&mut self) -> [i16; 2] {
        [self.get() as i16, self.get() as i16]
    }

    /// What is kept of a corrected symbol while it waits.
    pub(crate) fn place(&mut self) -> Corrected {
        let (at, word, slot, j) = (self.get(), self.word(), self.slot(), self.get() as u16);
        Corrected { at, word, slot, j, r: [0; 2], phi: 0, gain: 0, y: [0; 2] }
    }

    pub(crate) fn corrected(&mut self) -> Corrected {
        let place = self.place();
        let (r, phi, gain) = (self.pair(), self.get() as u32, self.get() as i64);
        Corrected { r, phi, gain, y: self.pair(), ..place }
    }

    fn head(&mut self) -> Head {
        let at = self.get();
        let word = self.word();
        let (theta, amp) = (self.get() as u32, self.get() as i64);
        let (slot, corr) = (self.slot(), self.corr());
        Head { at, word, theta, amp, slot, corr, nco_phase: self.get() as u32 }
    }

    pub(crate) fn phase(&mut self) -> Phase {
        let known = self.flag();
        let held = Held { head: self.head(), count: self.get() as u32 };
        known.then_some(held)
    }
}

/// What a number of a call is read as.
#[derive(Clone, Copy)]
pub(crate) enum Field {
    Bits(u32),
    Flag,
    /// A number below this one, or any other.
    Choice(u64),
    Unread,
}

/// The same call in other numbers: something above each field, another number for a flag that is on, and anything where
/// nothing is read.
pub(crate) fn disguised(mut numbers: Numbers, fields: &[Field], random: &mut Random) -> Numbers {
    let mut read = fields.iter();
    for number in &mut numbers[1..] {
        let noise = random.next();
        *number = match read.next() {
            Some(Field::Bits(64)) => *number,
            Some(Field::Bits(n)) => *number & ((1 << n) - 1) | noise << n,
            Some(Field::Flag) if *number == 0 => 0,
            Some(Field::Flag) => noise.max(1),
            Some(Field::Choice(n)) if *number < *n => *number,
            Some(Field::Choice(n)) => noise.max(*n),
            Some(Field::Unread) | None => noise,
        };
    }
    numbers
}

/// Ssync, Fsync, otherwise NotFsync.
pub(crate) const WORD: Field = Field::Choice(2);
pub(crate) const HEAD: [Field; 10] = [
    Field::Bits(64),
    WORD,
    Field::Bits(32),
    Field::Bits(64),
    Field::Flag,
    Field::Bits(8),
    Field::Bits(32),
    Field::Bits(32),
    Field::Bits(32),
    Field::Bits(32),
];
pub(crate) const NCO: [Field; 6] =
    [Field::Bits(32), Field::Bits(32), Field::Flag, Field::Bits(32), Field::Bits(64), Field::Bits(32)];

/// Of a slot phase.
pub(crate) fn phase_fields() -> Vec<Field> {
    [&[Field::Flag][..], &HEAD, &[Field::Bits(32)]].concat()
}

impl Call {
    fn op(&self) -> u64 {
        match self {
            Call::TableDigest => 0,
            Call::StoreDigest => 1,
            Call::NcoNew { .. } => 2,
            Call::Rotate { .. } => 3,
            Call::Hear { .. } => 4,
            Call::NcoRestart { .. } => 5,
            Call::Gain { .. } => 6,
            Call::New => 7,
            Call::Restart { .. } => 8,
            Call::Head { .. } => 9,
            Call::Due { .. } => 10,
            Call::Next { .. } => 11,
            Call::Correct { .. } => 12,
            Call::Push { .. } => 13,
            Call::SetTable { .. } => 14,
            Call::SetStore { .. } => 15,
        }
    }

    pub fn numbers(&self) -> Numbers {
        let mut row = Row::new(self.op());
        match *self {
            Call::TableDigest | Call::StoreDigest | Call::New => {}
            Call::NcoNew { freq } => row.put(i64::from(freq) as u64),
            Call::Rotate { nco, x, table } => {
                row.nco(&nco);
                row.all(x.map(|v| i64::from(v) as u64));
                row.put(table);
            }
            Call::Hear { nco, head } => {
                row.nco(&nco);
                row.head(&head);
            }
            Call::NcoRestart { nco } => row.nco(&nco),
            Call::Gain { amp } => row.put(amp as u64),
            Call::Restart { phase } => row.phase(&phase),
            Call::Head { phase, head } | Call::Due { phase, head } | Call::Next { phase, head } => {
                row.phase(&phase);
                row.used = 13;
                row.head(&head);
            }
            Call::Correct { slot, j, table, store } => {
                row.head(&slot.head);
                row.all([slot.next.at, slot.next.amp as u64]);
                row.all([slot.delta, slot.gain, slot.gamma].map(|v| v as u64));
                row.all([j, table, store]);
            }
            Call::Push { phase, r, store } => {
                row.phase(&phase);
                row.used = 13;
                row.pair(r);
                row.put(store);
            }
            Call::SetTable { k, v } | Call::SetStore { k, v } => row.all([k, i64::from(v) as u64]),
        }
        row.numbers
    }

    /// None for a call that there is not.
    pub fn of_numbers(numbers: &Numbers) -> Option<Self> {
        let mut f = Fields::of_call(numbers);
        Some(match numbers[0] {
            0 => Call::TableDigest,
            1 => Call::StoreDigest,
            2 => Call::NcoNew { freq: f.get() as i32 },
            3 => Call::Rotate { nco: f.nco(), x: [f.get() as i8, f.get() as i8], table: f.get() },
            4 => Call::Hear { nco: f.nco(), head: f.head() },
            5 => Call::NcoRestart { nco: f.nco() },
            6 => Call::Gain { amp: f.get() as i64 },
            7 => Call::New,
            8 => Call::Restart { phase: f.phase() },
            9 => Call::Head { phase: f.phase(), head: f.head() },
            10 => Call::Due { phase: f.phase(), head: f.head() },
            11 => Call::Next { phase: f.phase(), head: f.head() },
            12 => {
                let head = f.head();
                let next = Head { at: f.get(), amp: f.get() as i64, ..head };
                let [delta, gain, gamma] = [f.get(), f.get(), f.get()].map(|v| v as i64);
                let slot = Whole { head, next, delta, gain, gamma };
                Call::Correct { slot, j: f.get(), table: f.get(), store: f.get() }
            }
            13 => Call::Push { phase: f.phase(), r: [f.get() as i16, f.get() as i16], store: f.get() },
            14 => Call::SetTable { k: f.get(), v: f.get() as i16 },
            15 => Call::SetStore { k: f.get(), v: f.get() as i16 },
            _ => return None,
        })
    }

    /// What each number is read as, from number 1 on; those behind are not read.
    fn fields(&self) -> Vec<Field> {
        const WIDE: Field = Field::Bits(64);
        let phase = phase_fields();
        match self {
            Call::TableDigest | Call::StoreDigest | Call::New => vec![],
            Call::NcoNew { .. } => vec![Field::Bits(32)],
            Call::Rotate { .. } => [&NCO[..], &[Field::Bits(8), Field::Bits(8), WIDE]].concat(),
            Call::Hear { .. } => [&NCO[..], &HEAD].concat(),
            Call::NcoRestart { .. } => NCO.to_vec(),
            Call::Gain { .. } => vec![WIDE],
            Call::Restart { .. } => phase,
            Call::Head { .. } | Call::Due { .. } | Call::Next { .. } => [&phase[..], &HEAD].concat(),
            Call::Correct { .. } => [&HEAD[..], &[WIDE; 8]].concat(),
            Call::Push { .. } => [&phase[..], &[Field::Bits(16), Field::Bits(16), WIDE]].concat(),
            Call::SetTable { .. } | Call::SetStore { .. } => vec![WIDE, Field::Bits(16)],
        }
    }

    /// As `disguised` says.
    pub fn in_disguise(&self, random: &mut Random) -> Numbers {
        disguised(self.numbers(), &self.fields(), random)
    }
}
