//! What goes to the replay program and comes back: 24 numbers for each call and each answer. README.md has the list. A
//! field takes the low bits of its number, as many as it has.

use crate::inputs::Random;
use crate::phase::calls::{disguised, Field};

pub use crate::stage::Numbers;

/// Eleven pairs, real part before imaginary part.
pub type Pairs = [i16; 22];

/// Upper entries row by row, and right-hand entries, in pairs.
#[derive(Clone, Copy, PartialEq, Eq, Debug)]
pub struct Sums {
    pub frame: u32,
    pub count: u32,
    pub r: [i64; 132],
    pub p: [i64; 22],
}

/// Sums that are not open may hold anything.
#[derive(Clone, Copy, PartialEq, Eq, Debug)]
pub struct Equaliser {
    pub line: Pairs,
    pub filled: u32,
    pub taps: Pairs,
    pub from: Option<u32>,
    pub opened: bool,
    pub sums: Sums,
}

/// A put replaces numbers of the equaliser that the program keeps: line, taps, single numbers, 22 numbers of the upper
/// entries, the right-hand entries. `Keep` makes its sums those that `Solve` is asked of, as `Close` does.
#[derive(Clone, Copy, PartialEq, Eq, Debug)]
pub enum Call {
    Tell,
    New,
    Restart,
    Push { y: [i16; 2] },
    Output,
    Open { frame: u32 },
    Train { d: [i16; 2] },
    Close,
    Load { frame: u32, taps: Pairs },
    PutLine { line: Pairs },
    PutTaps { taps: Pairs },
    PutNumbers { filled: u32, from: Option<u32>, opened: bool, frame: u32, count: u32 },
    PutUpper { group: u64, values: [i64; 22] },
    PutRight { values: [i64; 22] },
    Keep,
    Solve,
}

fn bits(v: i16) -> u64 {
    i64::from(v) as u64
}

fn sixteens(numbers: &Numbers) -> Pairs {
    std::array::from_fn(|k| numbers[k + 2] as i16)
}

fn wides(numbers: &Numbers) -> [i64; 22] {
    std::array::from_fn(|k| numbers[k + 2] as i64)
}

impl Call {
    pub fn is_put(&self) -> bool {
        use Call::{PutLine, PutNumbers, PutRight, PutTaps, PutUpper};
        matches!(self, PutLine { .. } | PutTaps { .. } | PutNumbers { .. } | PutUpper { .. } | PutRight { .. })
    }

    fn op(&self) -> u64 {
        match self {
            Call::Tell => 0,
            Call::New => 1,
            Call::Restart => 2,
            Call::Push { .. } => 3,
            Call::Output => 4,
            Call::Open { .. } => 5,
            Call::Train { .. } => 6,
            Call::Close => 7,
            Call::Load { .. } => 8,
            Call::PutLine { .. } => 9,
            Call::PutTaps { .. } => 10,
            Call::PutNumbers { .. } => 11,
            Call::PutUpper { .. } => 12,
            Call::PutRight { .. } => 13,
            Call::Keep => 14,
            Call::Solve => 15,
        }
    }

    pub fn numbers(&self) -> Numbers {
        let mut n = [0; 24];
        n[0] = self.op();
        let mut sixteens = |l: &Pairs| l.iter().zip(&mut n[2..]).for_each(|(&v, n)| *n = bits(v));
        match *self {
            Call::PutLine { line } => sixteens(&line),
            Call::PutTaps { taps } | Call::Load { taps, .. } => sixteens(&taps),
            Call::PutUpper { values, .. } | Call::PutRight { values } => {
                n[2..].copy_from_slice(&values.map(|v| v as u64))
            }
            _ => {}
        }
        match *self {
            Call::Push { y: [i, q] } | Call::Train { d: [i, q] } => n[1..3].copy_from_slice(&[bits(i), bits(q)]),
            Call::Open { frame } | Call::Load { frame, .. } => n[1] = frame.into(),
            Call::PutUpper { group, .. } => n[1] = group,
            Call::PutNumbers { filled, from, opened, frame, count } => {
                let known = [filled.into(), from.is_some().into(), from.unwrap_or(0).into()];
                n[1..4].copy_from_slice(&known);
                n[4..7].copy_from_slice(&[opened.into(), frame.into(), count.into()]);
            }
            _ => {}
        }
        n
    }

    /// None for a call that there is not.
    pub fn of_numbers(n: &Numbers) -> Option<Self> {
        let pair = [n[1] as i16, n[2] as i16];
        let frame = n[1] as u32;
        Some(match n[0] {
            0 => Call::Tell,
            1 => Call::New,
            2 => Call::Restart,
            3 => Call::Push { y: pair },
            4 => Call::Output,
            5 => Call::Open { frame },
            6 => Call::Train { d: pair },
            7 => Call::Close,
            8 => Call::Load { frame, taps: sixteens(n) },
            9 => Call::PutLine { line: sixteens(n) },
            10 => Call::PutTaps { taps: sixteens(n) },
            11 => Call::PutNumbers {
                filled: n[1] as u32,
                from: (n[2] != 0).then_some(n[3] as u32),
                opened: n[4] != 0,
                frame: n[5] as u32,
                count: n[6] as u32,
            },
            12 => Call::PutUpper { group: n[1], values: wides(n) },
            13 => Call::PutRight { values: wides(n) },
            14 => Call::Keep,
            15 => Call::Solve,
            _ => return None,
        })
    }

    /// What each number is read as, from number 1 on; those behind are not read.
    fn fields(&self) -> Vec<Field> {
        const WORD: Field = Field::Bits(32);
        let list = |first, field| [&[first][..], &[field; 22]].concat();
        match self {
            Call::Push { .. } | Call::Train { .. } => vec![Field::Bits(16); 2],
            Call::Open { .. } => vec![WORD],
            Call::Load { .. } => list(WORD, Field::Bits(16)),
            Call::PutLine { .. } | Call::PutTaps { .. } => list(Field::Unread, Field::Bits(16)),
            Call::PutNumbers { .. } => vec![WORD, Field::Flag, WORD, Field::Flag, WORD, WORD],
            Call::PutUpper { .. } => list(Field::Bits(64), Field::Bits(64)),
            Call::PutRight { .. } => list(Field::Unread, Field::Bits(64)),
            _ => vec![],
        }
    }

    /// As `disguised` says.
    pub fn in_disguise(&self, random: &mut Random) -> Numbers {
        disguised(self.numbers(), &self.fields(), random)
    }

    /// What puts the numbers in which another state differs.
    pub fn puts(now: &Equaliser, other: &Equaliser) -> Vec<Self> {
        let mut puts = Vec::new();
        if other.line != now.line {
            puts.push(Call::PutLine { line: other.line });
        }
        if other.taps != now.taps {
            puts.push(Call::PutTaps { taps: other.taps });
        }
        let numbers = |e: &Equaliser| (e.filled, e.from, e.opened, e.sums.frame, e.sums.count);
        if numbers(other) != numbers(now) {
            let (filled, from, opened, frame, count) = numbers(other);
            puts.push(Call::PutNumbers { filled, from, opened, frame, count });
        }
        for (group, (new, old)) in (0..).zip(other.sums.r.chunks(22).zip(now.sums.r.chunks(22))) {
            if new != old {
                puts.push(Call::PutUpper { group, values: new.try_into().expect("22 numbers") });
            }
        }
        if other.sums.p != now.sums.p {
            puts.push(Call::PutRight { values: other.sums.p });
        }
        puts
    }
}
