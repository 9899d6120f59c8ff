//! What goes to the replay program of the receiver: 24 numbers for each call. README.md has the list.

use super::parts::Part;
use crate::eq::calls::{Call as EqCall, Pairs};
use crate::frame::calls::Ones;
use crate::inputs::Random;
use crate::phase::calls::{disguised, Field, Fields, Numbers, Row};

/// Entries that the program has: more than a call takes, so that too many can be lent.
pub const TABLE: usize = 1_025;
pub const ACC: usize = 9_297;
pub const STORE: usize = 18_593;
pub const SOFT: usize = 50_000;

/// Bytes of the input that a feed may be given, and bytes that one call puts there.
pub const INPUT: usize = 40_000;
pub const PUT: usize = 176;

/// Symbols of one play.
pub const PLAY: usize = 72;
pub type Symbols = [[i8; 2]; PLAY];
/// Numbers that points may have in a call.
pub const POINTS: usize = 80;

/// Entries lent: of the table, the accumulators, the slot store and the soft buffer.
pub type Lent = [u64; 4];
pub const RIGHT: Lent = [1_024, 9_296, 18_592, 44_888];

#[derive(Clone, Copy, PartialEq, Eq, Debug)]
pub enum Call {
    /// A call of the receiver's equaliser: looked at, or altered.
    Eq(EqCall),
    Words([Ones; 2]),
    /// As many numbers of the points as `count` says.
    Points {
        bits: u8,
        k: i64,
        count: u64,
        points: [i16; POINTS],
    },
    Taps {
        frame: u32,
        taps: Pairs,
    },
    Open(u32),
    End,
    /// An event of the last play, in full.
    Event(u64),
    Tell(Part),
    /// A part is replaced, by the call's numbers.
    Put(Part, Numbers),
    New {
        at: u64,
        step: i32,
        acc: u64,
    },
    Restart {
        at: u64,
        acc: u64,
    },
    Look,
    SetTable {
        k: u64,
        v: i16,
    },
    /// So many symbols, one by one.
    Play {
        n: u64,
        lent: Lent,
        symbols: Symbols,
    },
    /// So many bytes of them, by one call of `feed`.
    Feed {
        n: u64,
        lent: Lent,
        symbols: Symbols,
    },
    SetAcc {
        k: u64,
        v: u32,
    },
    /// Bytes to the input, from this place on.
    PutInput {
        k: u64,
        bytes: [i8; PUT],
    },
    /// So many bytes of the input, by one call of `feed`.
    FeedInput {
        n: u64,
        lent: Lent,
    },
}

fn symbols(f: &mut Fields) -> Symbols {
    let bytes: [u8; 2 * PLAY] = f.bytes();
    std::array::from_fn(|k| [bytes[2 * k] as i8, bytes[2 * k + 1] as i8])
}

impl Call {
    fn op(&self) -> u64 {
        match self {
            Call::Eq(call) => call.numbers()[0],
            Call::Words(_) => 16,
            Call::Points { .. } => 17,
            Call::Taps { .. } => 18,
            Call::Open(_) => 19,
            Call::End => 20,
            Call::Event(_) => 21,
            Call::Tell(part) => part.op(),
            Call::Put(part, _) => part.op() + 1,
            Call::New { .. } => 64,
            Call::Restart { .. } => 65,
            Call::Look => 66,
            Call::SetTable { .. } => 67,
            Call::Play { .. } => 68,
            Call::Feed { .. } => 69,
            Call::SetAcc { .. } => 70,
            Call::PutInput { .. } => 71,
            Call::FeedInput { .. } => 72,
        }
    }

    pub fn numbers(&self) -> Numbers {
        let mut row = Row::new(self.op());
        match *self {
            Call::Eq(call) => return call.numbers(),
            Call::Put(_, numbers) => return numbers,
            Call::Words(words) => row.bytes(words.as_flattened().iter().map(|&one| one as u8)),
            Call::Points { bits, k, count, points } => {
                row.all([bits.into(), k as u64, count]);
                row.sixteens(&points);
            }
            Call::Taps { frame, taps } => {
                row.put(frame.into());
                row.all(taps.map(|v| i64::from(v) as u64));
            }
            Call::Open(n) => row.put(n.into()),
            Call::Event(n) => row.put(n),
            Call::Tell(Part::Waiting(which)) => row.all([0, 0, 0, which]),
            Call::New { at, step, acc } => row.all([at, i64::from(step) as u64, acc]),
            Call::Restart { at, acc } => row.all([at, 0, acc]),
            Call::SetTable { k, v } => row.all([k, i64::from(v) as u64]),
            Call::SetAcc { k, v } => row.all([k, v.into()]),
            Call::Play { n, lent, symbols } | Call::Feed { n, lent, symbols } => {
                row.put(n);
                row.all(lent);
                row.bytes(symbols.as_flattened().iter().map(|&x| x as u8));
            }
            Call::PutInput { k, bytes } => {
                row.put(k);
                row.bytes(bytes.map(|x| x as u8));
            }
            Call::FeedInput { n, lent } => {
                row.put(n);
                row.all(lent);
            }
            Call::End | Call::Look | Call::Tell(_) => {}
        }
        row.numbers
    }

    /// None for a call that there is not.
    pub fn of_numbers(n: &Numbers) -> Option<Self> {
        let mut f = Fields::of_call(n);
        Some(match n[0] {
            16 => Call::Words([0; 2].map(|_| f.bytes().map(|one: u8| one as i8))),
            17 => {
                let (bits, k, count) = (f.get() as u8, f.get() as i64, f.get());
                Call::Points { bits, k, count, points: f.sixteens() }
            }
            18 => Call::Taps { frame: f.get() as u32, taps: std::array::from_fn(|_| f.get() as i16) },
            19 => Call::Open(f.get() as u32),
            20 => Call::End,
            21 => Call::Event(f.get()),
            32..=45 if n[0] % 2 == 0 => Call::Tell(Part::of_call(n)?),
            32..=45 => Call::Put(Part::of_call(n)?, *n),
            64 => Call::New { at: f.get(), step: f.get() as i32, acc: f.get() },
            65 => Call::Restart { at: f.get(), acc: n[3] },
            66 => Call::Look,
            67 => Call::SetTable { k: f.get(), v: f.get() as i16 },
            68 | 69 => {
                let (count, lent) = (f.get(), [0; 4].map(|_| f.get()));
                let symbols = symbols(&mut f);
                match n[0] {
                    68 => Call::Play { n: count, lent, symbols },
                    _ => Call::Feed { n: count, lent, symbols },
                }
            }
            70 => Call::SetAcc { k: f.get(), v: f.get() as u32 },
            71 => Call::PutInput { k: f.get(), bytes: f.bytes().map(|x: u8| x as i8) },
            72 => Call::FeedInput { n: f.get(), lent: [0; 4].map(|_| f.get()) },
            _ => return EqCall::of_numbers(n).map(Call::Eq),
        })
    }

    /// What each number is read as, from number 1 on; those behind are not read.
    fn fields(&self) -> Vec<Field> {
        const WIDE: Field = Field::Bits(64);
        match self {
            Call::Words(_) => vec![WIDE; 12],
            Call::Points { .. } => [&[Field::Bits(8)][..], &[WIDE; 22]].concat(),
            Call::Taps { .. } => [&[Field::Bits(32)][..], &[Field::Bits(16); 22]].concat(),
            Call::Open(_) => vec![Field::Bits(32)],
            Call::Event(_) => vec![Field::Choice(2)],
            Call::Tell(part) => part.told_fields(),
            Call::Put(part, numbers) => part.put_fields(numbers),
            Call::New { .. } => vec![WIDE, Field::Bits(32), WIDE],
            Call::Restart { .. } => vec![WIDE, Field::Unread, WIDE],
            Call::SetTable { .. } => vec![WIDE, Field::Bits(16)],
            Call::SetAcc { .. } => vec![WIDE, Field::Bits(32)],
            Call::Play { .. } | Call::Feed { .. } | Call::PutInput { .. } => vec![WIDE; 23],
            Call::FeedInput { .. } => vec![WIDE; 5],
            Call::Eq(_) | Call::End | Call::Look => vec![],
        }
    }

    /// As `disguised` says.
    pub fn in_disguise(&self, random: &mut Random) -> Numbers {
        match self {
            Call::Eq(call) => call.in_disguise(random),
            _ => disguised(self.numbers(), &self.fields(), random),
        }
    }
}
