//! What goes to the replay program of the alignment: 24 numbers for each call. README.md has the list.

use crate::eq::calls::Call as EqCall;
use crate::inputs::Random;
use crate::phase::calls::{disguised, Corrected, Field, Fields, Numbers, Row, WORD};

/// 24 pairs.
pub type Ones = [i8; 48];

pub(crate) const PLACE: [Field; 6] =
    [Field::Bits(64), WORD, Field::Flag, Field::Bits(8), Field::Bits(32), Field::Bits(16)];

/// What is kept of a symbol while it waits: r, angle, gain and y are not.
pub fn placed(c: &Corrected) -> Corrected {
    Corrected { r: [0; 2], phi: 0, gain: 0, y: [0; 2], ..*c }
}

/// A call of the field `eq`, or of the alignment. `MoveUp` and `Line` hand a state in: a symbol comes behind those that wait
/// and the oldest goes; how many wait, and the last position.
#[derive(Clone, Copy, PartialEq, Eq, Debug)]
pub enum Call {
    Eq(EqCall),
    New,
    Restart,
    Push(Corrected),
    Words([Ones; 2]),
    MoveUp(Corrected),
    Line { count: u32, last: Option<u64> },
}

impl Call {
    pub fn numbers(&self) -> Numbers {
        let mut row = Row::new(match self {
            Call::Eq(call) => return call.numbers(),
            Call::New => 16,
            Call::Restart => 17,
            Call::Push(_) => 18,
            Call::Words(_) => 19,
            Call::MoveUp(_) => 20,
            Call::Line { .. } => 21,
        });
        match self {
            Call::Push(c) | Call::MoveUp(c) => row.corrected(c),
            Call::Words(words) => row.bytes(words.as_flattened().iter().map(|&one| one as u8)),
            Call::Line { count, last } => row.all([(*count).into(), last.is_some().into(), last.unwrap_or(0)]),
            _ => {}
        }
        row.numbers
    }

    /// None for a call that there is not.
    pub fn of_numbers(n: &Numbers) -> Option<Self> {
        let mut fields = Fields::of_call(n);
        Some(match n[0] {
            16 => Call::New,
            17 => Call::Restart,
            18 => Call::Push(fields.corrected()),
            19 => Call::Words([0; 2].map(|_| fields.bytes().map(|one: u8| one as i8))),
            20 => Call::MoveUp(fields.place()),
            21 => {
                let (count, known, at) = (fields.get() as u32, fields.flag(), fields.get());
                Call::Line { count, last: known.then_some(at) }
            }
            _ => Call::Eq(EqCall::of_numbers(n)?),
        })
    }

    pub fn in_disguise(&self, random: &mut Random) -> Numbers {
        const WIDE: Field = Field::Bits(64);
        const PART: Field = Field::Bits(16);
        let fields = match self {
            Call::Eq(call) => return call.in_disguise(random),
            Call::New | Call::Restart => vec![],
            Call::Push(_) => [&PLACE[..], &[PART, PART, Field::Bits(32), WIDE, PART, PART]].concat(),
            Call::Words(_) => vec![WIDE; 12],
            Call::MoveUp(_) => PLACE.to_vec(),
            Call::Line { .. } => vec![Field::Bits(32), Field::Flag, WIDE],
        };
        disguised(self.numbers(), &fields, random)
    }
}
