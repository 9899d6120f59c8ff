//! What the replay program owes for each call, by the model: it keeps an alignment, words and sums, as the program does.

use super::calls::{placed, Call, Ones};
use super::model::{Aligned, Line, Rules, NOWHERE};
use crate::eq::desk::{of_pairs, of_sums, Desk as EqDesk, Said};
use crate::phase::calls::{Corrected, Numbers, Row};

pub struct Desk {
    pub rules: Rules,
    /// The field `eq`, and the sums that a solving is asked of.
    pub eq: EqDesk,
    pub line: Line,
    pub words: [Ones; 2],
}

pub struct Answer {
    pub refusal: u8,
    pub out: Option<Aligned>,
    /// What a call of the field `eq` says.
    pub said: Said,
    pub numbers: Numbers,
}

impl Desk {
    pub fn new(rules: Rules) -> Self {
        Self { rules, eq: EqDesk::new(rules.eq), line: rules.start(), words: [[0; 48]; 2] }
    }

    /// The oldest, for another behind the others.
    fn moved_up(&mut self, c: &Corrected) -> Aligned {
        let place = self.line.places.remove(0);
        self.line.places.push(placed(c));
        Aligned { place, z: [0; 2] }
    }

    fn done(&mut self, call: &Call) -> (u8, Option<Aligned>) {
        let rules = self.rules;
        let (e, line) = (&mut self.eq.eq, &mut self.line);
        match call {
            Call::Eq(_) => unreachable!("answered by the equaliser's desk"),
            Call::New => {
                (*e, *line) = (rules.eq.start(), rules.start());
                (0, None)
            }
            Call::Restart => (rules.restart(e, line), None),
            Call::Push(c) => rules.push(e, line, c, &self.words),
            Call::Words(words) => {
                self.words = *words;
                (0, None)
            }
            Call::MoveUp(c) => (0, Some(self.moved_up(c))),
            Call::Line { count, last } => {
                (line.count, line.last) = (*count, *last);
                (0, None)
            }
        }
    }

    fn numbers(&self, refusal: u8, out: &Option<Aligned>) -> Numbers {
        let (e, line) = (&self.eq.eq, &self.line);
        let Aligned { place, z } = out.unwrap_or(Aligned { place: NOWHERE, z: [0; 2] });
        let mut row = Row::new(refusal.into());
        row.put(out.is_some().into());
        row.pair(z);
        row.place(&place);
        let waiting = [line.count.into(), line.last.is_some().into(), line.last.unwrap_or(0)];
        let filter = [of_pairs(&e.line), e.filled.into(), of_pairs(&e.taps)];
        let flags = [e.from.is_some().into(), e.from.unwrap_or(0).into(), e.opened.into()];
        waiting.into_iter().chain(filter).chain(flags).chain(of_sums(&e.sums)).for_each(|v| row.put(v));
        row.numbers
    }

    /// None is a call that there is not.
    pub fn answer(&mut self, call: Option<&Call>) -> Answer {
        if let Some(Call::Eq(call)) = call {
            let answer = self.eq.answer(Some(*call));
            return Answer { refusal: answer.refusal, out: None, said: answer.said, numbers: answer.numbers };
        }
        let (refusal, out) = call.map_or((255, None), |call| self.done(call));
        Answer { refusal, out, said: Said::Flag(false), numbers: self.numbers(refusal, &out) }
    }
}
