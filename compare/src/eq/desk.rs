//! What the replay program owes for each call, by the model: it keeps an equaliser and sums, as the program does.

use super::calls::{Call, Equaliser, Numbers, Pairs, Sums};
use super::model::{no_sums, Rules};
use crate::sync::calls::digest;

pub struct Desk {
    pub rules: Rules,
    pub eq: Equaliser,
    /// Those that a solving is asked of.
    pub sums: Sums,
}

/// A flag and a symbol, behind which the program tells all that it keeps; or a solver's taps.
#[derive(Clone, Copy, PartialEq, Eq, Debug)]
pub enum Said {
    Flag(bool),
    Symbol(Option<[i16; 2]>),
    Taps(Pairs),
}

pub struct Answer {
    pub refusal: u8,
    pub said: Said,
    pub numbers: Numbers,
}

pub(crate) fn of_pairs(l: &Pairs) -> u64 {
    digest(*l)
}

pub(crate) fn of_sums(s: &Sums) -> [u64; 4] {
    [s.frame.into(), s.count.into(), digest(s.r), digest(s.p)]
}

impl Desk {
    pub fn new(rules: Rules) -> Self {
        Self { rules, eq: rules.start(), sums: no_sums(0) }
    }

    fn put(&mut self, call: Call) {
        let e = &mut self.eq;
        match call {
            Call::PutLine { line } => e.line = line,
            Call::PutTaps { taps } => e.taps = taps,
            Call::PutNumbers { filled, from, opened, frame, count } => {
                (e.filled, e.from, e.opened) = (filled, from, opened);
                (e.sums.frame, e.sums.count) = (frame, count);
            }
            Call::PutUpper { group, values } if group < 6 => {
                e.sums.r[22 * group as usize..][..22].copy_from_slice(&values);
            }
            Call::PutRight { values } => e.sums.p = values,
            _ => {}
        }
    }

    fn done(&mut self, call: Call) -> (u8, Said) {
        let (rules, e) = (self.rules, &mut self.eq);
        let plain = |refusal| (refusal, Said::Flag(false));
        match call {
            Call::New => {
                *e = rules.start();
                plain(0)
            }
            Call::Restart => plain(rules.restart(e)),
            Call::Push { y } => {
                let (refusal, symbol) = rules.push(e, y);
                (refusal, Said::Symbol(symbol))
            }
            Call::Output => {
                let (refusal, symbol) = rules.output(e);
                (refusal, Said::Symbol(symbol))
            }
            Call::Open { frame } => plain(rules.open(e, frame)),
            Call::Train { d } => plain(rules.train(e, d)),
            Call::Close => {
                let (refusal, sums) = rules.close(e);
                self.sums = sums.unwrap_or(no_sums(0));
                (refusal, Said::Flag(sums.is_some()))
            }
            Call::Load { frame, taps } => plain(rules.load(e, frame, taps)),
            Call::Keep => {
                self.sums = e.sums;
                plain(0)
            }
            Call::Solve => match rules.solve(&self.sums) {
                Ok(taps) => (0, Said::Taps(taps)),
                Err(refusal) => (refusal, Said::Taps([0; 22])),
            },
            _ => {
                self.put(call);
                plain(0)
            }
        }
    }

    fn numbers(&self, refusal: u8, said: Said) -> Numbers {
        let bits = |v: i16| i64::from(v) as u64;
        let mut n = [0; 24];
        n[0] = refusal.into();
        match said {
            Said::Taps(taps) => {
                n[1..23].copy_from_slice(&taps.map(bits));
                return n;
            }
            Said::Flag(flag) => n[1] = flag.into(),
            Said::Symbol(None) => {}
            Said::Symbol(Some([i, q])) => n[1..4].copy_from_slice(&[1, bits(i), bits(q)]),
        }
        let e = &self.eq;
        n[4..7].copy_from_slice(&[of_pairs(&e.line), e.filled.into(), of_pairs(&e.taps)]);
        n[7..10].copy_from_slice(&[e.from.is_some().into(), e.from.unwrap_or(0).into(), e.opened.into()]);
        n[10..14].copy_from_slice(&of_sums(&e.sums));
        n[14..18].copy_from_slice(&of_sums(&self.sums));
        n
    }

    /// None is a call that there is not.
    pub fn answer(&mut self, call: Option<Call>) -> Answer {
        let (refusal, said) = call.map_or((255, Said::Flag(false)), |call| self.done(call));
        Answer { refusal, said, numbers: self.numbers(refusal, said) }
    }
}
