//! What the replay program owes for each call, by the model: it keeps table and store, as the program does.

use super::calls::{Answer, Call, STORE, TABLE};
use super::model::Rules;
use crate::sync::calls::digest;

pub struct Desk {
    pub rules: Rules,
    pub table: Vec<i16>,
    pub store: Vec<i16>,
}

/// As many entries as a call says, of those that there are.
fn lent(n: u64, all: usize) -> usize {
    n.min(all as u64) as usize
}

fn set(entries: &mut [i16], k: u64, v: i16) -> Answer {
    if k < entries.len() as u64 {
        entries[k as usize] = v;
    }
    Answer::Single(0, 0)
}

impl Desk {
    pub fn new(rules: Rules) -> Self {
        Self { rules, table: vec![0; TABLE], store: vec![0; STORE] }
    }

    /// None is a call that there is not.
    pub fn answer(&mut self, call: Option<Call>) -> Answer {
        let Some(call) = call else { return Answer::Single(255, 0) };
        let rules = self.rules;
        match call {
            Call::TableDigest => Answer::Single(0, digest(self.table.iter().copied())),
            Call::StoreDigest => Answer::Single(0, digest(self.store.iter().copied())),
            Call::NcoNew { freq } => Answer::Nco(0, Rules::nco_new(freq), [0; 2]),
            Call::Rotate { nco, x, table } => {
                let (refusal, nco, symbol) = rules.rotate(&nco, x, &self.table[..lent(table, TABLE)]);
                Answer::Nco(refusal, nco, symbol)
            }
            Call::Hear { nco, head } => {
                let (refusal, nco, set) = rules.hear(&nco, &head);
                Answer::Nco(refusal, nco, [set.into(), 0])
            }
            Call::NcoRestart { nco } => {
                let (refusal, nco) = rules.nco_restart(&nco);
                Answer::Nco(refusal, nco, [0; 2])
            }
            Call::Gain { amp } => {
                let (refusal, gain) = rules.gain_of(amp);
                Answer::Single(refusal, gain as u64)
            }
            Call::New => Answer::Phase(0, None),
            Call::Restart { phase } => {
                let (refusal, phase) = rules.restart(&phase);
                Answer::Phase(refusal, phase)
            }
            Call::Head { phase, head } => {
                let (refusal, phase, _) = rules.head(&phase, &head);
                Answer::Phase(refusal, phase)
            }
            Call::Due { phase, head } => {
                let (refusal, _, due) = rules.head(&phase, &head);
                Answer::Due(refusal, due)
            }
            Call::Next { phase, head } => {
                let (refusal, _, due) = rules.head(&phase, &head);
                Answer::Next(refusal, due.map(|slot| slot.next))
            }
            Call::Correct { slot, j, table, store } => {
                let (table, store) = (&self.table[..lent(table, TABLE)], &self.store[..lent(store, STORE)]);
                rules.correct(&slot, j, table, store).map_or_else(|n| Answer::Single(n, 0), Answer::Corrected)
            }
            Call::Push { phase, r, store } => {
                let (refusal, phase) = rules.push(&phase, r, &mut self.store[..lent(store, STORE)]);
                Answer::Phase(refusal, phase)
            }
            Call::SetTable { k, v } => set(&mut self.table, k, v),
            Call::SetStore { k, v } => set(&mut self.store, k, v),
        }
    }
}
