//! The Rust's own `Chain`, whose first stages are wired as a receiver's: it goes along with the wired stages.

use super::phy::chain::sync::Head;
use super::phy::chain::{Chain, ChainOptions, Output};
use super::wired::{Event, Told};
use isdbs3_core::slots::choose_layout;

pub struct Along {
    chain: Chain,
    out: Vec<Output>,
}

impl Along {
    /// No layout: what is behind the corrected symbols is not compared.
    pub fn new(at: u64, step: i32) -> Self {
        choose_layout(None);
        let chain = Chain::new(ChainOptions { carrier: step, eq_every: 0, trace: true, ..Default::default() });
        let mut along = Self { chain, out: Vec::new() };
        along.restart(at);
        along
    }

    /// As after a loss of all symbols up to there.
    pub fn restart(&mut self, at: u64) {
        self.chain.loss(at - self.chain.symbols(), &mut Vec::new());
    }

    /// Heads and losses in order, corrected symbols, the carrier's step; `Chain` alone fills a head's `nco_phase`, and tells no periods.
    pub fn agrees(&mut self, x: [i8; 2], told: &Told, step: i32) {
        self.chain.push(x, &mut self.out);
        assert_eq!(self.chain.carrier(), step, "Chain's step");
        if self.out.is_empty() && told.events.is_empty() {
            return;
        }
        let (mut events, mut symbols) = (Vec::new(), Vec::new());
        for o in self.out.drain(..) {
            match o {
                Output::Head(h) => events.push(Event::Head(Head { nco_phase: 0, ..h })),
                Output::Symbol(c) => symbols.push(c),
                Output::Restart { .. } => events.push(Event::Lost(self.chain.symbols())),
                Output::Carrier(_) | Output::Frame(_) | Output::Dropped { .. } => {}
            }
        }
        let owed = told.events.iter().copied().filter(|e| !matches!(e, Event::Period(_)));
        assert_eq!(events, owed.collect::<Vec<_>>(), "Chain's heads and losses");
        assert!(symbols == told.corrected, "Chain's corrected symbols");
    }
}
