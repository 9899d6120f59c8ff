//! The wired stages of the Rust as what goes beside a receiver's model: numbers and events as ours.

use super::chain::Along;
use super::eq::{pairs, sums_of};
use super::phy::chain::sync::SyncEvent;
use super::sync::told as event_of;
use super::wired::{Event as Given, Points, Receiver};
use crate::eq::calls::{Pairs, Sums};
use crate::receiver::beside::{Beside, Told};
use crate::receiver::model::Run;
use crate::sync::calls::Event;

fn told(event: &Given) -> Event {
    match *event {
        Given::Head(h) => event_of(&SyncEvent::Head(h), 0),
        Given::Period(p) => event_of(&SyncEvent::Period(p), 0),
        Given::Lost(at) => event_of(&SyncEvent::Lost, at),
    }
}

/// The wired stages, and `Chain` along with them where they come from a new receiver.
pub struct Stages {
    wired: Receiver,
    chain: Option<Along>,
}

impl Stages {
    pub fn new(at: u64, step: i32) -> Self {
        Self { wired: Receiver::new(at, step), chain: Some(Along::new(at, step)) }
    }

    pub fn alone(wired: Receiver) -> Self {
        Self { wired, chain: None }
    }
}

impl Beside for Stages {
    fn push(&mut self, x: [i8; 2]) -> Told {
        let t = self.wired.push(x);
        let wired = &self.wired;
        let chained = self.chain.as_mut().map(|chain| chain.agrees(x, &t, wired.nco.freq)).is_some();
        let mut events = [Event::Nothing; 3];
        events.iter_mut().zip(&t.events).for_each(|(place, event)| *place = told(event));
        let runs = t.runs.map(|r| Run { at: r.at, j: r.j, count: r.count, bits: r.bits as u8 });
        let (carrier, corr) = ((wired.nco.phase, wired.nco.freq), wired.sync.last_corr);
        Told { events, runs, corrected: t.corrected.len(), soft: t.soft, carrier, corr, chained }
    }

    fn restart(&mut self, at: u64) {
        self.wired.restart(at);
        self.chain.iter_mut().for_each(|chain| chain.restart(at));
    }

    fn load_points(&mut self, bits: u8, points: &[i16], k: i64) {
        let points = points.chunks(2).map(|p| [p[0], p[1]]).collect();
        self.wired.load_points(Points { bits: bits.into(), points, k });
    }

    fn load_taps(&mut self, taps: &Pairs, frame: u32) {
        self.wired.load_taps(pairs(taps), frame);
    }

    fn open(&mut self, frame: u32) {
        self.wired.open(frame);
    }

    fn end(&mut self) -> Option<Sums> {
        self.wired.end().as_ref().map(sums_of)
    }

    fn accumulators(&self) -> &[u32] {
        self.wired.accumulators()
    }

    fn next(&self) -> u64 {
        self.wired.next()
    }

    fn shown(&self) -> [String; 4] {
        let Receiver { nco, sync, phase, eq, .. } = &self.wired;
        [format!("{nco:?}"), format!("{sync:?}"), format!("{phase:?}"), format!("{eq:?}")]
    }
}
