//! The Rust's `Back` beside the alignment, as its files are: what it shows of whole frames, of frames that are dropped, and of its equaliser.

use super::calls::Ones;
use super::model::Aligned;
use super::player::{Totals, FRAME};
use crate::eq::beside::{agree, agree_in_fill};
use crate::eq::calls::{Equaliser, Sums};
use crate::phase::calls::Corrected;
use crate::seen::{self, numbers, text};
use crate::sync::calls::pairs as word;
use crate::unchanged::eq::sums as rust_sums;
use crate::unchanged::phase::given;
use isdb_frontend::s3sync::choose_words;
use isdbs3_core::params::{CodeRate, Modulation, SLOTS};
use isdbs3_core::slots::{choose_layout, Slot};
use isdbs3_phy::chain::demap::nominal;
use isdbs3_phy::chain::eq as rust_eq;
use isdbs3_phy::chain::frame::{part, Back, BackEvent, FrameOut, Part};
use isdbs3_phy::chain::ldpc::FixedLdpc;
use isdbs3_phy::chain::sync::SyncStats;
use isdbs3_phy::chain::EQ_APPLY_FRAMES;

/// So many frames behind the one that names it a layout is in force; and the Rust solves in every so many.
const LAG: u32 = 1;
const SOLVES: u32 = 2;

/// The frame that is open in the Rust: its number, its first position, what came out for it.
struct Open {
    frame: u32,
    at: u64,
    z: Vec<[i16; 2]>,
}

/// What the Rust has to tell after a push.
#[derive(PartialEq, Eq, Debug)]
enum Event {
    Dropped(u32),
    Whole(u32),
}

/// The Rust's back end. Document 01 trains on sync symbols only, the Rust on pilots too: an equaliser of the Rust's beside it
/// trains on these alone, and what it sums is taken off.
pub struct Beside {
    pub back: Back,
    pilots: rust_eq::Equaliser,
    points: Vec<Vec<[i16; 2]>>,
    open: Option<Open>,
    /// Frames that will have a layout.
    pub laid: Vec<u32>,
    /// Taps that the Rust solved and will load, the frame they are of, and the frame that they wait for.
    pub pending: Option<([[i16; 2]; 11], u32, u32)>,
    /// Whether it solves at all, and the frame that it last solved.
    pub solves: bool,
    solved: Option<u32>,
}

/// Slots of all modulations without codewords: main symbols then leave no trace, and come in any order.
fn layout() -> Vec<Slot> {
    use Modulation::{Apsk16, Apsk32, Bpsk, Psk8, Qpsk};
    let slot = |index: usize| Slot {
        index,
        mode: 0,
        modulation: [Bpsk, Qpsk, Psk8, Apsk16, Apsk32][index % 5],
        rate: CodeRate(81),
        dummy: true,
        symbol_start: 0,
        symbols: 0,
    };
    (0..SLOTS).map(slot).collect()
}

/// The first less the second.
fn less(mut s: rust_eq::Sums, off: &rust_eq::Sums) -> rust_eq::Sums {
    let parts = |a: &mut Vec<[i64; 2]>, b: &Vec<[i64; 2]>| {
        a.as_flattened_mut().iter_mut().zip(b.as_flattened()).for_each(|(v, w)| *v -= w);
    };
    s.count -= off.count;
    parts(&mut s.r, &off.r);
    parts(&mut s.p, &off.p);
    s
}

impl Beside {
    pub fn new([f, s]: &[Ones; 2], solves: bool) -> Self {
        choose_words(word(f), word(s));
        choose_layout(Some(layout()));
        let mut back = Back::new(LAG, if solves { SOLVES } else { 0 }, Box::new(FixedLdpc::new()));
        back.set_trace(true);
        let points = layout().iter().map(|s| nominal(s.modulation, s.rate)).collect();
        let pilots = rust_eq::Equaliser::new();
        Self { back, pilots, points, open: None, laid: Vec::new(), pending: None, solves, solved: None }
    }

    fn dropped(&mut self) -> Option<Event> {
        self.laid.clear();
        self.pilots.restart();
        self.open.take().map(|open| Event::Dropped(open.frame))
    }

    pub fn restart(&mut self, totals: &mut Totals) {
        let mut told = Vec::new();
        self.back.restart(&mut told);
        let expected = self.dropped();
        totals.dropped += expected.iter().count() as u64;
        self.agree_in_events(&told, expected.into_iter().collect());
    }

    fn agree_in_events(&self, told: &[BackEvent], expected: Vec<Event>) {
        let event = |e: &BackEvent| match e {
            BackEvent::Dropped { frame } => Event::Dropped(*frame),
            BackEvent::Frame(out) => Event::Whole(out.frame),
        };
        agree(expected, told.iter().map(event).collect());
        agree(self.open.as_ref().map(|open| open.frame), self.back.open_frame());
    }

    /// What an aligned symbol does to the frame that is open.
    fn aligned(&mut self, a: &Aligned, events: &mut Vec<Event>) -> Option<Open> {
        let (number, frame) = a.place.slot?;
        if (number, a.place.j) == (0, 0) {
            events.extend(self.open.take().map(|open| Event::Dropped(open.frame)));
            self.open = Some(Open { frame, at: a.place.at, z: Vec::with_capacity(FRAME) });
            self.pilots.open(frame);
            self.laid.retain(|&laid| laid > frame);
        }
        let open = self.open.as_mut().filter(|open| open.frame == frame)?;
        open.z.push(a.z);
        if let Part::Pilot(t) = part(a.place.j.into()) {
            let points = &self.points[usize::from(number)];
            self.pilots.train(points[t % points.len()]);
        }
        let last = (usize::from(number), usize::from(a.place.j)) == (SLOTS - 1, super::PLACES - 1);
        let open = self.open.take_if(|_| last)?;
        let whole = open.z.len() == FRAME;
        events.push(if whole { Event::Whole(frame) } else { Event::Dropped(frame) });
        whole.then_some(open)
    }

    /// The same push, which the model took; gives the frame that it ended.
    pub fn push(
        &mut self,
        c: &Corrected,
        gap: bool,
        out: &Option<Aligned>,
        totals: &mut Totals,
    ) -> Option<Box<FrameOut>> {
        let mut events = Vec::new();
        let was_open = self.open.is_some();
        if gap {
            events.extend(self.dropped());
        }
        self.pilots.push(c.y);
        let ended = out.as_ref().and_then(|a| self.aligned(a, &mut events));
        let mut told = Vec::new();
        self.back.push(given(c), &|| (SyncStats::default(), 0, 0), &mut told);
        totals.dropped += events.iter().filter(|e| matches!(e, Event::Dropped(_))).count() as u64;
        totals.undropped += u64::from(was_open && events.is_empty());
        self.agree_in_events(&told, events);
        let open = ended?;
        let Some(BackEvent::Frame(whole)) = told.pop() else { unreachable!() };
        let trace = whole.trace.as_ref().expect("a trace");
        assert_eq!(whole.at, open.at);
        if let Some(k) = (0..FRAME).find(|&k| open.z[k] != trace.z[k]) {
            panic!(
                "THE MODEL DIFFERS FROM THE RUST: symbol {k} of frame {}: {:?} from {:?}",
                open.frame, open.z[k], trace.z[k]
            );
        }
        totals.symbols += FRAME as u64;
        self.laid.push(open.frame.wrapping_add(LAG));
        Some(whole)
    }

    /// The sums of a whole frame: those of the model, and on top of these the Rust's pilots.
    pub fn agree_in_sums(&mut self, whole: &FrameOut, sums: &Sums, totals: &mut Totals) {
        let pilots = self.pilots.close().expect("open since the frame's head");
        let told = whole.sums.clone().expect("a layout");
        agree(rust_sums(sums), less(told.clone(), &pilots));
        totals.sums += 1;
        let frame = whole.frame;
        if self.solves && self.solved.is_none_or(|last| frame.wrapping_sub(last) >= SOLVES) {
            if let Some(taps) = rust_eq::solve_sums(&told) {
                self.pending = Some((taps, frame, frame.wrapping_add(EQ_APPLY_FRAMES)));
                self.solved = Some(frame);
            }
        }
    }

    /// Line, fill and taps are the model's, and so are open sums once those of the pilots are taken off. Loaded taps have no frame here but those
    /// that were solved.
    pub fn look(&self, e: &Equaliser) {
        let eq = self.back.equaliser();
        let from = e.from.filter(|_| self.solves);
        let model = vec![numbers("line", &e.line), numbers("taps", &e.taps), text("taps_from", from)];
        let shown = format!("{eq:?}");
        let [filled, _] = seen::agree(&shown, model, ["filled", "acc"]);
        agree_in_fill(filled, e);
        if let Some(open) = eq.clone().close() {
            let pilots = self.pilots.clone().close().expect("open since the frame's head");
            agree(e.opened.then(|| rust_sums(&e.sums)), Some(less(open, &pilots)));
        }
    }
}
