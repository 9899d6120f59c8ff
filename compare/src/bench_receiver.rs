//! bench_receiver time: nanoseconds a symbol of a locked stream, the Rust's stages beside the port's `feed` and `symbol`.
//! bench_receiver count ENTRY BITS SIDE PERIODS: one run over so many periods, for an instruction counter; a run over LEAD
//! periods is to be subtracted from a longer one. SIDE none makes the stream without a call.

use cases::inputs::Random;
use isdbs3_phy::chain::demap::demap;
use isdbs3_phy::chain::eq::{Equaliser, CENTRE};
use isdbs3_phy::chain::frame::{part, Part};
use isdbs3_phy::chain::phase::{Corrected, SlotPhase};
use isdbs3_phy::chain::sync::{word_symbols, Nco, SlotSync, SyncEvent};
use std::collections::VecDeque;
use std::hint::black_box;
use std::time::Instant;

const SEED: u64 = 20_261_116;
const SLOT: usize = 9_296;
const WINDOW: usize = 24;
/// The receiver locks at the end of the fourth period, and slots come out from the seventh on.
const LEAD: usize = 8;
const LONG: usize = 24;
/// Where the words stand in the period.
const OFFSET: usize = 4_000;
const K: i64 = 4_096;
const WIDTHS: [usize; 3] = [1, 3, 5];
const ENTRIES: [&str; 2] = ["feed", "symbol"];
/// Calls of `feed` behind the stream's end, by the entry "empty": what a call takes beside its symbols.
const EMPTY: u32 = 1_000;
const SIDES: [&str; 3] = ["none", "rust", "port"];

#[repr(C)]
#[derive(Clone, Copy)]
struct Words {
    f: [i8; 48],
    s: [i8; 48],
}

#[repr(C)]
#[derive(Debug)]
struct Received {
    taken: usize,
    refusal: u8,
}

/// An entry of the port: both take the same, but for how many calls of `feed` are made.
macro_rules! entry {
    ($entry:ident $(, $calls:ident: $count:ty)?) => {
        extern "C" {
            fn $entry(
                bytes: *const i8,
                len: usize,
                words: Words,
                table: *const i16,
                entries: usize,
                bits: u8,
                points: *const i16,
                numbers: usize,
                k: i64,
                $($calls: $count,)?
                acc: *mut u32,
                accs: usize,
                store: *mut i16,
                stored: usize,
                soft: *mut i8,
                softs: usize,
            ) -> Received;
        }
    };
}

entry!(measure_receive, calls: u32);
entry!(measure_symbols);

fn flat(word: u32) -> [i8; 48] {
    let pairs = word_symbols(word);
    std::array::from_fn(|k| pairs[k / 2][k % 2])
}

/// A stream of slots with a constellation on a circle: the words in turns, the rest random points.
struct Input {
    words: Words,
    table: Vec<i16>,
    bits: usize,
    points: Vec<[i16; 2]>,
    bytes: Vec<i8>,
}

impl Input {
    fn new(bits: usize, periods: usize) -> Self {
        let mut random = Random(SEED);
        let words = Words { f: flat(isdbs3_core::params::FSYNC), s: flat(isdbs3_core::params::SSYNC) };
        let points: Vec<[i16; 2]> = (0..1 << bits)
            .map(|n| {
                let turn = std::f64::consts::TAU * (f64::from(n) + 0.5) / f64::from(1 << bits);
                [turn.cos(), turn.sin()].map(|x| (1_024.0 * x).round() as i16)
            })
            .collect();
        let mut bytes = Vec::with_capacity(2 * periods * SLOT);
        for _ in 0..periods * SLOT {
            let p = points[random.below(1 << bits) as usize];
            bytes.extend(p.map(|x| (i64::from(x) * 60 / 1_024 + random.below(7) - 3) as i8));
        }
        for (n, slot) in bytes.chunks_exact_mut(2 * SLOT).enumerate() {
            let word = if n % 2 == 0 { &words.f } else { &words.s };
            slot[2 * OFFSET..2 * OFFSET + 48].copy_from_slice(&word.map(|x| 42 * x));
        }
        Self { words, table: isdb_frontend::tables::cos_table(), bits, points, bytes }
    }
}

/// The Rust's stages, wired as its own `Chain` wires them up to the equaliser, with one constellation behind it.
struct Stages<'a> {
    nco: Nco,
    sync: SlotSync,
    phase: SlotPhase,
    eq: Equaliser,
    delay: VecDeque<[i16; 2]>,
    waiting: VecDeque<Corrected>,
    last_at: Option<u64>,
    points: &'a [[i16; 2]],
    bits: usize,
    events: Vec<SyncEvent>,
    corrected: Vec<Corrected>,
    soft: Vec<i8>,
}

impl<'a> Stages<'a> {
    fn new(input: &'a Input) -> Self {
        Self {
            nco: Nco::new(0),
            sync: SlotSync::new(),
            phase: SlotPhase::new(),
            eq: Equaliser::new(),
            delay: VecDeque::with_capacity(WINDOW + 1),
            waiting: VecDeque::with_capacity(CENTRE + 1),
            last_at: None,
            points: &input.points,
            bits: input.bits,
            events: Vec::new(),
            corrected: Vec::new(),
            soft: Vec::new(),
        }
    }

    #[inline(never)]
    fn push(&mut self, x: [i8; 2]) {
        let r = self.nco.rotate(x);
        self.delay.push_back(r);
        if self.delay.len() > WINDOW {
            self.delay.pop_front();
        }
        self.sync.push(r, &mut self.events);
        if !self.events.is_empty() {
            self.hear();
        }
        if self.delay.len() == WINDOW {
            self.phase.push(self.delay[0]);
        }
    }

    fn hear(&mut self) {
        for event in std::mem::take(&mut self.events) {
            match event {
                SyncEvent::Head(h) => {
                    self.nco.head(&h);
                    self.phase.head(h, &mut self.corrected);
                }
                SyncEvent::Period(_) => {}
                SyncEvent::Lost => panic!("the stream is lost"),
            }
        }
        let corrected = std::mem::take(&mut self.corrected);
        if !corrected.is_empty() {
            self.soft.clear();
        }
        corrected.iter().for_each(|c| self.align(c));
        self.corrected = corrected;
        self.corrected.clear();
    }

    fn align(&mut self, c: &Corrected) {
        if self.last_at.is_some_and(|last| last + 1 != c.at) {
            self.eq.restart();
            self.waiting.clear();
        }
        self.last_at = Some(c.at);
        self.waiting.push_back(*c);
        let z = self.eq.push(c.y).unwrap_or(c.y);
        if self.waiting.len() <= CENTRE {
            return;
        }
        let symbol = self.waiting.pop_front().expect("more than five wait");
        if let Part::Main(_) = part(usize::from(symbol.j)) {
            let mut soft = [0; 5];
            demap(z, self.points, self.bits, K, &mut soft);
            self.soft.extend(&soft[..self.bits]);
        }
    }
}

/// The soft values of the last slot.
fn rust(input: &Input) -> Vec<i8> {
    let mut stages = Stages::new(input);
    input.bytes.chunks_exact(2).for_each(|x| stages.push([x[0], x[1]]));
    stages.soft
}

/// Calls of `feed` that take the stream: each ends with what a loud symbol tells.
fn calls(periods: usize) -> u32 {
    2 * periods as u32 + 1
}

fn port(input: &Input, entry: &str) -> Vec<i8> {
    let (mut acc, mut store, mut soft) = (vec![0u32; SLOT], vec![0i16; 2 * SLOT], vec![0i8; 44_880]);
    let flat: Vec<i16> = input.points.iter().flatten().copied().collect();
    let (b, t) = (&input.bytes, &input.table);
    let bits = input.bits as u8;
    macro_rules! received {
        ($entry:ident $(, $calls:expr)?) => {
            $entry(
                b.as_ptr(), b.len(), input.words, t.as_ptr(), t.len(), bits, flat.as_ptr(), flat.len(), K, $($calls,)?
                acc.as_mut_ptr(), acc.len(), store.as_mut_ptr(), store.len(), soft.as_mut_ptr(), soft.len(),
            )
        };
    }
    // SAFETY: slices by their pointers and lengths; the port writes the three stores only.
    let got = unsafe {
        match entry {
            "feed" => received!(measure_receive, calls(b.len() / 2 / SLOT)),
            "empty" => received!(measure_receive, calls(b.len() / 2 / SLOT) + EMPTY),
            _ => received!(measure_symbols),
        }
    };
    assert!(got.refusal == 0 && got.taken == b.len() / 2, "{got:?}");
    soft.truncate(66 * 136 * input.bits);
    soft
}

fn side(input: &Input, entry: &str, side: &str) -> usize {
    match side {
        "rust" => black_box(rust(input)).len(),
        "port" => black_box(port(input, entry)).len(),
        _ => 0,
    }
}

/// Nanoseconds of the periods behind the lead, by the symbol.
fn ns(bits: usize, entry: &str, who: &str, runs: usize) -> f64 {
    let (lead, long) = (Input::new(bits, LEAD), Input::new(bits, LONG));
    let least = |input: &Input| {
        (0..runs)
            .map(|_| {
                let start = Instant::now();
                black_box(side(input, entry, who));
                start.elapsed().as_nanos() as f64
            })
            .fold(f64::INFINITY, f64::min)
    };
    (least(&long) - least(&lead)) / ((LONG - LEAD) * SLOT) as f64
}

fn time() {
    println!("{:<14} {:>9} {:>9} {:>6}", "ns a symbol", "Rust", "port", "ratio");
    for entry in ENTRIES {
        for bits in WIDTHS {
            let input = Input::new(bits, LEAD + 2);
            assert!(rust(&input) == port(&input, entry), "{entry} at {bits} bits differs");
            assert!(rust(&input).len() == 66 * 136 * bits);
            let (mut r, mut p) = (f64::INFINITY, f64::INFINITY);
            for _ in 0..4 {
                r = r.min(ns(bits, entry, "rust", 5));
                p = p.min(ns(bits, entry, "port", if entry == "feed" { 5 } else { 1 }));
            }
            println!("{:<14} {r:>9.1} {p:>9.1} {:>6.2}", format!("{entry} {bits}"), p / r);
        }
    }
}

fn main() {
    let args: Vec<String> = std::env::args().skip(1).collect();
    let args: Vec<&str> = args.iter().map(String::as_str).collect();
    match args[..] {
        ["time"] => time(),
        ["count", entry, bits, who, periods]
            if (ENTRIES.contains(&entry) || entry == "empty") && SIDES.contains(&who) =>
        {
            let input = Input::new(bits.parse().expect("bits"), periods.parse().expect("periods"));
            println!("{}", side(&input, entry, who));
        }
        _ => panic!("bench_receiver time | count ENTRY BITS SIDE PERIODS"),
    }
}
