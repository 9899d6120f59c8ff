//! bench_sync time: nanoseconds a symbol of a locked slot sync, the Rust's `push` beside the port's.
//! bench_sync count SIDE PERIODS: one run over so many periods, for an instruction counter; SIDE none makes the
//! same stream without a call, to be subtracted, and a run over LEAD periods is to be subtracted from a longer one.

use cases::inputs::Random;
use isdbs3_phy::chain::sync::{word_symbols, SlotSync, SyncEvent};
use std::hint::black_box;
use std::time::Instant;

const SEED: u64 = 20_261_115;
const PERIOD: usize = 9_296;
/// The sync locks at the end of the fourth period.
const LEAD: usize = 6;
const LONG: usize = 26;
/// Where the words stand in the period.
const OFFSET: usize = 4_000;
const SIDES: [&str; 3] = ["none", "rust", "port"];

type Word = [i8; 48];

#[repr(C)]
#[derive(Clone, Copy)]
struct Words {
    f: Word,
    w: Word,
}

#[repr(C)]
#[derive(Debug)]
struct Streamed {
    taken: usize,
    level: u32,
    refusal: u8,
}

extern "C" {
    fn measure_push(sy: *const i16, len: usize, words: Words, acc: *mut u32, accs: usize) -> Streamed;
}

fn flat(word: u32) -> Word {
    let pairs = word_symbols(word);
    std::array::from_fn(|k| pairs[k / 2][k % 2])
}

/// Slots with the F and the S word in turns and a weak random payload.
fn stream(words: &Words, periods: usize) -> Vec<i16> {
    let mut random = Random(SEED);
    let mut all: Vec<i16> = (0..2 * periods * PERIOD).map(|_| (random.below(401) - 200) as i16).collect();
    for (n, slot) in all.chunks_exact_mut(2 * PERIOD).enumerate() {
        let word = if n % 2 == 0 { &words.f } else { &words.w };
        slot[2 * OFFSET..2 * OFFSET + 48].copy_from_slice(&word.map(|x| 1_000 * i16::from(x)));
    }
    all
}

#[inline(never)]
fn rust_push(sync: &mut SlotSync, symbol: [i16; 2], events: &mut Vec<SyncEvent>) {
    sync.push(symbol, events)
}

/// The accumulator at the last position.
fn rust(stream: &[i16]) -> u32 {
    let mut sync = SlotSync::new();
    let mut events = Vec::new();
    for pair in stream.chunks_exact(2) {
        rust_push(&mut sync, [pair[0], pair[1]], &mut events);
        events.clear();
    }
    sync.last_corr.2
}

/// The accumulator at the last position.
fn port(words: Words, stream: &[i16]) -> u32 {
    let mut acc = [0u32; PERIOD];
    // SAFETY: slices by their pointers and lengths; the port writes the accumulators only.
    let r = unsafe { measure_push(stream.as_ptr(), stream.len(), words, acc.as_mut_ptr(), acc.len()) };
    assert!(r.refusal == 0 && 2 * r.taken == stream.len(), "{r:?} of {}", stream.len() / 2);
    r.level
}

fn locked(stream: &[i16]) -> bool {
    let mut sync = SlotSync::new();
    let mut events = Vec::new();
    stream.chunks_exact(2).for_each(|pair| sync.push([pair[0], pair[1]], &mut events));
    sync.stats().locked && !events.contains(&SyncEvent::Lost)
}

fn ns(run: impl Fn(&[i16]) -> u32, stream: &[i16]) -> f64 {
    let start = Instant::now();
    black_box(run(black_box(stream)));
    start.elapsed().as_nanos() as f64
}

/// The least of many runs of each side, taken in turns, over the long stream and over its lead: the difference is a
/// locked sync's.
fn time(words: Words) {
    let long = stream(&words, LONG);
    let lead = &long[..2 * LEAD * PERIOD];
    assert!(locked(&long) && locked(lead), "the Rust is not locked");
    println!("{:14} {:>9} {:>9} {:>6}", "ns a symbol", "Rust", "port", "ratio");
    assert_eq!(rust(&long), port(words, &long), "the last accumulators differ");
    let mut least = [f64::MAX; 4];
    for _ in 0..60 {
        let taken = [ns(rust, &long), ns(rust, lead), ns(|s| port(words, s), &long), ns(|s| port(words, s), lead)];
        least = std::array::from_fn(|k| least[k].min(taken[k]));
    }
    let symbols = ((LONG - LEAD) * PERIOD) as f64;
    let [rust, port] = [(least[0] - least[1]) / symbols, (least[2] - least[3]) / symbols];
    println!("{:14} {rust:9.2} {port:9.2} {:6.2}", "push", port / rust);
}

fn count(words: Words, side: &str, periods: &str) {
    let Ok(periods) = periods.parse() else { usage() };
    if !SIDES.contains(&side) {
        usage()
    }
    let stream = stream(&words, periods);
    black_box(match side {
        "rust" => rust(black_box(&stream)),
        "port" => port(words, black_box(&stream)),
        _ => 0,
    });
}

fn usage() -> ! {
    eprintln!("usage: bench_sync time | bench_sync count none|rust|port PERIODS");
    std::process::exit(2)
}

fn main() {
    let words = Words { f: flat(0x52_F866), w: flat(0x36_715A) };
    let given: Vec<String> = std::env::args().skip(1).collect();
    match given.iter().map(String::as_str).collect::<Vec<_>>()[..] {
        ["time"] => time(words),
        ["count", side, periods] => count(words, side, periods),
        _ => usage(),
    }
}
