//! bench_phase time: nanoseconds a symbol, rotated in a block or corrected in a slot, the Rust beside the port.
//! bench_phase count ENTRY SIDE: one run, for an instruction counter; SIDE none makes the same input without the
//! measured call, to be subtracted.

use cases::inputs::Random;
use isdbs3_phy::chain::phase::{Corrected, SlotPhase};
use isdbs3_phy::chain::sync::{Head, Nco, Word};
use std::hint::black_box;
use std::time::Instant;

const SEED: u64 = 20_261_115;
const SLOT: usize = 9_296;
const STEP: i32 = 123_457;
const ENTRIES: [&str; 2] = ["rotate", "correct"];
const SIDES: [&str; 3] = ["none", "rust", "port"];

extern "C" {
    fn measure_rotate(
        freq: i32,
        xs: *const i8,
        symbols: usize,
        table: *const i16,
        entries: usize,
        out: *mut i16,
        places: usize,
    ) -> u32;
    fn measure_correct(
        theta: u32,
        amp: i64,
        next: u32,
        last: i64,
        table: *const i16,
        entries: usize,
        store: *const i16,
        stored: usize,
        y: *mut i16,
        ys: usize,
        phi: *mut u32,
        phis: usize,
        gain: *mut i64,
        gains: usize,
    ) -> u8;
}

fn head(at: u64, theta: u32, amp: i64) -> Head {
    Head { at, word: Word::Ssync, corr: [0; 2], theta, amp, number: None, frame: None, nco_phase: 0 }
}

/// Symbols of a slot, and its two heads.
struct Input {
    table: Vec<i16>,
    bytes: Vec<i8>,
    store: Vec<i16>,
    heads: [Head; 2],
}

impl Input {
    fn new() -> Self {
        let mut random = Random(SEED);
        let bytes = (0..2 * SLOT).map(|_| (random.below(64) - 32) as i8).collect();
        let store = (0..2 * SLOT).map(|_| (random.below(1_025) - 512) as i16).collect();
        let heads = [head(0, 4_000_000_000, 17_000), head(SLOT as u64, 300_000_000, 19_000)];
        Self { table: isdb_frontend::tables::cos_table(), bytes, store, heads }
    }

    /// The Rust's stage with all symbols of the slot.
    fn held(&self) -> SlotPhase {
        let mut phase = SlotPhase::new();
        phase.head(self.heads[0].clone(), &mut Vec::new());
        self.store.chunks_exact(2).for_each(|r| phase.push([r[0], r[1]]));
        phase
    }
}

#[inline(never)]
fn rust_rotate(xs: &[i8], out: &mut [i16]) -> u32 {
    let mut nco = Nco::new(STEP);
    for (x, r) in xs.chunks_exact(2).zip(out.chunks_exact_mut(2)) {
        r.copy_from_slice(&nco.rotate([x[0], x[1]]));
    }
    nco.phase
}

fn port_rotate(input: &Input, out: &mut [i16]) -> u32 {
    let (xs, table) = (&input.bytes, &input.table);
    // SAFETY: slices by their pointers and lengths; the port writes out only.
    unsafe { measure_rotate(STEP, xs.as_ptr(), xs.len(), table.as_ptr(), table.len(), out.as_mut_ptr(), out.len()) }
}

struct Places {
    y: Vec<i16>,
    phi: Vec<u32>,
    gain: Vec<i64>,
}

impl Places {
    fn new() -> Self {
        Self { y: vec![0; 2 * SLOT], phi: vec![0; SLOT], gain: vec![0; SLOT] }
    }
}

fn port_correct(input: &Input, to: &mut Places) {
    let [a, b] = &input.heads;
    let (table, store) = (&input.table, &input.store);
    // SAFETY: slices by their pointers and lengths; the port writes the places only.
    let refusal = unsafe {
        measure_correct(
            a.theta,
            a.amp,
            b.theta,
            b.amp,
            table.as_ptr(),
            table.len(),
            store.as_ptr(),
            store.len(),
            to.y.as_mut_ptr(),
            to.y.len(),
            to.phi.as_mut_ptr(),
            to.phi.len(),
            to.gain.as_mut_ptr(),
            to.gain.len(),
        )
    };
    assert_eq!(refusal, 0);
}

#[inline(never)]
fn rust_correct(phase: &mut SlotPhase, head: Head, out: &mut Vec<Corrected>) {
    phase.head(head, out);
}

fn check(input: &Input) {
    let (mut rust, mut port) = (vec![0; 2 * SLOT], vec![0; 2 * SLOT]);
    assert_eq!(rust_rotate(&input.bytes, &mut rust), port_rotate(input, &mut port), "the phases differ");
    assert_eq!(rust, port, "rotated symbols differ");
    let (mut out, mut to) = (Vec::new(), Places::new());
    rust_correct(&mut input.held(), input.heads[1].clone(), &mut out);
    port_correct(input, &mut to);
    assert_eq!(out.len(), SLOT);
    for (j, c) in out.iter().enumerate() {
        assert_eq!(c.y, [to.y[2 * j], to.y[2 * j + 1]], "corrected symbols differ");
        assert_eq!((c.phi, c.gain), (to.phi[j], to.gain[j]), "phases or gains differ");
    }
}

fn ns(run: impl FnOnce()) -> f64 {
    let start = Instant::now();
    run();
    start.elapsed().as_nanos() as f64 / SLOT as f64
}

fn time(input: &Input) {
    let mut least = [f64::MAX; 4];
    let mut out = vec![0; 2 * SLOT];
    let mut to = Places::new();
    for _ in 0..400 {
        let (mut phase, mut list) = (input.held(), Vec::with_capacity(SLOT));
        let next = input.heads[1].clone();
        let taken = [
            ns(|| {
                black_box(rust_rotate(black_box(&input.bytes), &mut out));
            }),
            ns(|| {
                black_box(port_rotate(black_box(input), &mut out));
            }),
            ns(|| rust_correct(&mut phase, next, black_box(&mut list))),
            ns(|| port_correct(black_box(input), black_box(&mut to))),
        ];
        least = std::array::from_fn(|k| least[k].min(taken[k]));
    }
    println!("{:14} {:>9} {:>9} {:>6}", "ns a symbol", "Rust", "port", "ratio");
    for (name, pair) in ENTRIES.iter().zip(least.chunks_exact(2)) {
        println!("{name:14} {:9.2} {:9.2} {:6.2}", pair[0], pair[1], pair[1] / pair[0]);
    }
}

fn count(input: &Input, entry: &str, side: &str) {
    if !ENTRIES.contains(&entry) || !SIDES.contains(&side) {
        usage()
    }
    let (mut phase, mut list) = (input.held(), Vec::with_capacity(SLOT));
    let (mut out, mut to) = (vec![0; 2 * SLOT], Places::new());
    match (entry, side) {
        ("rotate", "rust") => {
            black_box(rust_rotate(black_box(&input.bytes), &mut out));
        }
        ("rotate", "port") => {
            black_box(port_rotate(black_box(input), &mut out));
        }
        ("correct", "rust") => rust_correct(&mut phase, input.heads[1].clone(), &mut list),
        ("correct", "port") => port_correct(black_box(input), &mut to),
        _ => (),
    }
    black_box((&phase, &list, &out, &to.y, &to.phi, &to.gain));
}

fn usage() -> ! {
    eprintln!("usage: bench_phase time | bench_phase count rotate|correct none|rust|port");
    std::process::exit(2)
}

fn main() {
    let input = Input::new();
    check(&input);
    let given: Vec<String> = std::env::args().skip(1).collect();
    match given.iter().map(String::as_str).collect::<Vec<_>>()[..] {
        ["time"] => time(&input),
        ["count", entry, side] => count(&input, entry, side),
        _ => usage(),
    }
}
