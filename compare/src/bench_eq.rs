//! bench_eq time: nanoseconds of a symbol through the filter, of a training and of a solve, the Rust beside the port.
//! bench_eq count ENTRY SIDE: one run, for an instruction counter; SIDE none makes the same input without a call, to be
//! subtracted; of the Rust's trainings SIDE pushes is to be subtracted too.
//! In time a training of the Rust includes its push; the port's includes the shift of the line.

use cases::inputs::Random;
use isdbs3_phy::chain::eq::{solve_sums, Equaliser, Sums};
use std::hint::black_box;
use std::time::Instant;

const SEED: u64 = 20_261_115;
const ENTRIES: [(&str, usize); 3] = [("filter", 9_296), ("train", 1_000), ("solve", 50)];
const SIDES: [&str; 4] = ["none", "pushes", "rust", "port"];

#[repr(C)]
#[derive(Clone, Copy)]
struct Line {
    x: [i16; 22],
}

#[repr(C)]
struct Rows {
    x: [i16; 96],
}

#[repr(C)]
#[derive(Clone, Copy)]
struct CSums {
    frame: u32,
    count: u32,
    r: [i64; 132],
    p: [i64; 22],
}

#[repr(C)]
struct CSolved {
    refusal: u8,
    taps: [i16; 22],
}

extern "C" {
    fn measure_rows(taps: Line) -> Rows;
    fn measure_filter(rows: &Rows, ys: *const i16, numbers: usize, out: *mut i16, room: usize) -> u8;
    fn measure_train(ys: *const i16, numbers: usize, di: i16, dq: i16) -> CSums;
    fn measure_solve(sums: CSums) -> CSolved;
}

type Pair = [i16; 2];

struct Input {
    taps: [Pair; 11],
    symbols: Vec<Pair>,
    sums: Sums,
}

fn flat(pairs: &[[i64; 2]]) -> impl Iterator<Item = i64> + '_ {
    pairs.iter().flatten().copied()
}

impl Input {
    fn new() -> Self {
        let mut random = Random(SEED);
        let mut pair = |size: u64| std::array::from_fn(|_| (random.below(2 * size + 1) as i64 - size as i64) as i16);
        let taps = std::array::from_fn(|k| if k == 5 { [16_384, 0] } else { pair(2_000) });
        let symbols: Vec<Pair> = (0..9_296).map(|_| pair(1_500)).collect();
        let mut eq = Equaliser::new();
        eq.open(0);
        for (k, &y) in symbols.iter().enumerate() {
            eq.push(y);
            if k % 7 == 0 {
                eq.train(pair(724));
            }
        }
        Self { taps, symbols, sums: eq.close().expect("open sums") }
    }

    fn c_sums(&self) -> CSums {
        let (mut r, mut p) = ([0; 132], [0; 22]);
        r.iter_mut().zip(flat(&self.sums.r)).for_each(|(to, v)| *to = v);
        p.iter_mut().zip(flat(&self.sums.p)).for_each(|(to, v)| *to = v);
        CSums { frame: self.sums.frame, count: self.sums.count, r, p }
    }
}

/// Calls that make rows.
const ROWS: usize = 1_000;

const REFERENCE: Pair = [724, -724];

/// Outputs of the filter, a sum's entries, taps: what each side makes, flat.
fn rust(input: &Input, entry: &str, n: usize) -> Vec<i64> {
    let mut eq = Equaliser::new();
    match entry {
        "filter" => {
            eq.load(input.taps, 1);
            let mut out = vec![0; 2 * n];
            filter(&mut eq, &input.symbols[..n], &mut out);
            out.iter().map(|&v| i64::from(v)).collect()
        }
        "train" => {
            eq.open(0);
            // ten symbols of zero, so that the line is full at the first of the others
            (0..10).for_each(|_| push(&mut eq, [0; 2]));
            input.symbols[..n].iter().for_each(|&y| {
                push(&mut eq, y);
                train(&mut eq);
            });
            let s = eq.close().expect("open sums");
            flat(&s.r).chain(flat(&s.p)).collect()
        }
        _ => {
            let mut taps = None;
            (0..n).for_each(|_| taps = black_box(solve_sums(black_box(&input.sums))));
            taps.expect("a regular system").iter().flatten().map(|&v| i64::from(v)).collect()
        }
    }
}

/// The first five symbols have no output: 0 stands for it.
#[inline(never)]
fn filter(eq: &mut Equaliser, symbols: &[Pair], out: &mut [i16]) {
    for (&y, z) in symbols.iter().zip(out.chunks_exact_mut(2)) {
        z.copy_from_slice(&eq.push(y).unwrap_or([0; 2]));
    }
}

#[inline(never)]
fn push(eq: &mut Equaliser, y: Pair) {
    black_box(eq.push(y));
}

#[inline(never)]
fn train(eq: &mut Equaliser) {
    eq.train(black_box(REFERENCE));
}

fn port(input: &Input, entry: &str, n: usize) -> Vec<i64> {
    // SAFETY: slices by their pointers and lengths; the port writes out only.
    match entry {
        "filter" => {
            let taps: Vec<i16> = input.taps.iter().flatten().copied().collect();
            let line = Line { x: std::array::from_fn(|k| taps[k]) };
            let ys = input.symbols[..n].as_flattened();
            let mut out = vec![0; 2 * n];
            let rows = unsafe { measure_rows(line) };
            let done = unsafe { measure_filter(&rows, ys.as_ptr(), ys.len(), out.as_mut_ptr(), out.len()) };
            assert_eq!(done, 1);
            out[..10].fill(0);
            out.iter().map(|&v| i64::from(v)).collect()
        }
        "train" => {
            let ys = input.symbols[..n].as_flattened();
            let s = unsafe { measure_train(ys.as_ptr(), ys.len(), REFERENCE[0], REFERENCE[1]) };
            assert_eq!(s.count as usize, n);
            s.r.iter().chain(&s.p).copied().collect()
        }
        _ => {
            let sums = input.c_sums();
            let mut taps = [0; 22];
            for _ in 0..n {
                let solved = unsafe { measure_solve(black_box(sums)) };
                assert_eq!(solved.refusal, 0);
                taps = solved.taps;
            }
            taps.iter().map(|&v| i64::from(v)).collect()
        }
    }
}

fn ns(run: impl FnOnce() -> Vec<i64>, n: usize) -> f64 {
    let start = Instant::now();
    black_box(run());
    start.elapsed().as_nanos() as f64 / n as f64
}

fn time(input: &Input) {
    println!("{:14} {:>9} {:>9} {:>6}", "ns", "Rust", "port", "ratio");
    for (entry, n) in ENTRIES {
        let mut least = [f64::MAX; 2];
        for _ in 0..200 {
            let taken = [ns(|| rust(input, entry, n), n), ns(|| port(input, entry, n), n)];
            least = std::array::from_fn(|k| least[k].min(taken[k]));
        }
        println!("{entry:14} {:9.2} {:9.2} {:6.2}", least[0], least[1], least[1] / least[0]);
    }
}

/// The rows of the taps, which only the port makes, once a load.
fn rows(input: &Input) {
    let line = Line { x: std::array::from_fn(|k| input.taps[k / 2][k % 2]) };
    // SAFETY: numbers by value.
    (0..ROWS).for_each(|_| drop(black_box(unsafe { measure_rows(black_box(line)) })));
}

fn count(input: &Input, entry: &str, side: &str) {
    if entry == "rows" {
        return if side == "port" {
            rows(input)
        };
    }
    let Some(&(entry, n)) = ENTRIES.iter().find(|e| e.0 == entry) else { usage() };
    black_box(match (side, entry) {
        ("rust", _) => rust(input, entry, n),
        ("port", _) => port(input, entry, n),
        // a training comes with a push, which the Rust filters: to be subtracted
        ("pushes", "train") => {
            let mut eq = Equaliser::new();
            (0..10).for_each(|_| push(&mut eq, [0; 2]));
            input.symbols[..n].iter().for_each(|&y| push(&mut eq, y));
            Vec::new()
        }
        _ => Vec::new(),
    });
}

fn usage() -> ! {
    eprintln!("usage: bench_eq time | bench_eq count filter|train|solve|rows none|pushes|rust|port");
    std::process::exit(2)
}

fn main() {
    let input = Input::new();
    let given: Vec<String> = std::env::args().skip(1).collect();
    let words: Vec<&str> = given.iter().map(String::as_str).collect();
    if words.first() == Some(&"time") {
        for (entry, n) in ENTRIES {
            assert_eq!(rust(&input, entry, n), port(&input, entry, n), "{entry}: the sides differ");
        }
    }
    match words[..] {
        ["time"] => time(&input),
        ["count", entry, side] if SIDES.contains(&side) => count(&input, entry, side),
        _ => usage(),
    }
}
