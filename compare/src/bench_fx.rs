//! bench_fx time: nanoseconds a call, the Rust beside the port, on the same inputs.
//! bench_fx count FUNCTION SIDE: 1,000 calls once, for an instruction counter; SIDE none makes the same
//! inputs and goes through them without a call, to be subtracted.

#[allow(dead_code)]
mod port;

use cases::inputs::{self, Pair, Random};
use isdbs3_phy::chain::fx as rust;
use std::hint::black_box;
use std::time::Instant;

const SEED: u64 = 20_261_117;
const SIDES: [&str; 3] = ["none", "rust", "port"];

/// Goes through the inputs and returns the sum of the answers, so that none can be left out.
type Run = fn(&[i16], &[Pair]) -> i64;

struct Subject {
    name: &'static str,
    /// An accepted input.
    input: fn(&mut Random) -> Pair,
    rust: Run,
    port: Run,
}

const SUBJECTS: [Subject; 4] = [
    Subject {
        name: "cordic",
        input: |r| (centred(r, 22), centred(r, 22)),
        rust: |_, all| sum(all, |(re, im)| added(rust_cordic(re, im))),
        port: |_, all| sum(all, |(re, im)| both(unsafe { port::sv_cordic(re, im) })),
    },
    Subject {
        name: "round_shift",
        input: |r| (centred(r, 60), r.below(61)),
        rust: |_, all| sum(all, |(v, s)| rust_round_shift(v, s as u32)),
        port: |_, all| sum(all, |(v, s)| unsafe { port::sv_round_shift(v, s as u32) }.value),
    },
    Subject {
        name: "mag_approx",
        input: |r| (centred(r, 60), centred(r, 60)),
        rust: |_, all| sum(all, |(re, im)| rust_mag_approx(re, im)),
        port: |_, all| sum(all, |(re, im)| unsafe { port::sv_mag_approx(re, im) }.value),
    },
    Subject {
        name: "cos_sin_round",
        input: |r| (r.below(1 << 32), 0),
        rust: |table, all| sum(all, |(a, _)| added(rust_cos_sin_round(table, a as u32))),
        port: |table, all| {
            sum(all, |(a, _)| both(unsafe { port::sv_cos_sin_round(table.as_ptr(), table.len(), a as u32) }))
        },
    },
];

// The Rust's functions, each called as the port's are.
#[inline(never)]
fn rust_cordic(re: i64, im: i64) -> (u32, i64) {
    rust::cordic(re, im)
}

#[inline(never)]
fn rust_round_shift(v: i64, s: u32) -> i64 {
    rust::round_shift(v, s)
}

#[inline(never)]
fn rust_mag_approx(re: i64, im: i64) -> i64 {
    rust::mag_approx(re, im)
}

#[inline(never)]
fn rust_cos_sin_round(table: &[i16], a: u32) -> (i64, i64) {
    rust::cos_sin_round(table, a)
}

/// Of size under 2^(bits - 1), either sign.
fn centred(r: &mut Random, bits: u32) -> i64 {
    r.below(1 << bits) - (1 << (bits - 1)) + 1
}

fn added((x, y): (impl Into<i64>, i64)) -> i64 {
    x.into().wrapping_add(y)
}

fn both(n: port::Numbers) -> i64 {
    n.first.wrapping_add(n.second)
}

fn sum(inputs: &[Pair], call: impl Fn(Pair) -> i64) -> i64 {
    inputs.iter().fold(0, |s, &pair| s.wrapping_add(call(black_box(pair))))
}

impl Subject {
    fn inputs(&self, calls: usize) -> Vec<Pair> {
        let mut random = Random(SEED);
        (0..calls).map(|_| (self.input)(&mut random)).collect()
    }

    fn run(&self, side: &str) -> Run {
        match side {
            "rust" => self.rust,
            "port" => self.port,
            _ => |_, all| sum(all, |(a, b)| a.wrapping_add(b)),
        }
    }
}

fn ns(run: Run, table: &[i16], inputs: &[Pair]) -> f64 {
    let start = Instant::now();
    black_box(run(table, black_box(inputs)));
    start.elapsed().as_nanos() as f64 / inputs.len() as f64
}

/// The least of many runs of each side, taken in turns, so that a load on the machine meets both.
fn least_ns(sides: [Run; 2], table: &[i16], inputs: &[Pair]) -> [f64; 2] {
    (0..1_000).fold([f64::MAX; 2], |[a, b], _| {
        let [x, y] = sides.map(|run| ns(run, table, inputs));
        [a.min(x), b.min(y)]
    })
}

fn time(table: &[i16]) {
    println!("{:14} {:>9} {:>9} {:>6}", "ns a call", "Rust", "port", "ratio");
    for subject in &SUBJECTS {
        let inputs = subject.inputs(2_000);
        assert_eq!((subject.rust)(table, &inputs), (subject.port)(table, &inputs), "{}: the sums differ", subject.name);
        let [rust, port] = least_ns([subject.rust, subject.port], table, &inputs);
        println!("{:14} {rust:9.2} {port:9.2} {:6.2}", subject.name, port / rust);
    }
}

fn count(table: &[i16], name: &str, side: &str) {
    let Some(subject) = SUBJECTS.iter().find(|s| s.name == name) else { usage() };
    if !SIDES.contains(&side) {
        usage()
    }
    black_box(subject.run(side)(table, black_box(&subject.inputs(1_000))));
}

fn usage() -> ! {
    eprintln!("usage: bench_fx time | bench_fx count FUNCTION none|rust|port");
    std::process::exit(2)
}

fn main() {
    let table = inputs::cosine_table();
    let words: Vec<String> = std::env::args().skip(1).collect();
    match words.iter().map(String::as_str).collect::<Vec<_>>()[..] {
        ["time"] => time(&table),
        ["count", name, side] => count(&table, name, side),
        _ => usage(),
    }
}
