//! bench_demap time: nanoseconds a symbol, demapped in a block, the Rust's `demap` beside the port, for 1 to 5 bits.
//! bench_demap count BITS SIDE: one run, for an instruction counter; SIDE none makes the same input without a call, to
//! be subtracted.

use cases::inputs::Random;
use isdbs3_phy::chain::demap::demap;
use std::hint::black_box;
use std::time::Instant;

const SEED: u64 = 20_261_115;
const SYMBOLS: usize = 2_000;
const SCALE: i64 = 81_722;
const SIDES: [&str; 3] = ["none", "rust", "port"];

extern "C" {
    fn measure_demap(
        sy: *const i16,
        symbols: usize,
        points: *const i16,
        numbers: usize,
        bits: usize,
        k: i64,
        out: *mut i8,
        room: usize,
    ) -> u8;
}

/// Symbols, and 2^bits points, all within 2,048.
struct Input {
    bits: usize,
    symbols: Vec<[i16; 2]>,
    points: Vec<[i16; 2]>,
}

impl Input {
    fn new(bits: usize) -> Self {
        let mut random = Random(SEED + bits as u64);
        let mut pairs = |n| (0..n).map(|_| std::array::from_fn(|_| (random.below(4_097) - 2_048) as i16)).collect();
        Self { bits, symbols: pairs(SYMBOLS), points: pairs(1 << bits) }
    }
}

#[inline(never)]
fn rust(input: &Input, out: &mut [i8]) {
    for (y, o) in input.symbols.iter().zip(out.chunks_exact_mut(input.bits)) {
        black_box(demap(*y, &input.points, input.bits, SCALE, o));
    }
}

fn port(input: &Input, out: &mut [i8]) {
    let (sy, points) = (input.symbols.as_flattened(), input.points.as_flattened());
    // SAFETY: slices by their pointers and lengths; the port writes out only.
    let refusal = unsafe {
        measure_demap(
            sy.as_ptr(),
            sy.len(),
            points.as_ptr(),
            points.len(),
            input.bits,
            SCALE,
            out.as_mut_ptr(),
            out.len(),
        )
    };
    assert_eq!(refusal, 0);
}

fn ns(run: impl FnOnce()) -> f64 {
    let start = Instant::now();
    run();
    start.elapsed().as_nanos() as f64 / SYMBOLS as f64
}

fn time() {
    println!("{:14} {:>9} {:>9} {:>6}", "ns a symbol", "Rust", "port", "ratio");
    for bits in 1..=5 {
        let input = Input::new(bits);
        let [mut a, mut b] = [(); 2].map(|_| vec![0; SYMBOLS * bits]);
        let mut least = [f64::MAX; 2];
        for _ in 0..400 {
            let taken = [ns(|| rust(black_box(&input), &mut a)), ns(|| port(black_box(&input), &mut b))];
            least = std::array::from_fn(|k| least[k].min(taken[k]));
        }
        assert_eq!(a, b, "soft bits differ");
        println!("{:14} {:9.2} {:9.2} {:6.2}", format!("demap {bits}"), least[0], least[1], least[1] / least[0]);
    }
}

fn count(bits: usize, side: &str) {
    let input = Input::new(bits);
    let mut out = vec![0; SYMBOLS * bits];
    match side {
        "rust" => rust(black_box(&input), &mut out),
        "port" => port(black_box(&input), &mut out),
        _ => (),
    }
    black_box(out);
}

fn usage() -> ! {
    eprintln!("usage: bench_demap time | bench_demap count 1..5 none|rust|port");
    std::process::exit(2)
}

fn main() {
    let given: Vec<String> = std::env::args().skip(1).collect();
    match given.iter().map(String::as_str).collect::<Vec<_>>()[..] {
        ["time"] => time(),
        ["count", bits, side] if SIDES.contains(&side) => match bits.parse() {
            Ok(bits @ 1..=5) => count(bits, side),
            _ => usage(),
        },
        _ => usage(),
    }
}
