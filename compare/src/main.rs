//! compare [fx] [sync] [phase] [demap] [eq] [frame] [receiver] [--quick | --full] [--seed N] [--counts FILE]: the port beside the Rust, on the same
//! inputs. Without a part: all. With --counts everything that is counted goes to FILE, by name.

mod check;
mod demap_check;
mod eq_check;
mod frame_check;
mod fx_check;
mod phase_check;
mod port;
mod receiver_check;
mod replay;
mod stage_check;
mod sync_check;
mod tally;

use cases::inputs::Size;

const SEED: u64 = 20_261_115;
const RANDOM: u64 = 10_000_000;
const QUICK: u64 = 100_000;

struct Arguments {
    /// Names of parts; none of them: all.
    parts: Vec<String>,
    /// Random calls a function of fx.
    calls: u64,
    size: Size,
    seed: u64,
}

/// What can be compared by itself, in the order in which it is.
const PARTS: [(&str, fn(&Arguments)); 7] = [
    ("fx", |a| fx_check::compare(a.calls, a.seed)),
    ("sync", |a| sync_check::compare(a.size, a.seed)),
    ("phase", |a| phase_check::compare(a.size, a.seed)),
    ("demap", |a| demap_check::compare(a.size, a.seed)),
    ("eq", |a| eq_check::compare(a.size, a.seed)),
    ("frame", |a| frame_check::compare(a.size, a.seed)),
    ("receiver", |a| receiver_check::compare(a.size, a.seed)),
];

fn usage() -> ! {
    eprintln!("usage: compare [fx] [sync] [phase] [demap] [eq] [frame] [receiver] [--quick | --full] [--seed NUMBER] [--counts FILE]");
    std::process::exit(2)
}

fn arguments() -> Arguments {
    let mut a = Arguments { parts: Vec::new(), calls: RANDOM, size: Size::Short, seed: SEED };
    let mut words = std::env::args().skip(1);
    while let Some(word) = words.next() {
        match word.as_str() {
            "--quick" => a.calls = QUICK,
            "--full" => a.size = Size::Full,
            "--counts" => stage_check::tell_counts(&words.next().unwrap_or_else(|| usage())),
            "--seed" => a.seed = words.next().and_then(|n| n.parse().ok()).unwrap_or_else(|| usage()),
            part if PARTS.iter().any(|(name, _)| *name == part) => a.parts.push(word),
            _ => usage(),
        }
    }
    a
}

fn main() {
    let a = arguments();
    for (name, compare) in PARTS {
        if a.parts.is_empty() || a.parts.iter().any(|part| part == name) {
            compare(&a);
        }
    }
}
