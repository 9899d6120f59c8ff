//! vectors fx|sync|phase|demap|eq|frame|receiver DIR: writes DIR/stdin, calls for the replay program, and DIR/stdout, the answers it owes:
//! the Rust's, and document 01's refusals. The port has no part in it.
//!
//! fx, stdin: the carrier table (1,024 i16), then calls of op, a, b. stdout: answers of refusal, x, y.
//! Numbers of a call or an answer have 8 bytes; all are least byte first.
//! sync, phase, demap, eq, frame, receiver: calls and answers as README.md has them. Where the Rust cannot be asked the answers are the model's.

use cases::demap::kinds::KINDS as DEMAP_KINDS;
use cases::demap::player as demap;
use cases::eq::kinds::KINDS as EQ_KINDS;
use cases::eq::player as eq;
use cases::frame::kinds::KINDS as FRAME_KINDS;
use cases::frame::player as frame;
use cases::fx::{Answer, Function, Kind, FUNCTIONS};
use cases::inputs::{self, Pair, Random, Size};
use cases::phase::kinds::KINDS;
use cases::phase::player as phase;
use cases::receiver::kinds::sample as receiver_sample;
use cases::receiver::player as receiver;
use cases::stage::{self, Sink};
use cases::sync::player::{Owed, Player, Telling};
use cases::sync::streams;

const SEED: u64 = 20_261_116;
const CALLS: usize = 400;
/// Of which at most so many at limits; the rest are random.
const LIMITS: usize = 300;

/// The values where a function's course or a refusal turns.
fn turning_points(kind: Kind) -> Vec<i64> {
    const TOP: i64 = 1 << 60;
    match kind {
        Kind::Unused => vec![0],
        Kind::Angle => inputs::by_powers(31).map(|a| a & 0xFFFF_FFFF).collect(),
        Kind::Shift => vec![0, 1, 2, 31, 32, 59, 60, 61, 64, 0xFFFF_FFFF],
        Kind::Divisor => vec![i64::MIN, -1, 0, 1, 2, 3, 4, TOP / 2, TOP - 1, TOP, TOP + 1, i64::MAX],
        Kind::Cordic => both_signs(&[1, 2, 3, 724, 1 << 21, (1 << 22) - 1, 1 << 22]),
        Kind::Wide => {
            both_signs(&[1, 2, 3, 127, 128, 32_767, 32_768, 1 << 22, (1 << 31) - 1, 1 << 31, TOP - 1, TOP, TOP + 1])
        }
    }
}

/// With 0 and the ends of i64.
fn both_signs(sizes: &[i64]) -> Vec<i64> {
    [0, i64::MIN, i64::MAX].into_iter().chain(sizes.iter().flat_map(|&v| [v, -v])).collect()
}

/// All pairs, one diagonal after another: a part from the front has every value of either list.
fn diagonals(first: Vec<i64>, second: Vec<i64>) -> Vec<Pair> {
    let diagonal = |k| first.iter().zip(second.iter().cycle().skip(k)).map(|(&a, &b)| (a, b));
    (0..second.len()).flat_map(diagonal).collect()
}

fn calls(f: &Function, random: &mut Random) -> Vec<Pair> {
    let [first, second] = f.kinds.map(turning_points);
    let mut calls = diagonals(first, second);
    calls.truncate(LIMITS);
    while calls.len() < CALLS {
        calls.push(random.pair(f));
    }
    calls
}

/// A u32 is the low half of its field: one in eight has something above it.
fn field(kind: Kind, v: i64, random: &mut Random) -> i64 {
    match kind {
        Kind::Shift | Kind::Angle if random.below(8) == 0 => v | (random.next() as i64) << 32,
        _ => v,
    }
}

fn put(file: &mut Vec<u8>, numbers: [i64; 3]) {
    numbers.iter().for_each(|n| file.extend(n.to_le_bytes()));
}

type Files = [(&'static str, Vec<u8>); 2];

fn sync_files() -> Files {
    let (mut stdin, mut stdout) = (Vec::new(), Vec::new());
    let mut sink = |calls: Vec<u8>, owed: Vec<Owed>| {
        stdin.extend(calls);
        stdout.extend(owed.iter().flat_map(|o| o.told).flat_map(u64::to_le_bytes));
    };
    let mut player = Player::new(Telling { every: 1 << 20, events: true, all: (0, 0) }, &mut sink);
    streams::sample(&mut player, &mut Random(SEED));
    player.end();
    [("stdin", stdin), ("stdout", stdout)]
}

/// The calls that `play` makes, and what they owe.
fn stage_files(play: impl for<'a> FnOnce(&'a mut Sink<'a>)) -> Files {
    let (mut stdin, mut stdout) = (Vec::new(), Vec::new());
    let mut sink = |calls: Vec<u8>, owed: Vec<stage::Owed>| {
        stdin.extend(calls);
        stdout.extend(owed.iter().flat_map(|o| o.told).flat_map(u64::to_le_bytes));
    };
    play(&mut sink);
    [("stdin", stdin), ("stdout", stdout)]
}

fn phase_files() -> Files {
    stage_files(|sink| {
        let (mut player, mut random) = (phase::Player::sparse(SEED, 11, sink), Random(SEED));
        KINDS.iter().for_each(|kind| (kind.play)(&mut player, &mut random, Size::Sample));
        player.end();
    })
}

fn demap_files() -> Files {
    stage_files(|sink| {
        let (mut player, mut random) = (demap::Player::sparse(SEED, sink), Random(SEED));
        DEMAP_KINDS.iter().for_each(|kind| (kind.play)(&mut player, &mut random, Size::Sample));
        player.end();
    })
}

fn eq_files() -> Files {
    stage_files(|sink| {
        let (mut player, mut random) = (eq::Player::sparse(SEED, 61, sink), Random(SEED));
        EQ_KINDS.iter().for_each(|kind| (kind.play)(&mut player, &mut random, Size::Sample));
        player.end();
    })
}

fn frame_files() -> Files {
    stage_files(|sink| {
        let (mut player, mut random) = (frame::Player::new(SEED, sink), Random(SEED));
        FRAME_KINDS.iter().for_each(|kind| (kind.play)(&mut player, &mut random, Size::Sample));
        player.end();
    })
}

fn receiver_files() -> Files {
    stage_files(|sink| {
        let mut player = receiver::Player::new(SEED, sink);
        receiver_sample(&mut player, &mut Random(SEED));
        player.end();
    })
}

fn fx_files() -> Files {
    let mut random = Random(SEED);
    let table = inputs::cosine_table();
    let mut stdin: Vec<u8> = table.iter().flat_map(|entry| entry.to_le_bytes()).collect();
    let mut stdout = Vec::new();
    for (op, f) in (0..).zip(&FUNCTIONS) {
        for (a, b) in calls(f, &mut random) {
            let Answer { refusal, x, y } = f.expected(&table, a, b);
            put(&mut stdin, [op, field(f.kinds[0], a, &mut random), field(f.kinds[1], b, &mut random)]);
            put(&mut stdout, [i64::from(refusal), x, y]);
        }
    }
    [("stdin", stdin), ("stdout", stdout)]
}

fn usage() -> ! {
    eprintln!("usage: vectors fx|sync|phase|demap|eq|frame|receiver DIR");
    std::process::exit(2)
}

fn main() -> std::io::Result<()> {
    let words: Vec<String> = std::env::args().skip(1).collect();
    let [set, dir] = &words[..] else { usage() };
    let files = match set.as_str() {
        "fx" => fx_files(),
        "sync" => sync_files(),
        "phase" => phase_files(),
        "demap" => demap_files(),
        "eq" => eq_files(),
        "frame" => frame_files(),
        "receiver" => receiver_files(),
        _ => usage(),
    };
    for (name, bytes) in files {
        std::fs::write(format!("{dir}/{name}"), &bytes)?;
        println!("{name}: {} bytes", bytes.len());
    }
    Ok(())
}
