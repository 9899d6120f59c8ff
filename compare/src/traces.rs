//! traces: what the unchanged stages, wired as a receiver, make of the short run at this length of a slot, as text of antt on standard
//! output. Its words stand in crates/receiver_runs/specs/Play.antt. Where the Rust's own `Chain` goes the same way, it goes along.

#[path = "rust/chain.rs"]
mod chain;
#[path = "receiver/short.rs"]
mod short;
#[path = "rust/wired.rs"]
mod wired;

use chain::Along;
use isdbs3_core::params::MOD_SLOT;
use isdbs3_phy as phy;
use isdbs3_phy::chain::eq::Sums;
use isdbs3_phy::chain::phase::Corrected;
use isdbs3_phy::chain::sync::{Head, SyncStats, Word};
use short::{Call, Plan};
use std::fmt::Display;
use wired::{Event, Receiver, Run, Told};

/// As in the replay programs.
const FACTOR: u64 = 2_654_435_761;
/// What a soft buffer holds at first.
const FILL: i8 = 85;

#[derive(Default)]
struct Digest(u64);

impl Digest {
    fn mix(&mut self, numbers: impl IntoIterator<Item = i64>) {
        for n in numbers {
            self.0 = self.0.wrapping_mul(FACTOR).wrapping_add(n as u64);
        }
    }

    fn of(numbers: impl IntoIterator<Item = i64>) -> u64 {
        let mut d = Self::default();
        d.mix(numbers);
        d.0
    }
}

// ---- numbers of what is told, for the digest

fn word_number(word: Word) -> i64 {
    match word {
        Word::Ssync => 0,
        Word::Fsync => 1,
        Word::NotFsync => 2,
    }
}

fn slot_numbers(number: Option<u8>, frame: Option<u32>) -> [i64; 3] {
    match (number, frame) {
        (Some(n), Some(f)) => [1, n.into(), f.into()],
        _ => [0, 0, 0],
    }
}

fn event_numbers(event: &Event) -> Vec<i64> {
    match *event {
        Event::Head(h) => {
            let [known, number, frame] = slot_numbers(h.number, h.frame);
            let [re, im] = h.corr.map(i64::from);
            let word = word_number(h.word);
            vec![1, h.at as i64, word, re, im, h.theta.into(), h.amp, known, number, frame, h.nco_phase.into()]
        }
        Event::Period(p) => {
            let SyncStats { peak, peak_pos, sum, locked, offset, ssync_parity, stray_markers, missed_markers } = p;
            let counters = [stray_markers, missed_markers].map(i64::from);
            let places = [peak_pos.into(), sum as i64, locked.into(), offset.into(), ssync_parity.into()];
            [vec![2, peak.into()], places.to_vec(), counters.to_vec()].concat()
        }
        Event::Lost(at) => vec![3, at as i64],
    }
}

fn place_numbers(c: &Corrected) -> Vec<i64> {
    let [known, number, frame] = slot_numbers(c.number, c.frame);
    vec![c.at as i64, c.j.into(), word_number(c.word), known, number, frame]
}

fn corrected_numbers(c: &Corrected) -> Vec<i64> {
    let values = [c.r[0].into(), c.r[1].into(), c.phi.into(), c.gain, c.y[0].into(), c.y[1].into()];
    [place_numbers(c), values.to_vec()].concat()
}

fn run_numbers(r: &Run) -> [i64; 4] {
    [r.at as i64, r.j.into(), r.count as i64, r.bits as i64]
}

// ---- text

fn integer(v: i64) -> String {
    if v < 0 {
        format!("minus {}", -v)
    } else {
        format!("pos {v}")
    }
}

fn argument(v: i64) -> String {
    format!("({})", integer(v))
}

fn list(entries: impl IntoIterator<Item = impl Display>) -> String {
    let entries: String = entries.into_iter().map(|e| format!("{e} ∷ ")).collect();
    if entries.is_empty() {
        "[]".into()
    } else {
        format!("({entries}[])")
    }
}

/// Entries joined by ∷ or ++, each on a line of its own.
fn lines(entries: impl IntoIterator<Item = String>, join: &str) -> String {
    let entries: Vec<String> = entries.into_iter().chain(["[]".into()]).collect();
    format!("\n    {}", entries.join(&format!("\n    {join} ")))
}

fn integers(values: impl IntoIterator<Item = i64>) -> String {
    list(values.into_iter().map(integer))
}

fn truth(b: bool) -> &'static str {
    if b {
        "true"
    } else {
        "false"
    }
}

fn head_text(h: &Head) -> String {
    let word = match h.word {
        Word::Ssync => "Ssync",
        Word::Fsync => "Fsync",
        Word::NotFsync => "NotFsync",
    };
    let slot = match (h.number, h.frame) {
        (Some(n), Some(f)) => format!("(slot_in {n} {f})"),
        _ => "None".into(),
    };
    let [re, im] = h.corr.map(|part| argument(part.into()));
    format!("(head {} {word} {re} {im} {} {} {slot} {})", h.at, h.theta, argument(h.amp), h.nco_phase)
}

fn event_text(event: &Event) -> String {
    match event {
        Event::Head(h) => head_text(h),
        Event::Period(p) => {
            let figures = format!("{} {} {} {}", p.peak, p.peak_pos, p.sum, truth(p.locked));
            format!("(period {figures} {} {} {} {})", p.offset, p.ssync_parity, p.stray_markers, p.missed_markers)
        }
        Event::Lost(at) => format!("(Lost {at})"),
    }
}

fn events_text(events: &[Event]) -> String {
    let texts: Vec<String> = events.iter().map(event_text).collect();
    let word = ["", "one", "two", "three"][texts.len()];
    format!("({word} {})", texts.join(" "))
}

fn run_text(r: &Run) -> String {
    format!("(run {} {} {} {})", r.at, r.j, r.count, r.bits)
}

fn sums_text(sums: Option<Sums>) -> String {
    let Some(s) = sums else { return "summed false 0 0 0 0".into() };
    let [upper, right] = [&s.r, &s.p].map(|entries| Digest::of(entries.iter().flatten().copied()));
    format!("summed true {} {} {upper} {right}", s.frame, s.count)
}

/// Runs of equal entries.
fn table_text(table: &[i16]) -> String {
    let run = |run: &[i16]| format!("replicate {} {}", run.len(), argument(run[0].into()));
    lines(table.chunk_by(|a, b| a == b).map(run), "++")
}

/// Bit k is set where number k is 1.
fn signs_text(word: &[[i8; 2]]) -> String {
    let bits = word.iter().flatten().enumerate().map(|(k, &v)| u64::from(v > 0) << k);
    format!("signs 48 {}", bits.sum::<u64>())
}

/// Eight symbols in a number: the first lowest, 16 bits each, 128 more than I above 128 more than Q.
fn packed(eight: &[[i8; 2]]) -> u128 {
    assert_eq!(eight.len(), 8, "a part of eight symbols");
    let of = |[i, q]: [i8; 2]| (i16::from(i) + 128) as u128 * 256 + (i16::from(q) + 128) as u128;
    eight.iter().rev().fold(0, |number, &x| number << 16 | of(x))
}

/// Each line a list of calls.
fn call_lines(call: &Call) -> Vec<String> {
    let line = match call {
        Call::Symbols(times, symbols) => {
            let packs: Vec<u128> = symbols.chunks(8).map(packed).collect();
            let eights = packs.chunks(3).map(|three| format!("eights {}", list(three)));
            let again = |line| if *times == 1 { line } else { format!("repeated {times} ({line})") };
            assert!(*times == 1 || packs.len() <= 3, "more than a line is repeated");
            return eights.map(again).collect();
        }
        Call::Points(p) => {
            let points = integers(p.points.iter().flatten().map(|&v| v.into()));
            format!("(points {} {points} {} ∷ [])", p.bits, argument(p.k))
        }
        Call::Taps(taps, frame) => {
            format!("(taps {} {frame} ∷ [])", integers(taps.iter().flatten().map(|&v| v.into())))
        }
        Call::Open(frame) => format!("(opens {frame} ∷ [])"),
        Call::End => "(ends ∷ [])".into(),
        Call::Restart(at) => format!("(restarts {at} ∷ [])"),
    };
    vec![line]
}

// ---- a run

struct Player {
    receiver: Receiver,
    beside: Along,
    heard: usize,
    from: usize,
    soft: Vec<i8>,
    digest: Digest,
    told: Vec<String>,
}

impl Player {
    fn symbol(&mut self, x: [i8; 2]) {
        let told = self.receiver.push(x);
        self.beside.agrees(x, &told, self.receiver.nco().freq);
        let after = self.heard;
        self.heard += 1;
        if told.events.is_empty() {
            assert!(told.aligned.is_empty() && told.soft.is_empty(), "a slot without a head");
            return;
        }
        for (place, value) in self.soft.iter_mut().zip(&told.soft) {
            *place = *value;
        }
        assert!(told.soft.len() <= self.soft.len(), "a soft buffer too short");
        self.mix(&told);
        if after >= self.from {
            let soft = if told.corrected.is_empty() { &[][..] } else { &self.soft[..] };
            let [tail, body] = &told.runs;
            let runs = if told.runs == <[Run; 2]>::default() {
                "no_runs".into()
            } else {
                format!("(both {} {})", run_text(tail), run_text(body))
            };
            let soft = integers(soft.iter().map(|&v| v.into()));
            self.told.push(format!("told {after} {} {runs} {soft} {}", events_text(&told.events), self.digest.0));
        }
    }

    fn mix(&mut self, told: &Told) {
        for place in 0..3 {
            self.digest.mix(told.events.get(place).map_or(vec![0], event_numbers));
        }
        self.digest.mix(told.corrected.iter().flat_map(corrected_numbers));
        for a in &told.aligned {
            self.digest.mix(place_numbers(&a.symbol));
            self.digest.mix(a.z.map(i64::from));
        }
        self.digest.mix(told.runs.iter().flat_map(run_numbers));
        self.digest.mix(self.soft.iter().map(|&v| v.into()));
        self.digest.mix(self.receiver.accumulators().iter().map(|&a| a.into()));
    }

    fn call(&mut self, call: &Call) {
        match call {
            Call::Symbols(times, symbols) => {
                for _ in 0..*times {
                    symbols.iter().for_each(|&x| self.symbol(x));
                }
            }
            Call::Points(p) => self.receiver.load_points(p.clone()),
            Call::Taps(taps, frame) => self.receiver.load_taps(*taps, *frame),
            Call::Open(frame) => self.receiver.open(*frame),
            Call::End => {
                let sums = self.receiver.end();
                self.told.push(sums_text(sums));
            }
            Call::Restart(at) => {
                self.receiver.restart(*at);
                self.beside.restart(*at);
            }
        }
    }

    fn end(&mut self) {
        let nco = self.receiver.nco();
        let acc = Digest::of(self.receiver.accumulators().iter().map(|&a| a.into()));
        let step = argument(nco.freq.into());
        self.told.push(format!("left {} {} {} {step} {acc}", self.heard, self.receiver.next(), nco.phase));
    }
}

fn main() {
    let Plan { name, says, words: [f, s], table, at, step, soft, from, calls } = short::plan();
    isdb_frontend::s3sync::choose_words(f, s);
    isdb_frontend::tables::choose_table(&table);
    let receiver = Receiver::new(at, step);
    let beside = Along::new(at, step);
    let soft_buffer = vec![FILL; soft];
    let mut player =
        Player { receiver, beside, heard: 0, from, soft: soft_buffer, digest: Digest::default(), told: Vec::new() };
    calls.iter().for_each(|c| player.call(c));
    player.end();

    let define = |part: &str, of: &str, text: &str| {
        println!("\nunfoldable pub {name}_{part} : {of}\n{name}_{part} ={text}");
    };
    println!("\n-- ---- {says}");
    define("table", "List ℤ", &table_text(&table));
    let [f, s] = [f, s].map(|word| signs_text(&word));
    let kit = format!("n = {MOD_SLOT}; f = {f}; s = {s}; table = {name}_table; from = {from}");
    define("kit", "Kit", &format!(" record {{ {kit} }}"));
    define("begun", "System", &format!(" begun {MOD_SLOT} {at} {} {soft}", argument(step.into())));
    define("calls", "List Call", &lines(calls.iter().flat_map(call_lines), "++"));
    define("told", "List Told", &lines(player.told.into_iter(), "∷"));
}
