//! The streams, by kind.

use super::calls::{Call, Event, Kind, Word};
use super::model::{Lock, Reading, Stage, State, SLOT};
use super::player::Player;
use crate::inputs::{pick, Random, Size};
use crate::stage::Least;
use isdbs3_phy::chain::sync::word_symbols;
use std::f64::consts::TAU;

const END: u64 = 1 << 62;

pub struct Stream {
    pub name: &'static str,
    pub play: fn(&mut Player, &mut Random, Size),
    pub least: Least,
}

pub const STREAMS: [Stream; 21] = [
    Stream { name: "zeros", play: zeros, least: &[("by the Rust", 25_000), ("looks at its state", 7), ("events", 2)] },
    Stream {
        name: "constant symbols",
        play: constants,
        least: &[("by the Rust", 650_000), ("looks at its state", 180), ("events", 70)],
    },
    Stream {
        name: "extreme symbols",
        play: extremes,
        least: &[("by the Rust", 120_000), ("looks at its state", 32), ("events", 12)],
    },
    Stream {
        name: "noise",
        play: noise,
        least: &[("by the Rust", 350_000), ("looks at its state", 91), ("events", 35)],
    },
    Stream {
        name: "one symbol a period",
        play: impulses,
        least: &[
            ("by the Rust", 1_300_000),
            ("looks at its state", 340),
            ("events", 240),
            ("heads", 100),
            ("losses", 1),
        ],
    },
    Stream {
        name: "bench values",
        play: bench_values,
        least: &[
            ("by the Rust", 1_700_000),
            ("looks at its state", 420),
            ("events", 360),
            ("heads", 170),
            ("losses", 1),
        ],
    },
    Stream {
        name: "at the ratio",
        play: at_the_ratio,
        least: &[("by the Rust", 69_000), ("looks at its state", 19), ("events", 7)],
    },
    Stream {
        name: "lock rule",
        play: lock_rule,
        least: &[("by the Rust", 150_000), ("looks at its state", 40), ("events", 25), ("heads", 8), ("losses", 1)],
    },
    Stream {
        name: "majorities",
        play: majorities,
        least: &[("by the Rust", 400_000), ("looks at its state", 100), ("events", 83), ("heads", 40)],
    },
    Stream {
        name: "frame gaps",
        play: frame_gaps,
        least: &[("by the Rust", 670_000), ("looks at its state", 170), ("events", 120), ("heads", 48)],
    },
    Stream {
        name: "refusals 1 and 2",
        play: refusals,
        least: &[
            ("by the Rust", 50),
            ("by the Rust, opened", 1),
            ("looks at its state", 2),
            ("refused 1", 4),
            ("refused 2", 330),
            ("refused 6", 1),
        ],
    },
    Stream {
        name: "positions",
        play: positions,
        least: &[
            ("by the Rust", 220_000),
            ("looks at its state", 100),
            ("events", 40),
            ("heads", 16),
            ("losses", 1),
            ("refused 7", 4_700),
        ],
    },
    Stream {
        name: "states out of range",
        play: out_of_range,
        least: &[
            ("by the Rust", 0),
            ("by the Rust, opened", 4_000),
            ("looks at its state", 200),
            ("events", 49),
            ("heads", 25),
            ("losses", 1),
            ("refused 6", 230),
            ("refused 7", 91),
        ],
    },
    Stream {
        name: "counts at their ends",
        play: ends_of_counts,
        least: &[
            ("by the Rust", 0),
            ("by the Rust, opened", 7),
            ("looks at its state", 3),
            ("events", 9),
            ("heads", 5),
        ],
    },
    Stream {
        name: "states handed in",
        play: handed_in,
        least: &[
            ("by the Rust", 0),
            ("by the Rust, opened", 76_000),
            ("looks at its state", 3_400),
            ("events", 3_100),
            ("heads", 2_000),
            ("losses", 410),
            ("refused 6", 5_000),
            ("refused 7", 450),
        ],
    },
    Stream {
        name: "random words",
        play: random_words,
        least: &[("by the Rust", 650_000), ("looks at its state", 160), ("events", 120), ("heads", 56), ("losses", 1)],
    },
    Stream {
        name: "offsets near 0, 9,295",
        play: offsets,
        least: &[("by the Rust", 690_000), ("looks at its state", 170), ("events", 130), ("heads", 61), ("losses", 1)],
    },
    Stream {
        name: "period losses, relocks",
        play: relocks,
        least: &[("by the Rust", 510_000), ("looks at its state", 120), ("events", 95), ("heads", 40), ("losses", 1)],
    },
    Stream {
        name: "random restarts",
        play: restarts,
        least: &[("by the Rust", 340_000), ("looks at its state", 100), ("events", 39), ("heads", 8)],
    },
    Stream {
        name: "frames with markers",
        play: frames,
        least: &[("by the Rust", 4_100_000), ("looks at its state", 1_000), ("events", 890), ("heads", 440)],
    },
    Stream {
        name: "marker losses",
        play: marker_losses,
        least: &[
            ("by the Rust", 2_600_000),
            ("looks at its state", 630),
            ("events", 550),
            ("heads", 270),
            ("losses", 1),
        ],
    },
];

/// The standard's F and S words. On a thread of its own, where no words are chosen.
pub fn standard() -> [Word; 2] {
    let flat = |word: u32| {
        let pairs = std::thread::spawn(move || word_symbols(word)).join().expect("a word");
        std::array::from_fn(|k| pairs[k / 2][k % 2])
    };
    [flat(0x52_F866), flat(0x36_715A)]
}

fn random_word(r: &mut Random) -> Word {
    std::array::from_fn(|_| if r.below(2) == 0 { 1 } else { -1 })
}

fn within(r: &mut Random, reach: i64) -> i16 {
    (r.below(2 * reach as u64 + 1) - reach) as i16
}

fn near(r: &mut Random, reach: i64) -> [i16; 2] {
    if reach == 0 {
        return [0; 2];
    }
    [within(r, reach), within(r, reach)]
}

/// Slots of a modulated signal: even slots begin with the F word, odd ones with the S word; slot 0 of a frame is
/// marked by the F word's other sign.
struct Signal {
    words: [Word; 2],
    amplitude: f64,
    /// In turns, and how far it goes on with each slot.
    phase: f64,
    drift: f64,
    noise: i64,
    /// The reach of what follows the word; 0 is silence.
    payload: i64,
    slot: u32,
    marks: bool,
    /// The sign of the F words.
    sign: f64,
}

impl Signal {
    fn new(words: [Word; 2], amplitude: f64) -> Self {
        Self { words, amplitude, phase: 0.0, drift: 0.0, noise: 0, payload: 0, slot: 1, marks: true, sign: 1.0 }
    }

    fn any(words: [Word; 2], r: &mut Random) -> Self {
        let amplitude = pick(r, &[3.0, 20.0, 300.0, 2_000.0, 14_000.0]);
        let third = (amplitude / 3.0) as i64;
        Self {
            amplitude,
            phase: r.below(1000) as f64 / 1000.0,
            drift: pick(r, &[0.0, 0.01, -0.02]),
            noise: pick(r, &[0, 1, third / 2]),
            payload: pick(r, &[0, third, 2 * third]),
            slot: r.below(120) as u32,
            sign: pick(r, &[1.0, -1.0]),
            ..Self::new(words, amplitude)
        }
    }

    /// One symbol of a word, turned, with noise.
    fn symbol(&self, pair: &[i8], scale: f64, r: &mut Random) -> [i16; 2] {
        let (sin, cos) = (TAU * self.phase).sin_cos();
        let (i, q) = (f64::from(pair[0]) * scale, f64::from(pair[1]) * scale);
        let noise = near(r, self.noise);
        let whole = |v: f64, n: i16| (v.round() as i64 + i64::from(n)).clamp(-32_768, 32_767) as i16;
        [whole(i * cos - q * sin, noise[0]), whole(i * sin + q * cos, noise[1])]
    }

    fn head(&mut self, p: &mut Player, r: &mut Random) {
        let odd = self.slot % 2;
        let marked = self.slot == 0 && self.marks;
        let sign = if odd == 1 {
            1.0
        } else if marked {
            -self.sign
        } else {
            self.sign
        };
        let word = self.words[odd as usize];
        for pair in word.chunks(2) {
            let symbol = self.symbol(pair, sign * self.amplitude, r);
            p.push(symbol);
        }
    }

    fn rest(&self, p: &mut Player, r: &mut Random, symbols: u64) {
        for _ in 0..symbols {
            p.push(near(r, self.payload));
        }
    }

    /// Part of a slot, so that the heads stand anywhere.
    fn lead(&self, p: &mut Player, r: &mut Random) {
        let symbols = r.below(SLOT) as u64;
        self.rest(p, r, symbols);
    }

    fn slots(&mut self, p: &mut Player, r: &mut Random, count: u64) {
        for _ in 0..count {
            self.head(p, r);
            self.rest(p, r, SLOT - 24);
            self.slot = (self.slot + 1) % 120;
            self.phase += self.drift;
        }
    }
}

fn start(p: &mut Player, words: &[Word; 2], at: u64) {
    p.words(&words[0], &words[1]);
    let answer = p.start(at);
    assert_eq!(answer.refusal, 0, "a sync that starts");
}

fn zeros(p: &mut Player, _: &mut Random, size: Size) {
    start(p, &standard(), 0);
    p.run(if size == Size::Full { 1_000_000 } else { 50_000 }, [0; 2]);
}

fn constants(p: &mut Player, r: &mut Random, size: Size) {
    let (ones, negative) = ([[1; 48]; 2], [[-1; 48], [1; 48]]);
    let symbols = [[-32_768, -32_768], [32_767, -32_768], [32_767, 32_767], [1, 0], [0, -1], [4_096, 1], [3, -5]];
    let periods = if size == Size::Full { 12 } else { 5 };
    for words in [ones, negative, standard(), [random_word(r), random_word(r)]] {
        for symbol in symbols {
            start(p, &words, 0);
            p.run(periods * SLOT + 100, symbol);
        }
    }
}

fn extremes(p: &mut Player, r: &mut Random, size: Size) {
    const PARTS: [i16; 8] = [-32_768, -32_767, -1, 0, 1, 32_766, 32_767, 4_096];
    for _ in 0..if size == Size::Full { 40 } else { 4 } {
        start(p, &[random_word(r), random_word(r)], r.below(1 << 40) as u64);
        let mut left = 60_000;
        while left > 0 {
            let longest = pick(r, &[1, 2, 30, 3_000]);
            let count = (1 + r.below(longest)).min(left);
            p.run(count as u64, [pick(r, &PARTS), pick(r, &PARTS)]);
            left -= count;
        }
    }
}

fn noise(p: &mut Player, r: &mut Random, size: Size) {
    for reach in [1, 2, 7, 60, 1_000, 4_096, 32_767] {
        start(p, &standard(), r.below(1 << 50) as u64);
        for _ in 0..if size == Size::Full { 2_000_000 } else { 100_000 } {
            p.push(near(r, reach));
        }
    }
}

/// A single symbol has one size at 24 positions: the first of them is the peak. Two apart make two such places.
fn impulses(p: &mut Player, r: &mut Random, size: Size) {
    for turn in 0..if size == Size::Full { 60 } else { 12 } {
        start(p, &[random_word(r), random_word(r)], r.below(1 << 60) as u64);
        p.run(r.below(SLOT) as u64, [0; 2]);
        let (symbol, gap) = (near(r, 3_000), pick(r, &[1, 23, 24, 100, 9_295]));
        for _ in 0..9 {
            p.push(symbol);
            p.run(gap - 1, [0; 2]);
            if gap < SLOT {
                p.push(if turn % 2 == 0 { symbol } else { [0; 2] });
                p.run(SLOT - gap - 1, [0; 2]);
            }
        }
        // silence until the lock is lost
        if turn % 4 == 0 {
            p.run(60 * SLOT, [0; 2]);
        }
    }
}

/// The last period told, if the last push told one.
fn last_period(p: &Player) -> Option<(u32, u16, u64, bool)> {
    p.desk.last.events.iter().find_map(|e| match *e {
        Event::Period { peak, place, sum, locked, .. } => Some((peak, place, sum, locked)),
        _ => None,
    })
}

/// Pushes to the end of the period and answers what it tells.
fn period(p: &mut Player, symbols: impl Fn(u64) -> [i16; 2]) -> (u32, u16, u64, bool) {
    for k in 0..SLOT {
        p.push(symbols(k));
    }
    last_period(p).expect("a period ends here")
}

/// Document 01, "Bench values", of this stage.
fn bench_values(p: &mut Player, r: &mut Random, _: Size) {
    // Symbols that add 2 each: four of them make size 8 at one position and at most 6 at any other.
    let words = [[1; 48]; 2];
    for (count, locks) in [(4, true), (3, false)] {
        start(p, &words, 0);
        // so that a turn of a period's length ends with a period
        p.run(23, [0; 2]);
        let spread = |k: u64| if [0, 8, 16, 23][..count].contains(&k) { [1; 2] } else { [0; 2] };
        for turn in 1..=5 {
            let expected = if locks { (1, 23, 1, turn >= 4) } else { (0, 0, 0, false) };
            assert_eq!(period(p, spread), expected, "P = {}, Q = 0: period {turn}", 2 * count);
        }
    }
    // Offset 9,295 and a marker loss: `lost`, then a period of zeros.
    let mut signal = Signal::new(standard(), 100.0);
    start(p, &signal.words, 0);
    p.run(9_295, [0; 2]);
    signal.slots(p, r, 20);
    signal.marks = true;
    while signal.slot != 1 {
        signal.slots(p, r, 1);
    }
    signal.marks = false;
    signal.slots(p, r, 239);
    signal.head(p, r);
    let at = p.next();
    let zeros = Event::Period { peak: 0, place: 0, sum: 0, locked: false, offset: 0, parity: 0, stray: 0, missed: 0 };
    let expected = [Event::Lost { at }, zeros, Event::Nothing];
    assert_eq!(p.desk.last.events, expected, "offset 9,295 and a marker loss");
    p.call(Call::Fold);
    p.tell();
}

/// "A period counts if peak > 0 and peak x 9,296 >= 3 x sum": a first period that does so exactly, or misses it by a little. A symbol (x, x) by
/// itself has the size 2x at 24 positions, so 129 symbols of 36 make a peak of 9 and a sum of 27,864, and one of 4 makes 24 more.
fn at_the_ratio(p: &mut Player, r: &mut Random, _: Size) {
    for (last, sum, locks) in [(0, 27_864, 4), (4, 27_888, 4), (8, 27_912, 5)] {
        start(p, &[[1; 48]; 2], r.below(1 << 60) as u64);
        p.run(23, [0; 2]);
        let first = |k: u64| match (k % 24, k / 24) {
            (0, 0..129) => [36; 2],
            (0, 129) => [last; 2],
            _ => [0; 2],
        };
        assert_eq!(period(p, first), (9, 0, sum, false), "a first period");
        for turn in 2..=5 {
            let (peak, place, _, locked) = period(p, |k| if k == 0 { [2_000; 2] } else { [0; 2] });
            assert_eq!((peak > 9, place, locked), (true, 0, turn >= locks), "period {turn} behind a sum of {sum}");
        }
    }
}

/// A period with one symbol (x, x) at this place, which is then the first of 24 with one size, above these others.
fn single(p: &mut Player, place: u64, x: i16, others: i16) -> bool {
    (0..SLOT).for_each(|k| p.push([if k == place { x } else { others }; 2]));
    last_period(p).is_some_and(|(.., locked)| locked)
}

/// "Four counting periods in a row with one peak position lock; eight others in a row, while locked, lose": each row is a place, the symbol
/// there and all others, and whether the sync is locked behind that period. Peaks at 5, 5, 5 and then at 9 lock with the fourth at 9; one that
/// does not count, since all symbols are strong, starts the count anew; a good period among others does so for the loss.
fn lock_rule(p: &mut Player, _: &mut Random, _: Size) {
    const MOVED: [(u64, i16, i16, bool); 7] = [
        (5, 100, 0, false),
        (5, 100, 0, false),
        (5, 100, 0, false),
        (9, 2_000, 0, false),
        (9, 2_000, 0, false),
        (9, 2_000, 0, false),
        (9, 2_000, 0, true),
    ];
    const WEAK: [(u64, i16, i16, bool); 7] = [
        (500, 100, 0, false),
        (500, 100, 0, false),
        (500, 100, 20, false),
        (500, 30_000, 0, false),
        (500, 30_000, 0, false),
        (500, 30_000, 0, false),
        (500, 30_000, 0, true),
    ];
    for rows in [MOVED, WEAK] {
        start(p, &[[1; 48]; 2], 0);
        p.run(23, [0; 2]);
        for (k, (place, x, others, locked)) in rows.into_iter().enumerate() {
            assert_eq!(single(p, place, x, others), locked, "period {k} of a peak at {place}");
        }
    }
    start(p, &[[1; 48]; 2], 0);
    p.run(23, [0; 2]);
    let lost = |p: &Player| p.desk.last.events.iter().any(|e| matches!(e, Event::Lost { .. }));
    let goods = [(5, 100, 4), (2_000, 1_000, 7), (5, 10_000, 1), (2_000, 30_000, 8)];
    for (place, x, periods) in goods {
        for k in 1..=periods {
            let locked = single(p, place, x, 0);
            let expected = if (place, k) == (5, periods) || place == 2_000 { k < 8 } else { false };
            assert_eq!((locked, lost(p)), (expected, k == 8), "period {k} at {place}");
        }
    }
}

/// The majority stays within -8..8: behind more F heads of one sign than that, the first of the other sign is the frame's mark and six more
/// are strays, which bring it down to 1.
fn majorities(p: &mut Player, r: &mut Random, _: Size) {
    for sign in [1.0, -1.0] {
        let mut signal = Signal::new(standard(), 300.0);
        (signal.marks, signal.sign) = (false, sign);
        start(p, &signal.words, 0);
        signal.slots(p, r, 26);
        signal.sign = -sign;
        signal.slots(p, r, 18);
        let State { majority, stray, .. } = p.desk.sync.state;
        assert_eq!((f64::from(majority) * sign <= 0.0, stray), (true, 6), "strays behind a full majority");
    }
}

/// Symbols before a signal's heads, and the head that is its frame's mark, counted from 0: with slot 111 first, the fourth head locks, the
/// fifth and the seventh make a majority, and the ninth is that of slot 0.
const LEAD: u64 = 1_000;
const MARK: u64 = 9;

/// From a start or a restart up to the mark; its position.
fn marked(p: &mut Player, r: &mut Random) -> u64 {
    let mut signal = Signal::new(standard(), 300.0);
    signal.slot = 111;
    p.run(LEAD, [0; 2]);
    signal.slots(p, r, MARK);
    signal.head(p, r);
    p.next() - 24
}

/// Frame numbers over a restart: a mark, a restart some frames on, and another mark. The distance of the marks in symbols, and the number of
/// frames that it counts for: the nearest, at least 1, at most 2^32 - 1, and the number wraps.
fn frame_gaps(p: &mut Player, r: &mut Random, size: Size) {
    const HALF: u64 = 60 * SLOT;
    const MOST: u64 = u32::MAX as u64;
    let mut gaps = vec![
        (LEAD + MARK * SLOT + 24, 1),
        (HALF - 1, 1),
        (HALF, 1),
        (3 * HALF - 1, 1),
        (3 * HALF, 2),
        (5 * HALF - 1, 2),
        (5 * HALF, 3),
        (2 * HALF * 12_345_678 + 7, 12_345_678),
        (2 * HALF * MOST + HALF - 1, MOST),
        (2 * HALF * MOST + HALF, MOST),
        (2 * HALF * (MOST + 6), MOST),
        (2 * HALF * (1 << 36), MOST),
        (4 * HALF, 2),
    ];
    for _ in 0..if size == Size::Full { 60 } else { 2 } {
        let (frames, off) = (2 + r.positive(31) as u64, r.below(2 * HALF) as u64);
        gaps.push((2 * HALF * frames + off, frames + u64::from(off >= HALF)));
    }
    start(p, &standard(), 5_000);
    let (mut last, mut frame) = (marked(p, r), 0);
    for (distance, gap) in gaps {
        let at = last + distance - LEAD - MARK * SLOT;
        assert_eq!(p.restart(at).refusal, 0);
        last = marked(p, r);
        frame = (frame + gap) % (1 << 32);
        assert_eq!(p.desk.sync.state.record, Some((last, frame as u32)), "a mark {distance} symbols on");
    }
}

/// Accumulators of a wrong number, words with a wrong entry; which comes first.
fn refusals(p: &mut Player, r: &mut Random, _: Size) {
    let words = standard();
    start(p, &words, 10);
    (0..100).for_each(|_| p.push(near(r, 500)));
    let bad_state = State { misses: 2, ..p.desk.sync.state };
    for lent in [0, 1, 9_295, 9_297] {
        p.lend(lent);
        p.push([5, 5]);
        assert_eq!(p.desk.last.refusal, 1);
        assert_eq!(p.restart(0).refusal, 1);
        let mut wrong = words;
        wrong[1][0] = 0;
        p.words(&wrong[0], &wrong[1]);
        p.push([5, 5]);
        assert_eq!(p.desk.last.refusal, 1, "1 before 2");
        p.words(&words[0], &words[1]);
        p.call(Call::Fold);
        p.tell();
    }
    assert_eq!(p.start(77).refusal, 1);
    p.call(Call::Fold);
    p.lend(9_296);
    p.push([5, 5]);
    for k in 0..96 {
        for entry in [0, 2, -2, 3, 127, -128, -127] {
            let mut wrong = words;
            wrong[k / 48][k % 48] = entry;
            p.words(&wrong[0], &wrong[1]);
            p.push([7, -7]);
            assert_eq!(p.desk.last.refusal, 2, "entry {k}");
        }
    }
    p.tell();
    p.call(Call::Fold);
    p.hand_in(&bad_state);
    p.push([7, -7]);
    assert_eq!(p.desk.last.refusal, 2, "2 before 6");
    p.words(&words[0], &words[1]);
    p.push([7, -7]);
    assert_eq!(p.desk.last.refusal, 6);
    p.hand_in(&State { base: END, ..bad_state });
    p.push([7, -7]);
    assert_eq!(p.desk.last.refusal, 6, "6 before 7");
    assert_eq!(p.restart(0).refusal, 6, "6 before 7");
    p.call(Call::Fold);
    p.tell();
}

/// Pushes and looks at the refusal.
fn pushes(p: &mut Player, symbol: [i16; 2], refusal: u8) {
    p.push(symbol);
    assert_eq!(p.desk.last.refusal, refusal, "a symbol at {}", p.desk.position());
}

fn positions(p: &mut Player, r: &mut Random, size: Size) {
    let words = standard();
    start(p, &words, END - 2);
    for refusal in [0, 0, 7, 7] {
        pushes(p, [9, -9], refusal);
    }
    for at in [END, END + 1, u64::MAX - 1, u64::MAX] {
        start(p, &words, at);
        pushes(p, [1; 2], 7);
    }
    // no restart below the next symbol's position
    for at in [0, 100, END - 40, END - 30] {
        start(p, &words, at);
        (0..30).for_each(|_| p.push(near(r, 100)));
        for (to, refusal) in
            [(0, 7), (at + 29, 7), (at + 30, 0), (at + 29, 7), (at + 30, 0), (at + 31, 0), (at + 30, 7)]
        {
            assert_eq!(p.restart(to).refusal, refusal, "a restart at {to}");
        }
        p.call(Call::Fold);
        for (to, refusal) in [(u64::MAX, 0), (u64::MAX - 1, 7), (u64::MAX, 0)] {
            assert_eq!(p.restart(to).refusal, refusal, "a restart at {to}");
            pushes(p, [1; 2], 7);
        }
    }
    // a lock, heads and a loss that end with the last position
    for _ in 0..if size == Size::Full { 20 } else { 3 } {
        let mut signal = Signal::any(words, r);
        let symbols = 12 * SLOT + r.below(SLOT) as u64;
        start(p, &words, END - symbols);
        signal.slots(p, r, 13);
        assert_eq!(p.desk.last.refusal, 7);
    }
    // lost in the call of the last symbol of all
    let symbols = 23 + 12 * SLOT;
    start(p, &words, END - symbols);
    let mut signal = Signal::new(words, 50.0);
    signal.slots(p, r, 4);
    p.run(23, [0; 2]);
    while p.desk.last.refusal == 0 {
        p.push(near(r, 3_000));
    }
    let State { base, t, .. } = p.desk.sync.state;
    assert_eq!((base, t), (END, 0), "a loss in the call of the last symbol");
}

/// Locked, with all there is: the next symbol completes the window at position p of a period.
fn full_state(p: u64) -> State {
    State {
        window: std::array::from_fn(|k| (k as i16 - 20) * 700),
        base: 1_000,
        t: 23 + p + 12 * SLOT,
        peak: 900,
        place: 77,
        sum: 4_000,
        lock: Lock::Locked { offset: 77, misses: 1 },
        stage: Stage::Known { odd: true, due: false, last: [700, -300] },
        majority: 5,
        slot: Some((17, 3)),
        record: Some((90_000, 3)),
        misses: 1,
        stray: 4,
        missed: 2,
    }
}

type Alter = fn(State, i64) -> State;

/// Each number of docs/RANGES.md, "Slot sync": its name, how it is altered, values out of range, values at its ends.
const NUMBERS: [(&str, Alter, &[i64], &[i64]); 25] = [
    (
        "t",
        |s, v| State { base: 0, t: v as u64, ..s },
        &[(1 << 62) + 1, i64::MAX, -1],
        &[0, 1, 22, 23, 24, (1 << 62) - 1],
    ),
    ("base", |s, v| State { base: v as u64, ..s }, &[], &[0, (1 << 62) - 500_000]),
    ("peak", |s, v| State { peak: v as u32, ..s }, &[3_758_292_992, 4_294_967_295], &[0, 3_758_292_991]),
    ("peak position", |s, v| State { place: v as u16, ..s }, &[9_296, 65_535], &[0, 9_295]),
    ("sum", |s, v| State { sum: v as u64, ..s }, &[34_937_091_644_337, -1], &[0, 34_937_091_644_336]),
    ("candidate", |s, v| search(s, v as u16, 2), &[9_296, 65_535], &[0, 9_295]),
    ("count", |s, v| search(s, 77, v as u32), &[4, 4_294_967_295], &[0, 3]),
    ("offset", |s, v| locked(s, v as u16, 2), &[9_296, 65_535], &[0, 9_295]),
    ("misses", |s, v| locked(s, 77, v as u32), &[8, 4_294_967_295], &[0, 7]),
    ("held head: at", |s, v| held(s, |r| r.at = v as u64), &[0, 37_183, (1 << 62) - 23, -1], &[37_184, (1 << 62) - 24]),
    ("held head: F re", |s, v| held(s, |r| r.f[0] = v as i32), OVER, TOP),
    ("held head: F im", |s, v| held(s, |r| r.f[1] = v as i32), OVER, TOP),
    ("held head: S re", |s, v| held(s, |r| r.s[0] = v as i32), OVER, TOP),
    ("held head: S im", |s, v| held(s, |r| r.s[1] = v as i32), OVER, TOP),
    ("last Ssync re", |s, v| known(s, [v as i32, 5]), OVER, TOP),
    ("last Ssync im", |s, v| known(s, [5, v as i32]), OVER, TOP),
    ("majority", |s, v| State { majority: v as i32, ..s }, &[-9, 9, -2_147_483_648, 2_147_483_647], &[-8, 8]),
    ("slot number", |s, v| State { slot: Some((v as u8, 3)), ..s }, &[120, 255], &[0, 119]),
    ("frame number", |s, v| State { slot: Some((119, v as u32)), ..s }, &[], &[0, 4_294_967_295]),
    (
        "record: at",
        |s, v| State { record: Some((v as u64, 3)), ..s },
        &[0, 83_663, (1 << 62) - 23, -1],
        &[83_664, (1 << 62) - 24],
    ),
    ("record: number", |s, v| State { record: Some((90_000, v as u32)), ..s }, &[], &[0, 4_294_967_295]),
    ("missed in a row", |s, v| State { misses: v as u32, ..s }, &[2, 4_294_967_295], &[0, 1]),
    ("stray markers", |s, v| State { stray: v as u32, ..s }, &[], &[0, 4_294_967_295]),
    ("missed markers", |s, v| State { missed: v as u32, ..s }, &[], &[0, 4_294_967_295]),
    ("window", |s, v| State { window: [v as i16; 48], ..s }, &[], &[-32_768, 32_767]),
];

const OVER: &[i64] = &[1_572_865, -1_572_865, 2_147_483_647, -2_147_483_648];
const TOP: &[i64] = &[1_572_864, -1_572_864];

fn search(s: State, cand: u16, count: u32) -> State {
    State { lock: Lock::Search { cand, count }, ..s }
}

fn locked(s: State, offset: u16, misses: u32) -> State {
    State { lock: Lock::Locked { offset, misses }, ..s }
}

fn known(s: State, last: [i32; 2]) -> State {
    State { stage: Stage::Known { odd: false, due: false, last }, ..s }
}

fn held(s: State, alter: impl Fn(&mut Reading)) -> State {
    let mut reading = Reading { at: 50_000, f: [900, -20], s: [70, 60] };
    alter(&mut reading);
    State { stage: Stage::First(reading), ..s }
}

/// One number out of range gives 6, to a symbol and to a restart, and changes nothing; at its ends it is taken.
fn out_of_range(p: &mut Player, r: &mut Random, _: Size) {
    let words = standard();
    start(p, &words, 0);
    (0..40).for_each(|k| p.call(Call::Set(k * 231, 77 * k)));
    for (name, alter, bad, ends) in NUMBERS {
        for place in [0, 77, 9_295] {
            let whole = full_state(place);
            for &v in bad {
                p.hand_in(&alter(whole, v));
                pushes(p, [300, -2], 6);
                assert_eq!(p.restart(END - 1).refusal, 6, "{name}: {v}");
                pushes(p, [300, -2], 6);
                p.call(Call::Fold);
                p.tell();
            }
            for &v in ends {
                p.hand_in(&alter(whole, v));
                p.push([300, -2]);
                assert_eq!(p.desk.last.refusal, 0, "{name}: {v}");
                p.tell();
                for _ in 0..60 {
                    p.push(near(r, 20_000));
                }
                p.tell();
            }
        }
    }
    p.hand_in(&State { base: 0, t: END, ..full_state(0) });
    pushes(p, [1; 2], 7);
    p.hand_in(&State { base: u64::MAX, t: END, ..full_state(0) });
    pushes(p, [1; 2], 7);
    assert_eq!(p.restart(u64::MAX).refusal, 7, "base + t past 64 bits");
    p.call(Call::Fold);
    p.tell();
}

/// Where the Rust overflows, by document 01: the two marker counters stay at 2^32 - 1, and a frame record later than the head counts as gap 0,
/// which is raised to 1.
fn ends_of_counts(p: &mut Player, _: &mut Random, _: Size) {
    start(p, &standard(), 0);
    let lock = Lock::Locked { offset: 9_290, misses: 0 };
    let whole = State { lock, misses: 0, stray: 0, missed: 0, record: None, ..full_state(9_290) };
    // a head, and five symbols later the period that tells the counters
    let mut head = |s: State| {
        p.hand_in(&s);
        pushes(p, [300, -2], 0);
        let Event::Head { at, word, slot, .. } = p.desk.last.events[0] else { panic!("no head") };
        (0..5).for_each(|_| pushes(p, [0; 2], 0));
        let Event::Period { stray, missed, .. } = p.desk.last.events[0] else { panic!("no period") };
        (at, word, slot, [stray, missed])
    };
    let (at, word, ..) = head(State { majority: 0, slot: None, ..whole });
    let same = if word == Kind::Fsync { 5 } else { -5 };
    for top in [u32::MAX - 1, u32::MAX] {
        let full = State { stray: top, missed: top, ..whole };
        let (.., counts) = head(State { majority: -same, slot: Some((17, 3)), ..full });
        assert_eq!(counts, [u32::MAX, top], "a mark at number 18");
        let (.., counts) = head(State { majority: same, slot: Some((119, 3)), ..full });
        assert_eq!(counts, [top, u32::MAX], "no mark at number 0");
    }
    for late in [0, 1, 5_000_000, 1 << 60] {
        let (.., slot, _) =
            head(State { majority: -same, slot: Some((119, 3)), record: Some((at + late, 41)), ..whole });
        assert_eq!(slot, Some((0, 42)), "a record {late} later than the head");
    }
}

/// At an end, near it, or anywhere between.
pub(crate) fn between(r: &mut Random, low: u64, high: u64) -> u64 {
    match r.below(4) {
        0 => low + r.below((high - low).min(3) + 1) as u64,
        1 => high - r.below((high - low).min(3) + 1) as u64,
        _ => low + r.below(high - low + 1) as u64,
    }
}

fn top_u32(r: &mut Random) -> u32 {
    between(r, 0, u32::MAX.into()) as u32
}

fn part(r: &mut Random) -> i32 {
    let top = pick(r, &[0, 3, 1_000, 1_572_864]);
    (between(r, 0, 2 * top) as i64 - top as i64) as i32
}

fn corr(r: &mut Random) -> [i32; 2] {
    [part(r), part(r)]
}

/// In range, and no more coherent than chance makes it; something is due within the next symbols.
pub(crate) fn any_state(r: &mut Random) -> State {
    let place = between(r, 0, SLOT - 1);
    let offset = ((place + r.below(4) as u64) % SLOT) as u16;
    let t = match r.below(8) {
        0 => between(r, 0, 30),
        _ => 23 + place + SLOT * between(r, 0, 1 << 40),
    };
    let base = match r.below(8) {
        0 => (END - t).saturating_sub(r.below(40) as u64),
        _ => between(r, 0, (END - t) / 2),
    };
    // at the ratio, or anything
    let (peak, sum) = match r.below(3) {
        0 => (3 * between(r, 0, 1 << 20), between(r, 0, 34_937_091_644_336)),
        1 => (between(r, 0, 3_758_292_991), between(r, 0, 34_937_091_644_336)),
        _ => {
            let k = between(r, 0, 1 << 28);
            (3 * k, 9_296 * k)
        }
    };
    let peak_place = pick(r, &[offset, place as u16, 0, 9_295]);
    let lock = match r.below(3) {
        0 => Lock::Search { cand: peak_place, count: r.below(4) as u32 },
        1 => Lock::Locked { offset, misses: 7 },
        _ => Lock::Locked { offset, misses: r.below(8) as u32 },
    };
    let stage = match r.below(4) {
        0 => Stage::Before,
        1 => Stage::First(Reading { at: between(r, 37_184, END - 24), f: corr(r), s: corr(r) }),
        _ => Stage::Known { odd: r.below(2) == 0, due: r.below(3) == 0, last: corr(r) },
    };
    let reach = pick(r, &[0, 1, 300, 32_767]);
    let number = between(r, 0, 119);
    State {
        window: std::array::from_fn(|_| within(r, reach)),
        base,
        t,
        peak: peak as u32,
        place: peak_place,
        sum,
        lock,
        stage,
        majority: r.below(17) as i32 - 8,
        slot: pick(r, &[None, Some(119), Some(119), Some(118), Some(number)]).map(|n| (n as u8, top_u32(r))),
        record: match r.below(4) {
            0 => None,
            1 => Some(between(r, 83_664, END - 24)),
            _ => Some((base + t).saturating_sub(between(r, 0, 1 << 33)).clamp(83_664, END - 24)),
        }
        .map(|at| (at, top_u32(r))),
        misses: r.below(2) as u32,
        stray: top_u32(r),
        missed: top_u32(r),
    }
}

fn handed_in(p: &mut Player, r: &mut Random, size: Size) {
    for turn in 0..if size == Size::Full { 200_000 } else { 10_000 } {
        if turn % 50 == 0 {
            let words = [random_word(r), random_word(r)];
            p.words(&words[0], if r.below(4) == 0 { &words[0] } else { &words[1] });
        }
        let state = any_state(r);
        let place = state.t.saturating_sub(23) % SLOT;
        for k in 0..6 {
            let a = pick(r, &[0, 1, 8, u64::from(state.peak), u64::from(u32::MAX), 3_758_292_991]);
            p.call(Call::Set(((place + k) % SLOT) as u32, a as u32));
        }
        p.hand_in(&state);
        let reach = pick(r, &[0, 1, 50, 32_767]);
        (0..8).for_each(|_| p.push(near(r, reach)));
        if turn % 16 == 0 {
            assert!(p.restart(END - 1).refusal != 1);
            p.call(Call::Fold);
        }
        if turn % 500 == 0 {
            // words that change on the way, and a longer run
            p.hand_in(&State { t: 100, base: END / 2, ..state });
            for _ in 0..10 {
                let words = [random_word(r), random_word(r)];
                p.words(&words[0], &words[1]);
                (0..1_000).for_each(|_| p.push(near(r, 300)));
            }
        }
    }
}

/// A lock, some heads, and the end of it by noise.
fn short_life(p: &mut Player, r: &mut Random, words: [Word; 2], lead: u64, slots: u64) {
    let mut signal = Signal::any(words, r);
    signal.rest(p, r, lead);
    signal.slots(p, r, slots);
    let reach = (signal.amplitude * 2.0) as i64 + 8;
    let limit = p.pushes + 14 * SLOT;
    while p.pushes < limit && !p.desk.last.events.iter().any(|e| matches!(e, Event::Lost { .. })) {
        p.push(near(r, reach));
    }
}

fn random_words(p: &mut Player, r: &mut Random, size: Size) {
    for turn in 0..if size == Size::Full { 60 } else { 6 } {
        let f = random_word(r);
        let s = match turn % 6 {
            0 => f,
            1 => f.map(|v| -v),
            _ => random_word(r),
        };
        start(p, &[f, s], r.below(1 << 61) as u64);
        let lead = r.below(SLOT) as u64;
        short_life(p, r, [f, s], lead, 11);
    }
}

fn offsets(p: &mut Player, r: &mut Random, size: Size) {
    let words = standard();
    let reach = if size == Size::Full { 30 } else { 3 };
    for offset in (0..reach).chain(SLOT - reach..SLOT) {
        start(p, &words, 0);
        short_life(p, r, words, offset, 12);
    }
}

/// Signal, then noise, silence or another offset at once, and signal again.
fn relocks(p: &mut Player, r: &mut Random, size: Size) {
    let words = standard();
    for _ in 0..if size == Size::Full { 30 } else { 3 } {
        start(p, &words, r.below(1 << 61) as u64);
        for _ in 0..3 {
            let mut signal = Signal::any(words, r);
            signal.lead(p, r);
            signal.slots(p, r, 8);
            match r.below(4) {
                0 => (0..10 * SLOT).for_each(|_| p.push(near(r, 20_000))),
                1 => p.run(12 * SLOT, [0; 2]),
                // seven periods elsewhere, and back in time
                2 => {
                    let away = 1 + r.below(200) as u64;
                    signal.rest(p, r, away);
                    signal.slots(p, r, 6);
                    signal.rest(p, r, SLOT - away);
                    signal.slots(p, r, 3);
                }
                _ => signal.rest(p, r, 500),
            }
        }
    }
}

fn restarts(p: &mut Player, r: &mut Random, size: Size) {
    let words = standard();
    for _ in 0..if size == Size::Full { 30 } else { 3 } {
        start(p, &words, r.below(1 << 61) as u64);
        let mut signal = Signal::any(words, r);
        for _ in 0..6 {
            let slots = r.below(9) as u64;
            signal.slots(p, r, slots);
            signal.lead(p, r);
            let skipped = pick(r, &[0, 0, 1, 9_296, 1_115_520, 1 << 50]);
            let at = p.next() + skipped;
            assert_eq!(p.restart(at).refusal, 0);
        }
    }
}

/// Frames with their markers: stray ones now and then, and of four frame heads the second and the fourth missed, with a mark between them
/// that clears the misses.
fn frames(p: &mut Player, r: &mut Random, size: Size) {
    let words = standard();
    for turn in 0..if size == Size::Full { 12 } else { 2 } {
        start(p, &words, r.below(1 << 61) as u64);
        let mut signal = Signal::any(words, r);
        signal.slot = 100;
        signal.lead(p, r);
        let losses = p.losses;
        for slot in 0..450 {
            signal.marks = !(turn % 2 == 1 && slot / 120 % 2 == 1);
            // the first mark, in slot 20, has to be the frame's
            let stray = slot > 20 && signal.slot != 0 && r.below(90) == 0;
            if stray {
                signal.sign = -signal.sign;
            }
            signal.slots(p, r, 1);
            if stray {
                signal.sign = -signal.sign;
            }
        }
        assert!(p.losses == losses && p.events > 450);
    }
}

/// Markers that stop coming: lost at the second frame head, then found again.
fn marker_losses(p: &mut Player, r: &mut Random, size: Size) {
    let words = standard();
    let all: Vec<u64> = if size == Size::Full { (0..25).chain(SLOT - 24..SLOT).collect() } else { vec![0, 9_295] };
    for offset in all {
        start(p, &words, 0);
        let mut signal = Signal::any(words, r);
        signal.slot = 110;
        signal.rest(p, r, offset);
        signal.slots(p, r, 20);
        signal.marks = false;
        let before = p.losses;
        // between the two that are missed a mark at another number, which changes nothing
        signal.slots(p, r, 150);
        signal.sign = -signal.sign;
        signal.slots(p, r, 1);
        signal.sign = -signal.sign;
        signal.slots(p, r, 89);
        assert!(p.losses > before, "no marker loss at offset {offset}");
        // a lock again, and a mark, whose frame the record numbers
        (signal.marks, signal.slot) = (true, 104);
        signal.slots(p, r, 24);
        assert!(p.desk.sync.state.slot.is_some_and(|(_, frame)| frame > 0), "a frame numbered by the record");
    }
}

/// A sample for the replay program's files: little noise, so that runs of one symbol keep it short.
pub fn sample(p: &mut Player, r: &mut Random) {
    let words = standard();
    start(p, &words, 0);
    p.run(9_319, [0; 2]);
    bench_values(p, r, Size::Short);
    // lock, heads, another offset, loss, lock, restart, lock
    start(p, &words, 5_000_000);
    let mut signal = Signal::new(words, 300.0);
    (signal.phase, signal.drift, signal.slot) = (0.1, 0.02, 110);
    p.run(1_234, [0; 2]);
    signal.slots(p, r, 18);
    p.run(500, [0; 2]);
    signal.slots(p, r, 15);
    let at = p.next() + 1_115_520;
    assert_eq!(p.restart(at).refusal, 0);
    signal.slots(p, r, 16);
    // symbols of every size
    start(p, &[random_word(r), random_word(r)], END - 9_000);
    for reach in [3, 200, 4_096, 32_767] {
        (0..2_500).for_each(|_| p.push(near(r, reach)));
    }
    assert_eq!(p.desk.last.refusal, 7);
    refusals(p, r, Size::Short);
    out_of_range(p, r, Size::Short);
}
