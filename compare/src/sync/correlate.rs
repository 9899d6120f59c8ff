//! `correlate` by itself: document 01's refusal of a word, else the Rust's own answer.

use super::calls::{pairs, Word};
use crate::frame::kinds::{any_words, NO_ONES};
use crate::fx::Answer;
use crate::inputs::{pick, Random};
use crate::stage::slipped;
use isdbs3_phy::chain::sync::correlate;
use std::sync::OnceLock;

/// Document 01's figures. A slip is another one.
#[derive(Clone)]
struct Limits {
    /// Whether an entry can be a word's, where the tested ones begin, and the number of the refusal.
    one: fn(i8) -> bool,
    from: usize,
    no_word: u8,
}

const LIMITS: Limits = Limits { one: |v| v == 1 || v == -1, from: 0, no_word: 2 };

/// Slips of these figures, planted by name in both sides at once (slip.sh): only the numbers of `correlations` can show them.
const SLIPS: [(&str, fn(&mut Limits)); 6] = [
    ("entry_of_0_in_range", |l| l.one = |v| (-1..=1).contains(&v)),
    ("entry_of_2_in_range", |l| l.one = |v| [-1, 1, 2].contains(&v)),
    ("entry_of_minus_128_in_range", |l| l.one = |v| [-1, 1, -128].contains(&v)),
    ("entry_of_minus_1_out_of_range", |l| l.one = |v| v == 1),
    ("first_entry_unseen", |l| l.from = 1),
    ("word_is_arithmetic", |l| l.no_word = 6),
];

fn limits() -> &'static Limits {
    static CHOSEN: OnceLock<Limits> = OnceLock::new();
    CHOSEN.get_or_init(|| slipped(LIMITS, &SLIPS, "SLIP_IN_MODEL"))
}

/// 24 symbols and a word, I before Q.
#[derive(Clone, Copy, Debug)]
pub struct Correlate {
    pub window: [i16; 48],
    pub word: Word,
}

impl Correlate {
    pub fn expected(&self) -> Answer {
        let limits = limits();
        if !self.word[limits.from..].iter().all(|&v| (limits.one)(v)) {
            return Answer::refused(limits.no_word);
        }
        let window: [[i16; 2]; 24] = std::array::from_fn(|k| [self.window[2 * k], self.window[2 * k + 1]]);
        let [re, im] = correlate(&window, &pairs(&self.word));
        Answer::two(re, im)
    }
}

const PARTS: [i16; 6] = [-32_768, -32_767, -1, 1, 32_766, 32_767];

/// Windows of a single symbol, in either part of every place, windows of one number and of the ends that fit the word; then each entry wrong. Each
/// with the number that document 01 gives, whatever is stated above.
pub fn correlations(r: &mut Random) -> Vec<(Correlate, u8)> {
    let mut all = Vec::new();
    let words: Vec<Word> = [[1; 48], [-1; 48]].into_iter().chain((0..6).flat_map(|_| any_words(r))).collect();
    for word in words {
        let with = |window| (Correlate { window, word }, 0);
        for k in 0..48 {
            all.extend(PARTS.map(|v| with(std::array::from_fn(|j| if j == k { v } else { 0 }))));
        }
        all.extend(PARTS.map(|v| with([v; 48])));
        let ends = [[-32_768, 32_767], [32_767, -32_768]];
        all.extend(ends.map(|end| with(word.map(|one| end[usize::from(one > 0)]))));
        for (k, &wrong) in (0..48).flat_map(|k| NO_ONES.iter().map(move |wrong| (k, wrong))) {
            let mut c = Correlate { window: [0; 48].map(|_: i16| r.next() as i16), word };
            c.word[k] = wrong;
            all.push((c, 2));
        }
    }
    all
}

/// Mostly taken.
pub fn any_correlation(r: &mut Random) -> Correlate {
    let [mut word, _] = any_words(r);
    if r.below(8) == 0 {
        word[r.below(48) as usize] = pick(r, &NO_ONES);
    }
    let bits = 1 + r.below(15) as u64;
    let ends = r.below(8) == 0;
    Correlate { window: [0; 48].map(|_: i16| if ends { pick(r, &PARTS) } else { r.signed(bits) as i16 }), word }
}
