//! `reference` by itself: document 01's refusals, else what the Rust's `Back` trains a sync symbol against.

use super::calls::Ones;
use super::kinds::{any_words, NO_ONES};
use crate::fx::Answer;
use crate::inputs::{pick, Random};
use crate::opened::back::Aligner;
use crate::phase::calls::Word;
use crate::stage::slipped;
use crate::sync::model::ones;
use std::sync::OnceLock;

/// Document 01's figures. A slip is another one.
#[derive(Clone)]
struct Limits {
    /// The last sync index.
    last: usize,
    /// Which of both words is tested, and the number of their refusal, which stands before the index's.
    tested: [bool; 2],
    no_word: u8,
    words_first: bool,
}

const LIMITS: Limits = Limits { last: 23, tested: [true; 2], no_word: 2, words_first: true };

/// Slips of these figures, planted by name in both sides at once (slip.sh): only the Rust, or the numbers of `references`, can show them.
const SLIPS: [(&str, fn(&mut Limits)); 6] = [
    ("sync_index_24_in_range", |l| l.last = 24),
    ("sync_index_23_out_of_range", |l| l.last = 22),
    ("f_word_unseen", |l| l.tested[0] = false),
    ("s_word_unseen", |l| l.tested[1] = false),
    ("index_before_the_words", |l| l.words_first = false),
    ("words_are_arithmetic", |l| l.no_word = 6),
];

fn limits() -> &'static Limits {
    static CHOSEN: OnceLock<Limits> = OnceLock::new();
    CHOSEN.get_or_init(|| slipped(LIMITS, &SLIPS, "SLIP_IN_MODEL"))
}

/// A word's number: 0 S, 1 F, any other N.
#[derive(Clone, Copy, Debug)]
pub struct Reference {
    pub word: u8,
    pub k: usize,
    pub words: [Ones; 2],
}

impl Reference {
    /// "An entry of the two lists isn't 1 or -1" before "sync index over 23".
    fn refusal(&self) -> u8 {
        let limits = limits();
        let no_word = self.words.iter().zip(limits.tested).any(|(word, tested)| tested && !ones(word));
        let mut places = [(no_word, limits.no_word), (self.k > limits.last, 6)];
        if !limits.words_first {
            places.reverse();
        }
        places.into_iter().find(|place| place.0).map_or(0, |place| place.1)
    }

    pub fn expected(&self, rust: &mut Aligner) -> Answer {
        let refusal = self.refusal();
        if refusal != 0 {
            return Answer::refused(refusal);
        }
        let word = match self.word {
            0 => Word::Ssync,
            1 => Word::Fsync,
            _ => Word::NotFsync,
        };
        let [i, q] = rust.reference(word, self.k as u16, &self.words);
        Answer::two(i, q)
    }
}

const PAST: [usize; 8] = [24, 25, 55, 9_295, 1 << 16, (1 << 32) + 3, 1 << 63, usize::MAX];

/// Every sync symbol of every word and indices past the last, with words of all kinds; then each entry wrong, at all of these indices. Each with
/// the number that document 01 gives, whatever is stated above.
pub fn references(r: &mut Random) -> Vec<(Reference, u8)> {
    let turns = [[1; 48], [-1; 48], std::array::from_fn(|k| if k % 2 == 0 { 1 } else { -1 })];
    let pairs = turns.iter().flat_map(|f| turns.map(|s| [*f, s]));
    let right: Vec<[Ones; 2]> = pairs.chain((0..20).map(|_| any_words(r))).collect();
    let wrong = (0..96).map(|k| {
        let mut words = any_words(r);
        words.as_flattened_mut()[k] = pick(r, &NO_ONES);
        words
    });
    let wrong: Vec<[Ones; 2]> = wrong.collect();
    let each = |words: &[Ones; 2], taken: u8, past: u8| {
        let indices = (0..24).map(|k| (k, taken)).chain(PAST.map(|k| (k, past)));
        let words = *words;
        let of = |(k, refusal)| [0, 1, 2, 3, 255].map(|word| (Reference { word, k, words }, refusal));
        indices.flat_map(of).collect::<Vec<_>>()
    };
    let right = right.iter().flat_map(|words| each(words, 0, 6));
    right.chain(wrong.iter().flat_map(|words| each(words, 2, 2))).collect()
}

/// Mostly taken.
pub fn any_reference(r: &mut Random) -> Reference {
    let mut words = any_words(r);
    if r.below(8) == 0 {
        words.as_flattened_mut()[r.below(96) as usize] = pick(r, &NO_ONES);
    }
    let k = if r.below(8) == 0 { r.positive(62) as usize } else { r.below(24) as usize };
    Reference { word: if r.below(4) == 0 { r.next() as u8 } else { r.below(3) as u8 }, k, words }
}
