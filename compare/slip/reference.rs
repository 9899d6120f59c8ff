//! The C function of a sync symbol's reference, made as those of stand_in.rs are.

use super::soft::slip_named;
use super::{accepted, Numbers};
use cases::frame::reference::Reference;
use cases::fx::Answer;
use cases::opened::back::Aligner;
use std::cell::RefCell;

#[repr(C)]
pub struct Words {
    f: [i8; 48],
    s: [i8; 48],
}

fn right(r: &Reference) -> Answer {
    thread_local! {
        static RUST: RefCell<Option<Aligner>> = const { RefCell::new(None) };
    }
    RUST.with_borrow_mut(|rust| r.expected(rust.get_or_insert_with(Aligner::new)))
}

/// Each slip of `reference`, as above.
const REFERENCE_SLIPS: [(&str, &str, fn(&Reference, Answer) -> Answer); 6] = [
    ("reference_not_negated", "reference", |r, _| right(&Reference { word: r.word.min(1), ..*r })),
    ("reference_of_723", "reference", |_, a| accepted(a, || Answer::two(a.x / 724 * 723, a.y))),
    ("sync_index_24_taken", "reference", |r, a| if r.k == 24 { right(&Reference { k: 23, ..*r }) } else { a }),
    ("index_cut_to_32_bits", "reference", |r, _| right(&Reference { k: r.k & 0xffff_ffff, ..*r })),
    ("index_before_words", "reference", |r, a| if r.k > 23 { Answer::refused(6) } else { a }),
    ("s_word_not_tested", "reference", |r, _| right(&Reference { words: [r.words[0], ones(&r.words[1])], ..*r })),
];

fn ones(word: &[i8; 48]) -> [i8; 48] {
    word.map(|one| if one == -1 { -1 } else { 1 })
}

#[no_mangle]
pub extern "C" fn sv_reference(word: u8, k: usize, words: Words) -> Numbers {
    let r = Reference { word, k, words: [words.f, words.s] };
    let slipped = slip_named(&REFERENCE_SLIPS, "reference").map(|slip| slip(&r, right(&r)));
    let Answer { refusal, x, y } = slipped.unwrap_or_else(|| right(&r));
    Numbers { first: x, second: y, refusal }
}
