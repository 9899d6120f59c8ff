//! Slips: what the comparison has to find, planted by name in a stand-in for the port, and in the model with it (slip.sh).

use super::model::{Rules, RULES, TOP, WIDE};
use crate::stage::slipped;

/// Each slip: its name (slip.sh reads it), and what it does to the rules.
pub const SLIPS: [(&str, fn(&mut Rules)); 34] = [
    ("four_late", |r| r.late = 4),
    ("six_late", |r| r.late = 6),
    ("newest_word", |r| r.own_word = false),
    ("newest_place", |r| r.own_place = false),
    ("value_of_the_one_before", |r| r.own_value = false),
    ("zero_without_output", |r| r.newest_value = false),
    ("trains_before_the_newest", |r| r.trains_behind = false),
    ("pilots_train", |r| r.sync = 56),
    ("last_sync_symbol_idle", |r| r.sync = 23),
    ("unnumbered_symbols_idle", |r| r.unnumbered = false),
    ("n_word_not_negated", |r| r.negated = false),
    ("words_swapped", |r| r.words_swapped = true),
    ("lower_is_no_gap", |r| r.low_is_gap = false),
    ("jump_is_no_gap", |r| r.high_is_gap = false),
    ("gap_keeps_waiting", |r| r.gap_drops_waiting = false),
    ("gap_keeps_the_line", |r| r.gap_drops_line = false),
    ("gap_keeps_sums", |r| r.gap_drops_sums = false),
    ("restart_keeps_the_position", |r| r.restart_forgets = false),
    ("restart_keeps_waiting", |r| r.restart_drops_waiting = false),
    ("restart_drops_the_taps", |r| r.eq.restart_keeps_taps = false),
    ("index_9296_taken", |r| r.places = 9_297),
    ("index_9295_refused", |r| r.places = 9_295),
    ("place_below_its_index_taken", |r| r.adjoin = -1),
    ("place_at_its_index_refused", |r| r.adjoin = 1),
    ("position_2_62_taken", |r| r.top = TOP + 1),
    ("last_position_refused", |r| r.top = TOP - 1),
    ("gain_over_2_60_taken", |r| r.wide = WIDE + 1),
    ("gain_of_2_60_refused", |r| r.wide = WIDE - 1),
    ("full_behind_a_gap", |r| r.full_after_gap = false),
    ("full_without_sync", |r| r.full_for_sync = false),
    ("one_training_too_many", |r| r.eq.limit += 1),
    ("word_of_others_taken", |r| r.ones_tested = false),
    ("empty_places_looked_at", |r| r.behind_unseen = false),
    ("trains_on_ten_symbols", |r| r.eq.trains_from = 10),
];

/// The rules of a stand-in, with the slip that SLIP names.
pub fn of_stand_in() -> Rules {
    slipped(RULES, &SLIPS, "SLIP")
}

/// The rules of the comparison's own model, with the slip that SLIP_IN_MODEL names: a wrong definition, which only the Rust can show.
pub fn of_model() -> Rules {
    slipped(RULES, &SLIPS, "SLIP_IN_MODEL")
}
