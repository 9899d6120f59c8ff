//! Slips: what the comparison has to find, planted by name in a stand-in for the port, and in the model with it (slip.sh).

use super::model::{Rules, RULES};
use crate::stage::slipped;

/// Each slip: its name (slip.sh reads it), and what it does to the rules.
pub const SLIPS: [(&str, fn(&mut Rules)); 32] = [
    ("output_after_five", |r| r.outputs_from = 5),
    ("output_after_seven", |r| r.outputs_from = 7),
    ("output_cut", |r| r.rounds = false),
    ("saturates_to_32767", |r| r.lowest = -32_767),
    ("conj_of_the_column", |r| r.conj_of_row = false),
    ("conj_of_the_reference", |r| r.reference_plain = false),
    ("trains_on_ten_symbols", |r| r.trains_from = 10),
    ("not_counted", |r| r.counts = false),
    ("diagonal_not_real", |r| r.diagonal_real = false),
    ("restart_keeps_sums", |r| r.restart_drops = false),
    ("restart_keeps_the_line", |r| r.restart_clears = false),
    ("restart_drops_the_taps", |r| r.restart_keeps_taps = false),
    ("identity_at_tap_4", |r| r.centre = 4),
    ("opening_keeps_sums", |r| r.open_clears = false),
    ("closing_leaves_open", |r| r.close_closes = false),
    ("loading_forgets_the_frame", |r| r.load_names = false),
    ("one_training_too_many", |r| r.limit = 4_194_305),
    ("one_training_too_few", |r| r.limit = 4_194_303),
    ("entry_past_its_range_taken", |r| r.spare = 1),
    ("closed_sums_looked_at", |r| r.closed_unseen = false),
    ("fill_of_12_taken", |r| r.fill = 12),
    ("pivot_under_1e_12_refused", |r| r.tiny = 1e-12),
    ("earlier_row_of_one_size", |r| r.later_row = false),
    ("lower_triangle_not_conjugated", |r| r.lower_turned = false),
    ("diagonal_not_conjugated", |r| r.diagonal_turned = false),
    ("first_row_is_the_pivot", |r| r.pivots = false),
    ("first_nan_gives_way", |r| r.no_number_stays = false),
    ("products_fused", |r| r.products_rounded = false),
    ("quotient_by_a_reciprocal", |r| r.divides = false),
    ("entry_over_2_53_solved", |r| r.entry = (1 << 53) + 1),
    ("halves_of_taps_up", |r| r.halves_away = false),
    ("taps_saturate_to_32767", |r| r.lowest_tap = -32_767.0),
];

/// The rules of a stand-in, with the slip that SLIP names.
pub fn of_stand_in() -> Rules {
    slipped(RULES, &SLIPS, "SLIP")
}

/// The rules of the comparison's own model, with the slip that SLIP_IN_MODEL names: a wrong definition, which only the Rust can show.
pub fn of_model() -> Rules {
    slipped(RULES, &SLIPS, "SLIP_IN_MODEL")
}
