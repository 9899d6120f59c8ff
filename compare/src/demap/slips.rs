//! Slips: what the comparison has to find, planted by name in a stand-in for the port, and in the model with it (slip.sh).

use super::model::{Rules, RULES};
use crate::stage::slipped;

/// Each slip: its name (slip.sh reads it), and what it does to the rules.
pub const SLIPS: [(&str, fn(&mut Rules)); 23] = [
    ("label_from_the_wrong_modulus", |r| r.by_label = false),
    ("mean_toward_zero", |r| r.rounds_down = false),
    ("missing_label_ignored", |r| r.every_label = false),
    ("noise_without_the_symbol", |r| r.counts_size = false),
    ("flag_kept", |r| r.forgets_flags = false),
    ("figure_back_to_the_first", |r| r.keeps_figure = false),
    ("scale_of_the_old_figure", |r| r.scales_new = false),
    ("nominal_if_learned", |r| r.takes_learned = false),
    ("mean_saturates_to_32767", |r| r.lowest = -32_767),
    ("pilot_2_26_taken", |r| r.most += 1),
    ("last_pilot_refused", |r| r.most -= 1),
    ("sample_2_26_taken", |r| r.most_samples += 1),
    ("sum_past_its_range_taken", |r| r.sum_spare = 1),
    ("greatest_sum_refused", |r| r.sum_spare = -1),
    ("noise_past_its_range_taken", |r| r.noise_spare = 1),
    ("figure_past_its_range_taken", |r| r.figure_spare = 1),
    ("best_past_its_range_taken", |r| r.best_spare = 1),
    ("pilot_32_taken", |r| r.last_pilot = 32),
    ("range_before_bits", |r| r.bits_first = false),
    ("count_before_range", |r| r.range_first = false),
    ("long_slice_taken", |r| r.exact_slice = false),
    ("room_for_one_symbol", |r| r.room_for_all = false),
    ("last_bit_first_in_a_block", |r| r.first_bit_first = false),
];

/// The rules of a stand-in, with the slip that SLIP names.
pub fn of_stand_in() -> Rules {
    slipped(RULES, &SLIPS, "SLIP")
}

/// The rules of the comparison's own model, with the slip that SLIP_IN_MODEL names: a wrong definition, which only the Rust can show.
pub fn of_model() -> Rules {
    slipped(RULES, &SLIPS, "SLIP_IN_MODEL")
}
