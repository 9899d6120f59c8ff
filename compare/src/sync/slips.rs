//! Slips: what the comparison has to find, planted by name in a stand-in for the port, and in the model with it (slip.sh).

use super::model::{Rules, RULES, SLOT};
use crate::stage::slipped;

/// Each slip: its name (slip.sh reads it), and what it does to the rules.
pub const SLIPS: [(&str, fn(&mut Rules)); 37] = [
    ("lock_after_3_periods", |r| r.lock_periods = 3),
    ("lock_after_5_periods", |r| r.lock_periods = 5),
    ("loss_after_7_periods", |r| r.loss_periods = 7),
    ("loss_after_9_periods", |r| r.loss_periods = 9),
    ("last_greatest", |r| r.first_greatest = false),
    ("more_than_the_ratio", |r| r.equal_counts = false),
    ("ratio_of_2", |r| r.ratio = 2),
    ("silence_counts", |r| r.needs_peak = false),
    ("moved_peak_counts_0", |r| r.moved_counts = 0),
    ("weak_period_keeps_the_count", |r| r.weak_clears = false),
    ("good_period_keeps_the_misses", |r| r.good_clears = false),
    ("accumulator_rounds", |r| r.floors = false),
    ("size_of_the_f_word", |r| r.larger = false),
    ("head_zero_told", |r| r.head_zero_waits = false),
    ("sign_tie_is_not_fsync", |r| r.zero_is_fsync = false),
    ("parity_tie_is_one", |r| r.tie_is_zero = false),
    ("gap_0", |r| r.least_gap = 0),
    ("gap_always_1", |r| r.most_gap = 1),
    ("gap_cut", |r| r.half = 0),
    ("gap_rounded_up", |r| r.half = 120 * SLOT - 1),
    ("gap_of_64_bits", |r| r.most_gap = u64::MAX),
    ("gap_of_2_32_less_2", |r| r.most_gap = u64::from(u32::MAX) - 1),
    ("frame_number_saturates", |r| r.frame_wraps = false),
    ("majority_of_7", |r| r.majority = 7),
    ("marks_from_3", |r| r.marks_from = 3),
    ("marked_by_the_new_majority", |r| r.majority_before = false),
    ("third_miss_loses", |r| r.missed_limit = 3),
    ("mark_keeps_the_misses", |r| r.mark_clears = false),
    ("stray_mark_clears_the_misses", |r| r.stray_clears = true),
    ("missed_mark_begins_no_frame", |r| r.missed_begins = false),
    ("number_stays_at_ssync", |r| r.counts_ssync = false),
    ("old_accumulators_after_a_restart", |r| r.restart_zeroes = false),
    ("restart_drops_the_record", |r| r.restart_keeps_record = false),
    ("old_accumulators_after_a_loss", |r| r.loss_zeroes = false),
    ("no_period_after_a_marker_loss", |r| r.period_after_loss = false),
    ("loss_drops_the_record", |r| r.loss_keeps_record = false),
    ("counters_wrap", |r| r.counter_top = u32::MAX - 1),
];

/// The rules of a stand-in, with the slip that SLIP names.
pub fn of_stand_in() -> Rules {
    slipped(RULES, &SLIPS, "SLIP")
}

/// The rules of the comparison's own model, with the slip that SLIP_IN_MODEL names: a wrong definition, which only the Rust can show.
pub fn of_model() -> Rules {
    slipped(RULES, &SLIPS, "SLIP_IN_MODEL")
}
