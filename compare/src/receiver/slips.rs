//! Slips: what the comparison has to find, planted by name in a stand-in for the port, and in the model with it (slip.sh).

use super::model::{Rules, Spoils, RULES};
use crate::stage::slipped;

/// Each slip: its name (slip.sh reads it), and what it does to the rules.
pub const SLIPS: [(&str, fn(&mut Rules)); 65] = [
    ("rotated_toward_zero", |r| r.phase.rounds_down = false),
    ("phase_advanced_first", |r| r.phase.turns_first = false),
    ("second_event_first", |r| r.in_order = false),
    ("no_period_after_a_loss", |r| r.sync.period_after_loss = false),
    ("symbol_22_back", |r| r.behind = 22),
    ("symbol_before_the_head", |r| r.head_first = false),
    ("carrier_hears_nothing", |r| r.hears = false),
    ("last_bit_first", |r| r.top_bit_first = false),
    ("all_symbols_demapped", |r| r.main_only = false),
    ("restart_keeps_accumulators", |r| r.sync.restart_zeroes = false),
    ("loss_keeps_accumulators", |r| r.sync.loss_zeroes = false),
    ("loss_by_the_third_mark", |r| r.sync.missed_limit = 3),
    ("loss_keeps_the_slot", |r| r.loss_drops_slot = false),
    ("loss_keeps_the_line", |r| r.loss_drops_line = false),
    ("loss_keeps_the_trail", |r| r.loss_drops_trail = false),
    ("restart_keeps_the_trail", |r| r.restart_drops_trail = false),
    ("restart_drops_the_record", |r| r.sync.restart_keeps_record = false),
    ("loss_drops_the_points", |r| r.loss_keeps_points = false),
    ("loss_forgets_the_frame", |r| r.sync.loss_keeps_record = false),
    ("slot_of_the_losing_call_dropped", |r| r.slot_before_loss = false),
    ("lock_after_three_periods", |r| r.sync.lock_periods = 3),
    ("four_late", |r| r.frame.late = 4),
    ("set_by_59_differences", |r| r.phase.differences = 59),
    ("n_word_not_negated", |r| r.frame.negated = false),
    ("soft_buffer_of_44879_taken", |r| r.soft = 44_879),
    // ranges
    ("carrier_of_60_differences_taken", |r| r.phase.most += 1),
    ("odd_angle_of_the_carrier_taken", |r| r.ends.last_angle = 1),
    ("odd_angle_of_a_head_taken", |r| r.ends.head_angle = 1),
    ("sum_of_differences_one_too_great_taken", |r| r.ends.turned[1] += 1),
    ("sum_of_differences_one_too_low_taken", |r| r.ends.turned[0] -= 1),
    ("window_of_4097_taken", |r| r.ends.window += 1),
    ("peak_past_its_range_taken", |r| r.ends.peak += 1),
    ("sum_past_its_range_taken", |r| r.ends.sum += 1),
    ("correlation_of_98329_taken", |r| r.ends.part += 1),
    ("head_of_98329_taken", |r| r.ends.head_part += 1),
    ("head_size_of_179131_taken", |r| r.ends.amp += 1),
    ("slot_of_no_symbol_taken", |r| r.ends.held -= 1),
    ("last_position_past_its_range_taken", |r| r.ends.last += 1),
    ("count_of_4194289_taken", |r| r.ends.count += 1),
    ("count_of_4194288_refused", |r| r.ends.count -= 1),
    ("diagonal_entry_past_its_range_taken", |r| r.ends.square += 1),
    ("entry_past_its_range_taken", |r| r.ends.product[1] += 1),
    ("entry_below_its_range_taken", |r| r.ends.product[0] -= 1),
    ("imaginary_part_past_its_range_taken", |r| r.ends.turn += 1),
    ("right_hand_entry_of_4194289_trainings_taken", |r| r.ends.right_hand += 47_448_064),
    ("right_hand_entry_past_its_range_taken", |r| r.ends.right_hand += 1),
    ("k_past_its_range_taken", |r| r.ends.k += 1),
    ("window_of_4096_refused", |r| r.ends.window -= 1),
    ("slot_of_one_symbol_refused", |r| r.ends.held += 1),
    ("position_before_range", |r| r.range_first = false),
    // what a refusal leaves
    ("refused_symbol_leaves_the_sync", |r| r.whole_or_nothing = false),
    ("refused_symbol_moves_the_window", |r| r.spoils = Spoils::Window),
    ("refused_symbol_writes_an_accumulator", |r| r.spoils = Spoils::Accumulators),
    ("refused_symbol_writes_the_slot_store", |r| r.spoils = Spoils::Store),
    ("refused_symbol_writes_a_soft_bit", |r| r.spoils = Spoils::Soft),
    // states that do not fit
    ("slot_past_the_end_corrected", |r| (r.slot_ends, r.phase.end) = (false, u64::MAX)),
    ("sums_tested_within_a_slot", |r| r.sums_unseen = false),
    ("one_training_too_many", |r| r.frame.eq.limit += 1),
    ("gap_keeps_the_waiting", |r| r.frame.gap_drops_waiting = false),
    ("zero_without_output", |r| r.frame.newest_value = false),
    ("later_record_counts_0", |r| r.sync.least_gap = 0),
    ("marks_counted_past_2_32", |r| r.sync.counter_top = u32::MAX - 1),
    // feeds
    ("feed_takes_an_odd_byte", |r| r.feed.odd_byte_left = false),
    ("feed_refuses_behind_symbols", |r| r.feed.refused_alone = false),
    ("feed_tests_the_first_symbol_only", |r| r.feed.tests_each = false),
];

/// The rules of a stand-in, with the slip that SLIP names.
pub fn of_stand_in() -> Rules {
    slipped(RULES, &SLIPS, "SLIP")
}

/// The rules of the comparison's own model, with the slip that SLIP_IN_MODEL names: a wrong definition, which only the Rust can show.
pub fn of_model() -> Rules {
    slipped(RULES, &SLIPS, "SLIP_IN_MODEL")
}
