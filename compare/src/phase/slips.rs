//! Slips: what the comparison has to find, planted by name in a stand-in for the port, and in the model with it (slip.sh).

use super::model::{Rules, RULES};
use crate::stage::slipped;

/// Each slip: its name (slip.sh reads it), and what it does to the rules.
pub const SLIPS: [(&str, fn(&mut Rules)); 25] = [
    ("rounds_toward_zero", |r| r.rounds_down = false),
    ("phase_advanced_first", |r| r.turns_first = false),
    ("set_by_59_differences", |r| r.differences = 59),
    ("set_by_61_differences", |r| r.differences = 61),
    ("setting_forgets_the_step", |r| r.setting_adds = false),
    ("setting_keeps_the_sum", |r| r.setting_clears = false),
    ("no_clamp", |r| r.clamp = i32::MAX.into()),
    ("clamp_at_2_19", |r| r.clamp = 524_288),
    ("half_turn_positive", |r| r.half_is_negative = false),
    ("all_heads_set_the_step", |r| r.ssync_only = false),
    ("restart_keeps_the_trail", |r| r.restart_drops = false),
    ("restart_drops_the_phase", |r| r.restart_keeps = false),
    ("sine_a_quarter_on", |r| r.quarter_back = false),
    ("gain_not_floored", |r| r.least = 1),
    ("store_untouched", |r| r.stores = false),
    ("holds_9297_symbols", |r| r.holds = 9_297),
    ("holds_9295_symbols", |r| r.holds = 9_295),
    ("short_slot_corrected", |r| r.whole_only = false),
    ("gain_of_the_head_throughout", |r| r.gain_moves = false),
    ("saturates_to_32767", |r| r.lowest = -32_767),
    ("refused_symbol_stored", |r| r.tests_first = false),
    ("table_before_store", |r| r.store_first = false),
    ("ignored_symbol_refused", |r| r.ignored_stands_nowhere = false),
    ("sum_past_its_range_taken", |r| r.sum_spare = 1),
    ("head_at_2_62_taken", |r| r.end = 1 << 63),
];

/// The rules of a stand-in, with the slip that SLIP names.
pub fn of_stand_in() -> Rules {
    slipped(RULES, &SLIPS, "SLIP")
}

/// The rules of the comparison's own model, with the slip that SLIP_IN_MODEL names: a wrong definition, which only the Rust can show.
pub fn of_model() -> Rules {
    slipped(RULES, &SLIPS, "SLIP_IN_MODEL")
}
