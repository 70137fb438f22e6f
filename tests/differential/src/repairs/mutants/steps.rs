//! Wrong steps, and a test in a wrong place.

use super::rules::{repair_by, Rules, Taken, Zeroed, RULES};
use crate::difference::Difference;
use crate::mutants::hashes;
use crate::mutants::{passes, passes_deep, wrong, wrong_deep};
use crate::repairs::REPAIR as CALL;
use crate::tables::mutants::trailing_words_after;
use reference::sha256::sha256;

#[test]
fn right_rules_pass() {
    passes(&CALL, |i| repair_by(&RULES, i));
}

/// A test that a repairer by another rule differs as the pattern says, or in
/// its result or a byte: which comes first lies with the trees compared.
macro_rules! other_rule {
    ($name:ident, $rule:ident: $value:expr) => {
        other_rule!($name, $rule: $value, Difference::Result { .. } | Difference::Inside { .. });
    };
    ($name:ident, $rule:ident: $value:expr, $difference:pat) => {
        wrong!($name, $difference, |i| repair_by(&Rules { $rule: $value, ..RULES }, i));
    };
}

// Tests.

wrong!(words_after_the_end_word_last, Difference::Result { .. }, |i| trailing_words_after(4, i));

// The record.

other_rule!(root_at_the_start_of_the_record, head: 0);

// Kinds.

#[test]
fn wrong_hashes_are_found() {
    hashes::are_found(&CALL, |i, hash| repair_by(&Rules { hash, formed_hash: hash, ..RULES }, i));
}

other_rule!(formed_symbols_hashed_without_a_place, formed_hash: |_, _, s| sha256(s));
other_rule!(held_symbols_hashed_without_a_place, hash: |_, _, s| sha256(s));

// Layers.

other_rule!(top_layer_only_and_the_rest_marked, layers: 1);
other_rule!(base_of_depth_5_only_marked, layers: 4);
other_rule!(goes_on_past_an_unavailable_layer, past_unavailable: true);

// Step (a).

other_rule!(bad_copies_taken_for_faults, bad_copies_absent: false);
other_rule!(right_bytes_under_mark_0_held, right_bytes_held: true);
other_rule!(absent_places_not_zeroed, zeroed: Zeroed::None,
    Difference::Inside { buffer: "tree", .. });
other_rule!(bad_copies_not_zeroed, zeroed: Zeroed::Lent,
    Difference::Inside { buffer: "tree", .. });
other_rule!(lower_layers_touched, zeroed: Zeroed::Below,
    Difference::Inside { buffer: "tree", .. });
other_rule!(hashes_of_the_lent_layer_above, lent_hashes: true);

// Step (b).

other_rule!(unavailable_before_peeling, gaps_first: true);
other_rule!(complete_equations_not_tested, taken: Taken::OneAbsent);
other_rule!(complete_equations_last, taken: Taken::CompleteLast);
other_rule!(complete_equations_first, taken: Taken::CompleteFirst);
other_rule!(search_not_begun_again, goes_on: true);
other_rule!(highest_equation_first, highest: true);
other_rule!(formed_symbols_not_tested, formed_tested: false);
other_rule!(symbol_of_a_fault_stored, fault_stored: true);
other_rule!(equation_passed_over_where_more_is_held, passed_over: |k, e, held| {
    e == k && held > 2 * k
});
other_rule!(first_member_withheld, withheld: |members| members[0],
    Difference::Inside { buffer: "output", .. });

// Deep trees.

#[test]
fn right_rules_pass_deep() {
    passes_deep(&CALL, |i| repair_by(&RULES, i));
}

/// The same at deep depths.
macro_rules! other_rule_deep {
    ($name:ident, $rule:ident: $value:expr) => {
        wrong_deep!($name, Difference::Result { .. } | Difference::Inside { .. }, |i| {
            repair_by(&Rules { $rule: $value, ..RULES }, i)
        });
    };
}

other_rule_deep!(base_of_depth_9_only_marked, layers: 8);
other_rule_deep!(search_begun_again_1024_below, back: 1024);
other_rule_deep!(search_begun_again_in_the_same_1024, back: 1023);
wrong_deep!(search_begun_again_1024_below_and_then_at_0, Difference::Result { .. }, |i| {
    repair_by(&Rules { back: 1024, comes_back: true, ..RULES }, i)
});
// Symbol 4,095 is given by this one.
other_rule_deep!(last_equation_passed_over_after_a_store, lowered: |k, e, _| k < 1024 || e < 3071);
other_rule_deep!(first_equation_passed_over_after_a_store, lowered: |k, e, _| k < 1024 || e > 0);
other_rule_deep!(one_equation_passed_over_after_a_store, lowered: |k, e, _| k < 512 || e != 1000);
other_rule_deep!(equations_passed_over_where_more_is_held, passed_over: |k, e, held| {
    k == 1024 && e % 16 == 8 && held > 2048
});
other_rule_deep!(counts_from_equation_2048_not_lowered, lowered: |_, e, _| e < 2048);
other_rule_deep!(counts_for_the_eighth_member_not_lowered, lowered: |k, _, at| k < 128 || at < 7);
other_rule_deep!(counts_for_the_first_member_not_lowered, lowered: |k, _, at| k < 128 || at > 0);
