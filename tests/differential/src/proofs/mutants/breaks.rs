//! Wrong answers to where a proof breaks.

use super::hashes::{check_by, Look, Rules, RULES};
use crate::library::right;
use crate::mutants::wrong;
use crate::proofs::PROOF_CHECK as CALL;
use std::cmp::Reverse;

/// A test that a check is found which names another layer or another position, given the
/// hashes that do not fit, in the order of the proof.
macro_rules! named {
    ($name:ident, |$broken:ident| $named:expr) => {
        wrong!($name, 7 => 7, |i| check_by(&Rules { named: |$broken| $named, ..RULES }, i));
    };
}

/// What a look at a hash that does not fit names.
fn at(look: &Look) -> (usize, usize) {
    (look.layer(), look.position())
}

/// The first of these, or, where there is none, of all.
fn first_of<'a, 'b>(broken: &'a [Look<'b>], these: impl Fn(&Look) -> bool) -> &'a Look<'b> {
    broken.iter().find(|look| these(look)).unwrap_or(&broken[0])
}

/// The last of the symbols of one position.
fn last_at<'a, 'b>(broken: &'a [Look<'b>], position: usize) -> &'a Look<'b> {
    broken.iter().rfind(|look| look.position() == position).expect("a symbol of the position")
}

/// The position of the last member that is broken.
fn last_position(broken: &[Look]) -> usize {
    broken[broken.len() - 1].position()
}

// Layers.

// Which is the first going down from the root.
named!(last_broken_layer, |broken| at(last_at(broken, broken[0].position())));
named!(layer_of_the_parent, |broken| (broken[0].layer().saturating_sub(1), broken[0].position()));
named!(layer_below, |broken| (broken[0].layer() + 1, broken[0].position()));
named!(layer_counted_from_the_proofs, |broken| {
    (broken[0].head.layer - broken[0].layer(), broken[0].position())
});
named!(layer_of_the_proof, |broken| (broken[0].head.layer, broken[0].position()));
named!(withheld_path_from_the_proofs_layer, |broken| {
    (broken[0].layer() + usize::from(broken[0].on_withheld_path()), broken[0].position())
});
named!(lowest_layer_of_all_members, |broken| {
    let lowest = broken.iter().map(Look::layer).max().expect("a layer");
    (lowest, broken[0].position())
});
named!(layer_of_the_next_broken_member, |broken| {
    let first = broken[0].position();
    (first_of(broken, |look| look.position() > first).layer(), first)
});
named!(layer_of_the_last_broken_member, |broken| {
    let last = last_position(broken);
    (first_of(broken, |look| look.position() == last).layer(), broken[0].position())
});

// Positions.

named!(last_broken_member, |broken| {
    let last = last_position(broken);
    at(first_of(broken, |look| look.position() == last))
});
named!(position_of_the_last_broken_member, |broken| (broken[0].layer(), last_position(broken)));
named!(last_broken_symbol, |broken| at(&broken[broken.len() - 1]));
named!(first_member_of_the_lowest_layer, |broken| {
    let first = broken.iter().min_by_key(|look| (Reverse(look.layer()), look.index));
    at(first.expect("a symbol"))
});
named!(first_member_of_the_topmost_layer, |broken| {
    at(broken.iter().min_by_key(|look| (look.layer(), look.index)).expect("a symbol"))
});
named!(position_in_the_equation, |broken| {
    let Look { head, members, .. } = broken[0];
    let withheld = members.iter().position(|&member| member == head.withheld).expect("a member");
    let position = match broken[0].position() {
        _ if broken[0].on_withheld_path() => withheld,
        given => given + usize::from(given >= withheld),
    };
    (broken[0].layer(), position)
});
named!(withheld_asked_first, |broken| at(first_of(broken, |look| look.on_withheld_path())));
named!(withheld_counted_first, |broken| {
    let position = match broken[0].on_withheld_path() {
        true => 0,
        false => broken[0].position() + 1,
    };
    (broken[0].layer(), position)
});
named!(withheld_counted_after_all_members, |broken| {
    (broken[0].layer(), broken[0].position() + usize::from(broken[0].on_withheld_path()))
});
named!(withheld_counted_as_the_last_given, |broken| {
    (broken[0].layer(), broken[0].position() - usize::from(broken[0].on_withheld_path()))
});
named!(positions_from_1, |broken| (broken[0].layer(), broken[0].position() + 1));
named!(index_in_the_proof, |broken| (broken[0].layer(), broken[0].index));
named!(number_of_the_symbol, |broken| (broken[0].layer(), broken[0].symbols[broken[0].index].1));
named!(seventh_given_member_of_layer_4_as_the_sixth, |broken| match at(&broken[0]) {
    (layer, 6) if broken[0].head.layer == 4 => (layer, 5),
    named => named,
});
named!(end_of_the_longest_withheld_path_as_its_start, |broken| match at(&broken[0]) {
    (0, 7) if broken[0].head.layer == 4 => (3, 7),
    named => named,
});

// Both.

named!(layer_and_position_exchanged, |broken| (broken[0].position(), broken[0].layer()));

wrong!(no_values_beside_7, 7 => 7, |i| match right(i) {
    result if result % 256 == 7 => 7,
    result => result,
});

wrong!(no_position_beside_7, 7 => 7, |i| match right(i) {
    result if result % 256 == 7 => result % (1 << 32),
    result => result,
});

wrong!(no_layer_beside_7, 7 => 7, |i| match right(i) {
    result if result % 256 == 7 => 7 + (result >> 32 << 32),
    result => result,
});

// Symbols that are given more than once.

wrong!(only_the_first_copy_checked, 7 => 0 | 7 | 8, |i| {
    let copy: fn(&Look) -> bool =
        |look| look.symbols[..look.index].contains(&look.symbols[look.index]);
    check_by(&Rules { skipped: copy, ..RULES }, i)
});

wrong!(only_the_last_copy_checked, 7 => 0 | 7 | 8, |i| {
    let copy: fn(&Look) -> bool =
        |look| look.symbols[look.index + 1..].contains(&look.symbols[look.index]);
    check_by(&Rules { skipped: copy, ..RULES }, i)
});
