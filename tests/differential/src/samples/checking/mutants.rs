//! Wrong sample checks.

use super::{base_symbol, SAMPLE_CHECK as CALL};
use crate::difference::Difference;
use crate::input::Input;
use crate::library::by_tests;
use crate::library::right;
use crate::mutants::hashes::{self, Place, SymbolHash};
use crate::mutants::{asking, passes, wrong, wrong_deep, wrong_test};
use crate::records::{kind, root};
use crate::results::number;
use reference::record::HEAD;
use reference::sample::{data_index, members};
use reference::stop::Stop;
use reference::tree::{committed, symbol_at, Committed, HASH, ROOT};
use std::ops::Range;

/// A hash to be compared: whose it is, and where it is looked for.
struct Look {
    depth: usize,
    index: usize,
    layer: usize,
    at: usize,
}

impl Look {
    fn is_parity(&self) -> bool {
        self.index > 0 && self.index % 2 == 0
    }
}

/// The hashes that do not fit, with only those bytes of each compared that `bytes`
/// gives for it, at the place that it gives.
fn broken(i: &Input, bytes: fn(&mut Look) -> Range<usize>) -> Vec<Look> {
    broken_by(i, hashes::RIGHT, bytes)
}

/// The same by a hash of symbols.
fn broken_by(i: &Input, hash: SymbolHash, bytes: fn(&mut Look) -> Range<usize>) -> Vec<Look> {
    let (depth, base) = base_symbol(i).expect("a depth");
    let kind = kind(i).expect("a kind");
    let mut broken = Vec::new();
    for (index, (layer, symbol)) in members(depth, base).into_iter().enumerate() {
        let (holder, at) = match committed(layer, symbol) {
            Committed::Root { at } => (root(i), at),
            Committed::Above { at, .. } => {
                (symbol_at(&i["sample"], data_index(depth, layer - 1)), at)
            }
        };
        let mut look = Look { depth, index, layer, at };
        let compared = bytes(&mut look);
        let place = Place { depth, layer, number: symbol };
        let hash = hash(kind, place, symbol_at(&i["sample"], index));
        let found = &holder[look.at..look.at + HASH];
        if hash[compared.clone()] != found[compared] {
            broken.push(look);
        }
    }
    broken
}

/// Checks a sample by these hashes.
fn check_by(i: &Input, bytes: fn(&mut Look) -> Range<usize>) -> Result<(), Stop> {
    naming(&broken(i, bytes), |broken| broken[0].layer)
}

/// The layer that is named, where hashes do not fit.
fn naming(broken: &[Look], layer: fn(&[Look]) -> usize) -> Result<(), Stop> {
    match broken {
        [] => Ok(()),
        _ => Err(Stop::Hash { layer: layer(broken), position: None }),
    }
}

#[test]
fn right_hashes_pass() {
    passes(&CALL, |i| asking(i, 7, |i| check_by(i, |_| 0..HASH)));
}

#[test]
fn wrong_hashes_are_found() {
    hashes::are_found(&CALL, |i, hash| {
        let before = CALL.tests.iter().filter(|test| test.number != 7);
        match by_tests(i, before) {
            0 => number(naming(&broken_by(i, hash, |_| 0..HASH), |broken| broken[0].layer)),
            stopped => stopped,
        }
    });
}

/// A test that a check is found which does not compare all hashes.
macro_rules! skipped {
    ($name:ident, |$look:ident| $skipped:expr) => {
        wrong_test!($name, 7, 7 => 0, |i| {
            check_by(i, |$look| if $skipped { 0..0 } else { 0..HASH })
        });
    };
}

skipped!(base_symbol_skipped, |look| look.index == 0);
skipped!(parity_skipped, |look| look.is_parity());
skipped!(top_parity_skipped, |look| look.depth == 5 && look.index == 8);
skipped!(data_skipped, |look| look.index % 2 == 1);
skipped!(data_of_one_layer_skipped, |look| look.depth == 4 && look.index == 3);
skipped!(root_skipped, |look| look.layer == 0);

wrong_test!(last_byte_of_a_hash_skipped, 7, 7 => 0, |i| check_by(i, |_| 0..HASH - 1));

wrong_test!(one_byte_of_one_hash_skipped, 7, 7 => 0, |i| {
    check_by(i, |look| if look.depth == 3 && look.index == 4 { 1..HASH } else { 0..HASH })
});

wrong_test!(parity_by_the_hash_of_data, 7, 0 => 7, |i| {
    check_by(i, |look| {
        if look.layer == 0 && look.is_parity() {
            look.at %= 4 * HASH;
        }
        0..HASH
    })
});

wrong!(all_refused, 0 => 7, |i| match right(i) {
    0 => 7,
    result => result,
});

wrong!(root_at_the_start_of_the_record, Difference::Result { .. }, |i| {
    let mut seen = i.clone();
    if matches!(right(i) % 256, 0 | 7) {
        seen["record"].copy_within(..ROOT, HEAD);
    }
    right(&mut seen)
});

// Where the sample breaks.

/// A test that a check is found which names another layer, given the hashes that do not
/// fit, from the base up.
macro_rules! named {
    ($name:ident, |$broken:pat_param| $layer:expr) => {
        wrong_test!($name, 7, 7 => 7, |i| naming(&broken(i, |_| 0..HASH), |$broken| $layer));
    };
}

/// The layer of the first of these, or, where there is none, of all.
fn first_of(broken: &[Look], these: fn(&Look) -> bool) -> usize {
    broken.iter().find(|look| these(look)).unwrap_or(&broken[0]).layer
}

// Which is the first going down from the root.
named!(last_broken_layer, |broken| broken[broken.len() - 1].layer);
named!(layer_of_the_parent, |broken| broken[0].layer.saturating_sub(1));
named!(layer_below, |broken| broken[0].layer + 1);
named!(layer_counted_from_the_base, |broken| broken[0].depth - 1 - broken[0].layer);
named!(index_in_the_sample, |broken| broken[0].index);
named!(layer_of_the_base, |broken| broken[0].depth - 1);
named!(only_data_names_a_layer, |broken| first_of(broken, |look| !look.is_parity()));
named!(only_parity_names_a_layer, |broken| first_of(broken, Look::is_parity));
named!(layers_of_parity_one_off, |broken| { broken[0].layer + usize::from(broken[0].is_parity()) });
named!(layer_0_only_by_data, |broken| match (broken[0].layer, broken[0].is_parity()) {
    (0, true) => 1,
    (layer, _) => layer,
});
named!(top_layer_at_depth_5_is_1, |broken| match (broken[0].depth, broken[0].layer) {
    (5, 0) => 1,
    (_, layer) => layer,
});

wrong!(no_layer_beside_7, 7 => 7, |i| match right(i) {
    result if result % 256 == 7 => 7,
    result => result,
});

wrong!(index_as_a_second_value, 7 => 7, |i| match right(i) {
    result if result % 256 == 7 => {
        result + ((broken(i, |_| 0..HASH)[0].index as u64) << 32)
    }
    result => result,
});

wrong!(layer_as_the_second_value, 7 => 7, |i| match right(i) {
    result if result % 256 == 7 => 7 + ((result >> 8) << 32),
    result => result,
});

// Deep trees.

wrong_deep!(layer_of_3_bits_beside_7, 7 => 7, |i| match right(i) {
    result if result % 256 == 7 => result & !(8 << 8),
    result => result,
});

wrong_deep!(base_of_depth_9_skipped, 7 => 0, |i| {
    asking(i, 7, |i| {
        check_by(i, |look| if look.depth == 9 && look.layer == 8 { 0..0 } else { 0..HASH })
    })
});

wrong_deep!(parity_of_layer_7_skipped, 7 => 0, |i| {
    asking(i, 7, |i| {
        check_by(i, |look| if look.layer == 7 && look.is_parity() { 0..0 } else { 0..HASH })
    })
});

wrong_deep!(number_4095_refused, 0 => 5, |i| match (right(i), i.number("number")) {
    (0, 4095) => 5,
    (result, _) => result,
});

wrong_deep!(number_4096_taken, 5 => 7, |i| match (right(i), i.number("number")) {
    (5, 4096) => 7,
    (result, _) => result,
});
