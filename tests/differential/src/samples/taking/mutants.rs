//! Wrong samplers.

use super::{places, SAMPLE_TAKE as CALL};
use crate::difference::Difference;
use crate::input::Input;
use crate::library::right;
use crate::mutants::{passes, wrong, wrong_deep, wrong_test};
use reference::sample::members;
use reference::sha256::sha256;
use reference::stop::Stop;
use reference::table::data_symbols;
use reference::tree::{committed, place, symbol_at, Committed, HASH, SYMBOL};

// Samples.

/// Takes other symbols of a layer than 01's data and parity.
fn take_by(i: &mut Input, symbols_of: fn(number: usize, k: usize) -> [usize; 2]) -> u64 {
    let result = right(i);
    if result == 0 {
        let (depth, number) = (i.number("depth") as usize, i.number("number") as usize);
        for (turn, layer) in (0..depth - 1).rev().enumerate() {
            let symbols = symbols_of(number, data_symbols(layer));
            for (part, symbol) in symbols.into_iter().enumerate() {
                let at = SYMBOL * (1 + 2 * turn + part);
                let bytes = symbol_at(&i["tree"], place(layer, symbol)).to_vec();
                i["sample"][at..at + SYMBOL].copy_from_slice(&bytes);
            }
        }
    }
    result
}

#[test]
fn right_symbols_pass() {
    passes(&CALL, |i| take_by(i, |number, k| [number % k, k + number % (3 * k)]));
}

wrong!(parity_before_data, Difference::Inside { buffer: "sample", .. }, |i| {
    take_by(i, |number, k| [k + number % (3 * k), number % k])
});

wrong!(parity_of_the_data_number, Difference::Inside { buffer: "sample", .. }, |i| {
    take_by(i, |number, k| [number % k, k + number % k])
});

wrong!(parity_not_above_the_data, Difference::Inside { buffer: "sample", .. }, |i| {
    take_by(i, |number, k| [number % k, number % (3 * k)])
});

wrong!(parity_of_all_symbols, Difference::Inside { buffer: "sample", .. }, |i| {
    take_by(i, |number, k| [number % k, k.max(number % (4 * k))])
});

wrong!(data_by_division, Difference::Inside { buffer: "sample", .. }, |i| {
    take_by(i, |number, k| [number / 8 % k, k + number % (3 * k)])
});

wrong!(top_first, Difference::Inside { buffer: "sample", .. }, |i| {
    let result = right(i);
    if result == 0 {
        i["sample"] = i["sample"].chunks(SYMBOL).rev().collect::<Vec<_>>().concat();
    }
    result
});

wrong!(rehashes, Difference::Result { expected: 0, found: 7 }, |i| {
    let result = right(i);
    if result == 0 && i.number("depth") > 1 {
        let (layer, symbol) = members(i.number("depth") as usize, i.number("number") as usize)[0];
        if let Committed::Above { at, .. } = committed(layer, symbol) {
            if sha256(symbol_at(&i["sample"], 0)) != symbol_at(&i["sample"], 1)[at..at + HASH] {
                return 7;
            }
        }
    }
    result
});

// Marks and absent symbols.

wrong_test!(only_its_own_marks_tested, 4, Difference::Result { .. }, |i| {
    let bad = |place: &usize| i["marks"].get(*place).map_or(false, |&mark| mark > 1);
    places(i).into_iter().filter(bad).min().map_or(Ok(()), |place| Err(Stop::Mark(place)))
});

/// The index that a wrong way finds, of the sample's symbols, each with
/// whether it is absent.
fn absent(i: &Input, find: impl Fn(&[(usize, bool)]) -> Option<usize>) -> Result<(), Stop> {
    let absent = |place: usize| (place, i["marks"].get(place) == Some(&0));
    let symbols: Vec<(usize, bool)> = places(i).into_iter().map(absent).collect();
    find(&symbols).map_or(Ok(()), |index| Err(Stop::Absent(index)))
}

wrong_test!(absent_parity_ignored, 9, Difference::Result { .. }, |i| {
    absent(i, |symbols| {
        let data = symbols.len() == 1;
        symbols.iter().position(|&(place, absent)| absent && (data || !(4..16).contains(&place)))
    })
});

wrong_test!(place_for_index, 9, Difference::Result { .. }, |i| {
    absent(i, |symbols| symbols.iter().find(|symbol| symbol.1).map(|symbol| symbol.0))
});

wrong_test!(last_absent, 9, Difference::Result { .. }, |i| {
    absent(i, |symbols| symbols.iter().rposition(|symbol| symbol.1))
});

wrong_test!(layer_for_index, 9, Difference::Result { .. }, |i| {
    absent(i, |symbols| symbols.iter().position(|symbol| symbol.1).map(|index| index / 2))
});

// Deep trees.

/// `right`, but with the base symbol of another place.
fn base_from(i: &mut Input, cut: fn(usize) -> usize) -> u64 {
    let result = right(i);
    if result == 0 {
        let place = cut(places(i)[0]);
        let base = symbol_at(&i["tree"], place).to_vec();
        i["sample"][..SYMBOL].copy_from_slice(&base);
    }
    result
}

wrong!(bytes_of_the_tree_by_16_bits, Difference::Inside { buffer: "sample", .. }, |i| {
    base_from(i, |place| place & 0xff)
});

wrong_deep!(places_of_12_bits, Difference::Inside { buffer: "sample", .. }, |i| {
    base_from(i, |place| place & 0xfff)
});

wrong_deep!(last_number_refused, 0 => 5, |i| match (right(i), i.number("number")) {
    (0, 4095) => 5,
    (result, _) => result,
});

wrong_deep!(numbers_of_11_bits, Difference::Inside { buffer: "sample", .. }, |i| {
    let mut seen = i.clone();
    if i.number("number") < 4096 {
        seen.set("number", i.number("number") & 0x7ff);
    }
    match (right(&mut i.clone()), right(&mut seen)) {
        (0, 0) => {
            i["sample"] = seen["sample"].clone();
            0
        }
        (result, _) => result,
    }
});

wrong_deep!(index_of_4_bits, 9 => 9, |i| match right(i) {
    result if result % 256 == 9 => result & 0xfff,
    result => result,
});
