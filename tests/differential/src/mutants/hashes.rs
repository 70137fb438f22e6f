//! Wrong hashes of symbols. The comparison must find each of them in every call that hashes.

use super::{find_in, ALL, DEEP_ALONE};
use crate::call::Call;
use crate::difference::Difference;
use crate::input::Input;
use crate::library::by;
use reference::kind::Kind;
use reference::sha256::sha256;
use reference::table::{data_symbols, LAYER};
use reference::tree::{place, HASH};

/// What a symbol is hashed as: the number of a layer, in a tree of so many.
#[derive(Clone, Copy)]
pub struct Place {
    pub depth: usize,
    pub layer: usize,
    pub number: usize,
}

pub type SymbolHash = fn(Kind, Place, &[u8]) -> [u8; HASH];

/// That of CR 7.
pub const RIGHT: SymbolHash = |kind, at, symbol| kind.hash(at.layer, at.number, symbol);

/// The hash of some bytes and a symbol after them, where it covers a place.
fn after(kind: Kind, before: &[u8], symbol: &[u8]) -> [u8; HASH] {
    match kind {
        Kind::Placed => sha256(&[before, symbol].concat()),
        Kind::Plain => sha256(symbol),
    }
}

/// The word of a kind, a layer and a number.
fn word(kind: u32, layer: usize, number: usize) -> u32 {
    kind << 30 | (layer as u32 & 0x3f) << 24 | number as u32 & 0xff_ffff
}

/// The same hash, by another layer and number.
fn placed(kind: Kind, layer: usize, number: usize, symbol: &[u8]) -> [u8; HASH] {
    after(kind, &word(LAYER, layer, number).to_be_bytes(), symbol)
}

/// The same by another word of the same place.
fn by_word(kind: Kind, at: Place, symbol: &[u8], word_of: fn(u32) -> u32) -> [u8; HASH] {
    after(kind, &word_of(word(LAYER, at.layer, at.number)).to_be_bytes(), symbol)
}

/// The data symbol above that a symbol's hash stands in, by its number.
fn parent(at: Place) -> usize {
    match at.layer.checked_sub(1) {
        Some(above) => at.number % data_symbols(above),
        None => at.number,
    }
}

/// By their names.
const WRONG: &[(&str, SymbolHash)] = &[
    // The word.
    ("the word left out", |_, _, s| sha256(s)),
    ("the word in plain volumes too", |_, at, s| placed(Kind::Placed, at.layer, at.number, s)),
    ("the kinds exchanged", |kind, at, s| kind.other().hash(at.layer, at.number, s)),
    ("kind 00 of the word", |kind, at, s| by_word(kind, at, s, |word| word & 0x3fff_ffff)),
    ("kind 10 of the word", |kind, at, s| by_word(kind, at, s, |word| word ^ 3 << 30)),
    ("kind 11 of the word", |kind, at, s| by_word(kind, at, s, |word| word | 3 << 30)),
    ("the lowest byte first", |kind, at, s| by_word(kind, at, s, u32::swap_bytes)),
    ("the word after the symbol", |kind, at, s| match kind {
        Kind::Placed => sha256(&[s, &word(LAYER, at.layer, at.number).to_be_bytes()[..]].concat()),
        Kind::Plain => sha256(s),
    }),
    ("a word of eight bytes", |kind, at, s| {
        after(kind, &u64::from(word(LAYER, at.layer, at.number)).to_be_bytes(), s)
    }),
    ("the word in the symbol's first bytes", |kind, at, s| match kind {
        Kind::Placed => {
            let mut mixed = s.to_vec();
            let word = word(LAYER, at.layer, at.number).to_be_bytes();
            mixed.iter_mut().zip(word).for_each(|(byte, other)| *byte ^= other);
            sha256(&mixed)
        }
        Kind::Plain => sha256(s),
    }),
    // The layer.
    ("no layer", |kind, at, s| placed(kind, 0, at.number, s)),
    ("layers from 1", |kind, at, s| placed(kind, at.layer + 1, at.number, s)),
    ("layers from the base", |kind, at, s| placed(kind, at.depth - 1 - at.layer, at.number, s)),
    ("the layer of the parent", |kind, at, s| {
        placed(kind, at.layer.saturating_sub(1), at.number, s)
    }),
    ("the depth", |kind, at, s| placed(kind, at.depth, at.number, s)),
    ("a layer of 2 bits", |kind, at, s| placed(kind, at.layer & 3, at.number, s)),
    ("a number of 12 bits below the layer", |kind, at, s| {
        by_word(kind, at, s, |word| word & 3 << 30 | (word >> 24 & 0x3f) << 12 | word & 0xfff)
    }),
    ("layer and number exchanged", |kind, at, s| placed(kind, at.number, at.layer, s)),
    // The number.
    ("no number", |kind, at, s| placed(kind, at.layer, 0, s)),
    ("numbers from 1", |kind, at, s| placed(kind, at.layer, at.number + 1, s)),
    ("the place for the number", |kind, at, s| {
        placed(kind, at.layer, place(at.layer, at.number), s)
    }),
    ("the place alone", |kind, at, s| placed(kind, 0, place(at.layer, at.number), s)),
    ("the number of the parent", |kind, at, s| placed(kind, at.layer, parent(at), s)),
    ("parity from 0", |kind, at, s| {
        let k = data_symbols(at.layer);
        placed(kind, at.layer, if at.number < k { at.number } else { at.number - k }, s)
    }),
    ("a number of 5 bits", |kind, at, s| placed(kind, at.layer, at.number & 31, s)),
    // Some symbols.
    ("the word left out in layer 0", |kind, at, s| {
        if at.layer == 0 { Kind::Plain } else { kind }.hash(at.layer, at.number, s)
    }),
    ("the word in layer 0 alone", |kind, at, s| {
        if at.layer > 0 { Kind::Plain } else { kind }.hash(at.layer, at.number, s)
    }),
    ("the word left out of parity", |kind, at, s| {
        let parity = at.number >= data_symbols(at.layer);
        if parity { Kind::Plain } else { kind }.hash(at.layer, at.number, s)
    }),
    ("the word left out at depth 5", |kind, at, s| {
        if at.depth == 5 { Kind::Plain } else { kind }.hash(at.layer, at.number, s)
    }),
];

/// Those that are wrong at deep depths alone.
const WRONG_DEEP: &[(&str, SymbolHash)] = &[
    ("a number of 8 bits", |kind, at, s| placed(kind, at.layer, at.number & 0xff, s)),
    ("a number of 11 bits", |kind, at, s| placed(kind, at.layer, at.number & 0x7ff, s)),
    ("a layer of 3 bits", |kind, at, s| placed(kind, at.layer & 7, at.number, s)),
    ("the word left out in layer 8", |kind, at, s| {
        if at.layer == 8 { Kind::Plain } else { kind }.hash(at.layer, at.number, s)
    }),
];

/// Whether the comparison finds each wrong hash in a call, which is made by a hash.
pub fn are_found(call: &'static Call, made: fn(&mut Input, SymbolHash) -> u64) {
    let lists = [(ALL, WRONG), (DEEP_ALONE, WRONG_DEEP)];
    let all = lists.iter().flat_map(|&(parts, list)| list.iter().map(move |wrong| (parts, wrong)));
    let missed = all.filter_map(|(parts, &(name, hash))| {
        let function = by(call, move |i| made(i, hash));
        let place = |difference: &Difference| {
            matches!(difference, Difference::Result { .. } | Difference::Inside { .. })
        };
        find_in(parts, call, name, function, place).err()
    });
    let missed: Vec<String> = missed.collect();
    assert!(missed.is_empty(), "{}", missed.join("\n"));
}

/// The right hash is CR 7's by this module's own words too, so that the others differ from it in
/// what their names say.
#[test]
fn words_are_as_they_should_be() {
    for (layer, number) in [(0, 0), (0, 15), (1, 31), (4, 255), (8, 4095)] {
        let at = Place { depth: 9, layer, number };
        for kind in [Kind::Placed, Kind::Plain] {
            let right = RIGHT(kind, at, &[7; 256]);
            assert_eq!(placed(kind, layer, number, &[7; 256]), right);
            assert_eq!(by_word(kind, at, &[7; 256], |word| word), right);
        }
    }
}
