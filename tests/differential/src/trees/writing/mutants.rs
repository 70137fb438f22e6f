//! Wrong writers.

use super::kinds::KIND;
use super::TREE_WRITE as CALL;
use crate::call::Ask;
use crate::difference::Difference;
use crate::input::Input;
use crate::library::{right, stopped};
use crate::mutants::hashes::{self, Place, SymbolHash};
use crate::mutants::{passes, wrong, wrong_deep};
use reference::kind::Kind;
use reference::record::{Head, HEAD};
use reference::sha256::sha256;
use reference::stop::Stop;
use reference::table::{equations, house, to_bytes};
use reference::tree::{base_data, block_len, place, symbols, HASH, SYMBOL};

/// Rules of a writer, 01's or others.
struct Rules {
    /// The data symbol above that holds the hash of a symbol, and which of its
    /// eight hashes it is, where the layer above has `s` data symbols.
    above: fn(symbol: usize, s: usize) -> (usize, usize),
    /// The words of the table that codes a tree, where they are not the lent
    /// ones.
    words: Option<fn(usize) -> Vec<u32>>,
    /// What stands where the block fills up, given what the tree holds there.
    filling: fn(&mut [u8]),
    /// The hash of a symbol.
    hash: SymbolHash,
    /// The record, given what is lent and the root.
    record: fn(&Input, Head, &[u8]) -> Vec<u8>,
}

const RULES: Rules = Rules {
    above: |symbol, s| (symbol % s, symbol / s),
    words: None,
    filling: |filling| filling.fill(0),
    hash: hashes::RIGHT,
    record: |_, head, root| head.before(root),
};

/// Writes by these rules what can be written.
fn write_by(rules: &Rules, i: &mut Input) -> u64 {
    if let Some(result) = stopped(i, CALL.tests) {
        return result;
    }
    let (depth, kind) = (i.number("depth") as usize, i.kind().expect("a kind"));
    let table = match rules.words {
        Some(words) => to_bytes(&words(depth)),
        None => i["table"].clone(),
    };
    let layers = equations(depth as u64, &table).expect("a table");
    let mut data = base_data(depth, &i["tree"]).to_vec();
    data[..i["block"].len()].copy_from_slice(&i["block"]);
    (rules.filling)(&mut data[i["block"].len()..]);
    for layer in (0..depth).rev() {
        let coded = code(data, &layers[layer]);
        let start = SYMBOL * place(layer, 0);
        i["tree"][start..start + coded.len()].copy_from_slice(&coded);
        let s = symbols(layer) / 8;
        data = vec![0; SYMBOL * s];
        for (symbol, bytes) in coded.chunks(SYMBOL).enumerate() {
            let (above, hash) = match layer {
                0 => (symbol / 8, symbol % 8),
                _ => (rules.above)(symbol, s),
            };
            let at = SYMBOL * above + HASH * hash;
            let hash = (rules.hash)(kind, Place { depth, layer, number: symbol }, bytes);
            data[at..at + HASH].copy_from_slice(&hash);
        }
    }
    let head = Head::of(kind, depth, i["block"].len(), &i["table"]);
    i["record"] = (rules.record)(i, head, &data);
    i["marks"].fill(1);
    0
}

fn code(mut symbols: Vec<u8>, equations: &[Vec<usize>]) -> Vec<u8> {
    for members in equations {
        let others = &members[..members.len() - 1];
        for byte in 0..SYMBOL {
            symbols.push(others.iter().fold(0, |sum, &m| sum ^ symbols[SYMBOL * m + byte]));
        }
    }
    symbols
}

#[test]
fn right_rules_pass() {
    passes(&CALL, |i| write_by(&RULES, i));
}

wrong!(eight_neighbours_under_one_parent, Difference::Inside { buffer: "tree", .. }, |i| {
    write_by(&Rules { above: |symbol, _| (symbol / 8, symbol % 8), ..RULES }, i)
});

wrong!(hashes_in_another_order, Difference::Inside { buffer: "tree", .. }, |i| {
    write_by(&Rules { above: |symbol, s| (symbol % s, 7 - symbol / s), ..RULES }, i)
});

wrong!(house_table_whatever_the_table, Difference::Inside { buffer: "tree", .. }, |i| {
    write_by(&Rules { words: Some(house), ..RULES }, i)
});

wrong!(one_fixed_tree, Difference::Inside { buffer: "tree", .. }, |i| {
    let block = i["block"].clone();
    i["block"].fill(0);
    let result = right(i);
    i["block"] = block;
    result
});

wrong!(only_the_base_is_marked, Difference::Inside { buffer: "marks", .. }, |i| {
    let before = i["marks"].clone();
    let result = right(i);
    if result == 0 {
        let base = place(i.number("depth") as usize - 1, 0);
        i["marks"][..base].copy_from_slice(&before[..base]);
    }
    result
});

wrong!(lent_marks_tested, Difference::Result { expected: 0, .. }, |i| {
    let bad = i["marks"].iter().position(|&mark| mark > 1);
    match (right(i), bad) {
        (0, Some(place)) => 4 + 256 * place as u64,
        (result, _) => result,
    }
});

// Kinds.

#[test]
fn wrong_hashes_are_found() {
    hashes::are_found(&CALL, |i, hash| write_by(&Rules { hash, ..RULES }, i));
}

/// Wrong ways to ask test 11, by whether a number is a kind's.
pub const KINDS: &[(&str, Ask)] = &[
    ("2 taken", |i| kinds(i, |kind| kind < 3)),
    ("3 taken", |i| kinds(i, |kind| kind < 2 || kind == 3)),
    ("255 taken", |i| kinds(i, |kind| kind < 2 || kind == 255)),
    ("0 refused", |i| kinds(i, |kind| kind == 1)),
    ("1 refused", |i| kinds(i, |kind| kind == 0)),
    ("the lowest bit alone", |i| kinds(i, |kind| kind & 0xfffe == 0 || kind & 1 == 1)),
    ("any number", |i| kinds(i, |_| true)),
    ("the highest number taken", |i| kinds(i, |kind| kind < 2 || kind == u64::MAX)),
];

fn kinds(i: &Input, taken: fn(u64) -> bool) -> Result<(), Stop> {
    if taken(i.number("kind")) {
        Ok(())
    } else {
        Err(Stop::WrongRecord)
    }
}

wrong!(kinds_exchanged, Difference::Inside { .. }, |i| told_as(i, |kind| kind.other()));
wrong!(always_placed, Difference::Inside { .. }, |i| told_as(i, |_| Kind::Placed));
wrong!(always_plain, Difference::Inside { .. }, |i| told_as(i, |_| Kind::Plain));

/// `right`, as if it were told another kind, where it is told one.
fn told_as(i: &mut Input, other: fn(Kind) -> Kind) -> u64 {
    let told = i.number("kind");
    if let Ok(kind) = Kind::told(told) {
        i.set("kind", other(kind) as u64);
    }
    let result = right(i);
    i.set("kind", told);
    result
}

wrong!(any_number_is_plain, 11 => 0, |i| {
    match (KIND.ask)(i) {
        Err(_) => {
            let mut seen = i.clone();
            seen.set("kind", 1);
            let result = right(&mut seen);
            i.buffers = seen.buffers;
            result
        }
        Ok(()) => right(i),
    }
});

// The filling.

wrong!(old_bytes_in_the_place_of_zeros, Difference::Inside { buffer: "tree", .. }, |i| {
    write_by(&Rules { filling: |_| (), ..RULES }, i)
});

wrong!(ones_in_the_place_of_zeros, Difference::Inside { buffer: "tree", .. }, |i| {
    write_by(&Rules { filling: |filling| filling.fill(0xff), ..RULES }, i)
});

wrong!(end_mark_after_the_block, Difference::Inside { buffer: "tree", .. }, |i| {
    let filling = |filling: &mut [u8]| {
        filling.fill(0);
        filling.iter_mut().take(1).for_each(|first| *first = 0x80);
    };
    write_by(&Rules { filling, ..RULES }, i)
});

wrong!(last_symbols_not_filled, Difference::Inside { buffer: "tree", .. }, |i| {
    let filling = |filling: &mut [u8]| {
        let len = filling.len() % SYMBOL;
        filling[..len].fill(0);
    };
    write_by(&Rules { filling, ..RULES }, i)
});

wrong!(whole_blocks_alone, Difference::Result { expected: 0, found: 2 }, |i| {
    match (right(&mut i.clone()), i.size()) {
        (0, Some(depth)) if i["block"].len() < block_len(depth) => 2,
        _ => right(i),
    }
});

// The record.

/// A test that a writer is found whose record is another, given what it is lent, the right
/// head and the root.
macro_rules! other_record {
    ($name:ident, |$input:pat_param, $head:pat_param, $root:ident| $record:expr) => {
        wrong!($name, Difference::Inside { buffer: "record", .. }, |i| {
            write_by(&Rules { record: |$input, $head, $root| $record, ..RULES }, i)
        });
    };
}

other_record!(length_of_the_longest_block, |_, head, root| {
    Head { length: block_len(head.depth), ..head }.before(root)
});
other_record!(length_in_symbols, |_, head, root| {
    Head { length: head.length / SYMBOL, ..head }.before(root)
});
other_record!(length_rounded_up, |_, head, root| {
    Head { length: (head.length + SYMBOL - 1) / SYMBOL * SYMBOL, ..head }.before(root)
});
other_record!(no_length, |_, head, root| Head { length: 0, ..head }.before(root));
other_record!(depth_counted_from_0, |_, head, root| {
    Head { depth: head.depth - 1, ..head }.before(root)
});
other_record!(count_without_the_end_word, |_, head, root| {
    Head { words: head.words - 1, ..head }.before(root)
});
other_record!(count_of_bytes, |_, head, root| {
    Head { words: 4 * head.words, ..head }.before(root)
});
other_record!(hash_without_the_end_word, |i, head, root| {
    let table = &i["table"];
    Head { hash: sha256(&table[..table.len() - 4]), ..head }.before(root)
});
other_record!(hash_of_the_block, |i, head, root| {
    Head { hash: sha256(&i["block"]), ..head }.before(root)
});
other_record!(root_before_the_head, |_, head, root| [root, &head.bytes()[..]].concat());
other_record!(length_before_the_depth, |_, head, root| {
    let bytes = head.bytes();
    [&bytes[4..8], &bytes[..4], &bytes[8..], root].concat()
});
other_record!(hash_before_the_words, |_, head, root| {
    let bytes = head.bytes();
    [&bytes[12..], &bytes[..12], root].concat()
});
other_record!(lowest_bytes_first, |_, head, root| {
    let mut bytes = head.bytes();
    bytes[..12].chunks_mut(4).for_each(<[u8]>::reverse);
    [&bytes[..], root].concat()
});
other_record!(no_kinds, |_, head, root| {
    let mut bytes = head.bytes();
    [0, 4, 8].into_iter().for_each(|at| bytes[at] &= 0x3f);
    [&bytes[..], root].concat()
});
other_record!(kind_01_whatever_the_kind, |_, head, root| {
    Head { kind: Kind::Plain, ..head }.before(root)
});
other_record!(kind_00_whatever_the_kind, |_, head, root| {
    Head { kind: Kind::Placed, ..head }.before(root)
});
other_record!(kind_of_the_other, |_, head, root| {
    Head { kind: head.kind.other(), ..head }.before(root)
});
other_record!(hash_of_the_table_with_a_place, |i, head, root| {
    let hash = match head.kind {
        Kind::Placed => sha256(&[&[0x40, 0, 0, 0], &i["table"][..]].concat()),
        Kind::Plain => head.hash,
    };
    Head { hash, ..head }.before(root)
});
other_record!(head_as_it_was_lent, |i, _, root| [&i["record"][..HEAD], root].concat());

/// `right`, but each symbol that its place is cut for stands at the other one.
fn written_at(i: &mut Input, cut: fn(usize) -> usize) -> u64 {
    let before = i["tree"].clone();
    let result = right(i);
    if result == 0 {
        let after = std::mem::replace(&mut i["tree"], before);
        for (place, symbol) in after.chunks(SYMBOL).enumerate() {
            i["tree"][SYMBOL * cut(place)..][..SYMBOL].copy_from_slice(symbol);
        }
    }
    result
}

wrong!(bytes_of_the_tree_by_16_bits, Difference::Inside { buffer: "tree", .. }, |i| {
    written_at(i, |place| place & 0xff)
});

wrong_deep!(places_of_12_bits, Difference::Inside { buffer: "tree", .. }, |i| {
    written_at(i, |place| place & 0xfff)
});

wrong_deep!(marks_by_12_bits, Difference::Inside { buffer: "marks", .. }, |i| {
    let before = i["marks"].clone();
    let result = right(i);
    if result == 0 {
        (4096..before.len()).for_each(|place| i["marks"][place] = before[place]);
    }
    result
});

wrong_deep!(table_cut_at_16384_bytes, 0 => 3, |i| {
    let mut seen = i.clone();
    seen["table"].truncate(16_384);
    let result = right(&mut seen);
    ["tree", "marks", "record"].into_iter().for_each(|buffer| i[buffer] = seen[buffer].clone());
    result
});

wrong_deep!(length_of_16_bits, Difference::Inside { buffer: "record", .. }, |i| {
    let record = |_: &Input, head: Head, root: &[u8]| {
        Head { length: head.length & 0xffff, ..head }.before(root)
    };
    write_by(&Rules { record, ..RULES }, i)
});

wrong_deep!(count_of_14_bits, Difference::Inside { buffer: "record", .. }, |i| {
    let record = |_: &Input, head: Head, root: &[u8]| {
        Head { words: head.words & 0x3fff, ..head }.before(root)
    };
    write_by(&Rules { record, ..RULES }, i)
});

wrong_deep!(last_parity_of_4096_not_coded, Difference::Inside { buffer: "tree", .. }, |i| {
    let result = right(i);
    if result == 0 && i.number("depth") == 9 {
        let start = SYMBOL * place(8, 4095);
        i["tree"][start..].fill(0);
    }
    result
});
