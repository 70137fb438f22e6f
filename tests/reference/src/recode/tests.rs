use super::*;
use crate::kind::{Kind, KINDS};
use crate::table::{data_symbols, house, to_bytes};
use crate::tree::place;
use crate::written::{block_of, without, Written};

/// The volume that a recoding makes into other buffers, and what stops it. The source stays as it
/// was, and what is stopped leaves the others so.
fn recoded(w: &Written) -> Result<Written, Stop> {
    let lent = Written { table: w.table.clone(), ..Written::lent(w.depth as usize, &[]) };
    let mut new = lent.clone();
    let Written { tree, marks, record, .. } = &mut new;
    let result = recode(w.depth, &w.record, &w.table, &w.tree, &w.marks, tree, marks, record);
    assert!(result.is_ok() || new == lent);
    result.map(|()| new)
}

fn written(kind: Kind, depth: usize) -> Written {
    Written::new(kind, depth, &house(depth), &block_of(depth))
}

/// There and back again, each depth with blocks of any length, of depth 6 to 9 one byte short.
#[test]
fn what_the_writer_makes_of_the_other_kind() {
    for depth in 1..=9 {
        let most = block_len(depth);
        let lengths = [most - 1, 0, 1, 255, 256, 257, most];
        for &length in &lengths[..if depth < 6 { lengths.len() } else { 1 }] {
            let [plain, placed] = [Kind::Plain, Kind::Placed]
                .map(|kind| Written::new(kind, depth, &house(depth), &block_of(depth)[..length]));
            assert!(recoded(&plain) == Ok(placed.clone()), "depth {depth}, {length}");
            assert!(recoded(&placed) == Ok(plain), "depth {depth}, {length}");
        }
    }
}

/// All that is above the base becomes another, and the base stays.
#[test]
fn the_base_stays() {
    let one = written(Kind::Plain, 3);
    let other = recoded(&one).unwrap();
    let base = SYMBOL * place(2, 0);
    assert_eq!(one.tree[base..], other.tree[base..]);
    assert_eq!(other.head(), Head { kind: Kind::Placed, ..one.head() });
    for symbol in (0..4).chain(16..24) {
        let at = SYMBOL * symbol;
        assert_ne!(one.tree[at..at + SYMBOL], other.tree[at..at + SYMBOL]);
    }
}

/// A symbol that is absent, and one with another bit, at each place.
#[test]
fn a_tree_that_repair_would_change() {
    for (depth, kind) in (1..=3).flat_map(|depth| KINDS.map(|kind| (depth, kind))) {
        let right = written(kind, depth);
        for place in 0..right.marks.len() {
            let mut w = right.clone();
            w.marks[place] = 0;
            assert!(recoded(&w) == Err(Stop::NotWhole));
            let mut w = right.clone();
            w.tree[SYMBOL * place + place % SYMBOL] ^= 1;
            assert!(recoded(&w) == Err(Stop::NotWhole));
        }
    }
}

/// In each layer, the hashes being those of the miscoded tree.
#[test]
fn a_miscoded_tree() {
    for (depth, kind) in (1..=4).flat_map(|depth| KINDS.map(|kind| (depth, kind))) {
        for layer in 0..depth {
            for symbol in [data_symbols(layer), 4 * data_symbols(layer) - 1] {
                let block = block_of(depth);
                let alter = |at: usize, symbols: &mut [[u8; SYMBOL]]| {
                    if at == layer {
                        symbols[symbol][0] ^= 1;
                    }
                };
                let w = Written::altered(kind, depth, &house(depth), &block, alter);
                assert!(recoded(&w) == Err(Stop::NotWhole));
            }
        }
    }
}

/// Repair would end with 13.
#[test]
fn a_tree_that_is_not_filled_up_with_zeros() {
    for kind in KINDS {
        let mut w = written(kind, 2);
        for length in [0, 1, 2046] {
            w.put(Head { length, ..w.head() });
            assert!(recoded(&w) == Err(Stop::NotWhole));
        }
    }
}

#[test]
fn hashes_of_the_other_kind() {
    for (depth, kind) in (1..=4).flat_map(|depth| KINDS.map(|kind| (depth, kind))) {
        let mut w = written(kind, depth);
        w.put(Head { kind: kind.other(), ..w.head() });
        assert!(recoded(&w) == Err(Stop::NotWhole));
    }
}

/// What a recoding stops with for these lengths of record, table, tree, marks, and of the three that
/// it writes, at depth 1. A table of another length is none.
fn stop_of(depth: u64, lens: [usize; 7], mark: u8) -> Option<Stop> {
    let mut w = written(Kind::Plain, 1);
    w.marks[9] = mark;
    w.record.resize(lens[0], 0);
    w.table.resize(lens[1], 0);
    w.tree.resize(lens[2], 0);
    w.marks.resize(lens[3], 1);
    let mut new = [lens[4], lens[5], lens[6]].map(|len| vec![7; len]);
    let [tree, marks, record] = &mut new;
    let result = recode(depth, &w.record, &w.table, &w.tree, &w.marks, tree, marks, record);
    assert!(result.is_ok() || new.iter().flatten().all(|&byte| byte == 7));
    result.err()
}

#[test]
fn tests_in_their_order() {
    let right = [556, 244, 4096, 16, 4096, 16, 556];
    assert_eq!(stop_of(1, right, 1), None);
    assert_eq!(stop_of(1, right, 0), Some(Stop::NotWhole));
    assert_eq!(stop_of(1, right, 2), Some(Stop::Mark(9)));
    assert_eq!(stop_of(1, [556, 240, 4096, 16, 4096, 16, 556], 2), Some(Stop::Word(60)));
    for buffer in 0..7 {
        for other in [0, right[buffer] - 1, right[buffer] + 1] {
            let mut lens = right;
            lens[buffer] = other;
            let length = if buffer == 1 && other == 0 { Stop::Word(0) } else { Stop::Length };
            assert_eq!(stop_of(1, lens, 2), Some(length));
            assert_eq!(stop_of(1 << 32 | 1, lens, 2), Some(Stop::Depth));
        }
    }
}

/// A wrong record comes before an uncovered table, and that before one that the record does not
/// name, and a wrong mark, and a tree that is not whole.
#[test]
fn tests_of_records_and_tables() {
    let mut w = written(Kind::Placed, 2);
    w.marks[20] = 0;
    assert!(recoded(&w) == Err(Stop::NotWhole));
    w.marks[21] = 2;
    assert!(recoded(&w) == Err(Stop::Mark(21)));
    w.record[20] ^= 1;
    assert!(recoded(&w) == Err(Stop::OtherTable));
    w.table = to_bytes(&without(2, 0, 1));
    assert!(recoded(&w) == Err(Stop::Uncovered { layer: 0, symbol: 1 }));
    w.record[0] = 0x80;
    assert!(recoded(&w) == Err(Stop::WrongRecord));
}
