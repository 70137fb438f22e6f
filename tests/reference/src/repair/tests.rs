use super::*;
use crate::kind::KINDS;
use crate::proof::check;
use crate::record::Head as RecordHead;
use crate::table::{data_symbols, house, to_bytes, write as write_table};
use crate::tree::{block_len, ROOT};
use crate::written::{block_of, cases_block, without, Written};

const LENT: u8 = 0xdd;

/// Repairs a tree, and gives its output too.
fn repaired(w: &mut Written) -> (Result<Repaired, Stop>, Vec<u8>) {
    let mut output = vec![LENT; output_len(w.depth as usize)];
    let result = repair(w.depth, &w.record, &w.table, &mut w.tree, &mut w.marks, &mut output);
    (result, output)
}

fn cases_tree(kind: Kind) -> Written {
    Written::new(kind, 1, &house(1), &cases_block())
}

fn written(kind: Kind, depth: usize) -> Written {
    Written::new(kind, depth, &house(depth), &block_of(depth))
}

/// Takes symbols away, by their places. Other bytes stand in theirs.
fn lose(w: &mut Written, places: &[usize]) {
    for &place in places {
        w.marks[place] = 0;
        w.tree[SYMBOL * place..SYMBOL * (place + 1)].fill(0xee);
    }
}

fn absent(w: &Written) -> Vec<usize> {
    (0..w.marks.len()).filter(|&place| w.marks[place] == 0).collect()
}

/// Case 4.
#[test]
fn two_of_the_cases_tree_absent() {
    for kind in KINDS {
        let right = cases_tree(kind);
        let mut w = right.clone();
        lose(&mut w, &[0, 1]);
        let (result, output) = repaired(&mut w);
        assert_eq!(result, Ok(Repaired { end: End::Whole, stored: 2 }));
        assert!(w.tree == right.tree && w.marks == right.marks);
        assert!(output.iter().all(|&byte| byte == LENT));
    }
}

/// Case 5.
#[test]
fn one_of_eight_absent_is_stored() {
    for kind in KINDS {
        let mut w = cases_tree(kind);
        lose(&mut w, &[0, 4, 5, 6, 8, 9, 12, 15]);
        let (result, output) = repaired(&mut w);
        assert_eq!(result, Ok(Repaired { end: End::Unavailable(0), stored: 1 }));
        assert_eq!(absent(&w), [0, 4, 5, 6, 8, 9, 12]);
        for place in absent(&w) {
            assert_eq!(symbol_at(&w.tree, place), [0; SYMBOL]);
        }
        assert!(output.iter().all(|&byte| byte == LENT));
    }
}

/// Case 6.
#[test]
fn all_absent() {
    for kind in KINDS {
        let mut w = cases_tree(kind);
        lose(&mut w, &(0..16).collect::<Vec<_>>());
        let (result, _) = repaired(&mut w);
        assert_eq!(result, Ok(Repaired { end: End::Unavailable(0), stored: 0 }));
        assert_eq!(absent(&w).len(), 16);
    }
}

/// Case 7: the same output and report, whether symbol 7 is held or absent.
#[test]
fn a_miscoded_symbol() {
    for kind in KINDS {
        let miscoded = Written::altered(kind, 1, &house(1), &cases_block(), |_, symbols| {
            symbols[7] = [1; SYMBOL]
        });
        let mut outputs = Vec::new();
        for held in [true, false] {
            let mut w = miscoded.clone();
            if !held {
                lose(&mut w, &[7]);
            }
            let (result, output) = repaired(&mut w);
            assert_eq!(result, Ok(Repaired { end: End::Fault(780), stored: 0 }));
            assert_eq!(output[..HEAD], [0x40, 0, 0, 0, 0x80, 0, 0, 3, 0xc0, 0, 0, 7]);
            assert_eq!(check(1, &w.record, &w.table, &output[..780]), Ok(()));
            assert!(output[780..].iter().all(|&byte| byte == LENT));
            assert_eq!(symbol_at(&w.tree, 7), if held { [1; SYMBOL] } else { [0; SYMBOL] });
            assert_eq!(w.marks[7], u8::from(held));
            outputs.push(output);
        }
        assert_eq!(outputs[0], outputs[1]);
    }
}

/// Whatever stands in one place, the tree comes back.
#[test]
fn one_bad_copy_or_one_absent_anywhere() {
    for depth in 1..=4 {
        let right = written(KINDS[depth % 2], depth);
        for place in 0..right.marks.len() {
            for mark in [0, 1] {
                let mut w = right.clone();
                w.tree[SYMBOL * place + place % SYMBOL] ^= 2;
                w.marks[place] = mark;
                let (result, _) = repaired(&mut w);
                assert_eq!(result, Ok(Repaired { end: End::Whole, stored: 1 }));
                assert!(w.tree == right.tree && w.marks == right.marks);
            }
        }
    }
}

/// A right symbol under mark 0 is formed again, and counts.
#[test]
fn right_bytes_under_mark_0() {
    for kind in KINDS {
        let right = written(kind, 2);
        let mut w = right.clone();
        w.marks[20] = 0;
        assert_eq!(repaired(&mut w).0, Ok(Repaired { end: End::Whole, stored: 1 }));
        w.marks[..16].fill(0);
        assert_eq!(repaired(&mut w).0, Ok(Repaired { end: End::Unavailable(0), stored: 0 }));
        assert!(w.tree[..16 * SYMBOL].iter().all(|&byte| byte == 0));
        assert_eq!(w.tree[16 * SYMBOL..], right.tree[16 * SYMBOL..]);
    }
}

/// A layer that is unavailable, under one in which symbols are stored.
#[test]
fn an_unavailable_layer() {
    for kind in KINDS {
        let mut w = written(kind, 3);
        lose(&mut w, &[2, 5]);
        lose(&mut w, &(16..48).collect::<Vec<_>>());
        lose(&mut w, &[60]);
        let lower = w.tree[48 * SYMBOL..].to_vec();
        let (result, _) = repaired(&mut w);
        assert_eq!(result, Ok(Repaired { end: End::Unavailable(1), stored: 2 }));
        assert_eq!(absent(&w), (16..48).chain([60]).collect::<Vec<_>>());
        assert_eq!(w.tree[48 * SYMBOL..], lower);
    }
}

/// In each layer, through an absent member and through a complete equation.
#[test]
fn faults_of_each_layer() {
    for depth in 1..=4 {
        for layer in 0..depth {
            let k = 4 << layer;
            let kind = KINDS[(depth + layer) % 2];
            let miscoded =
                Written::altered(kind, depth, &house(depth), &block_of(depth), |at, symbols| {
                    if at == layer {
                        symbols[k][9] ^= 0x80;
                    }
                });
            for lost in [None, Some(place(layer, k)), Some(place(layer, 0))] {
                let mut w = miscoded.clone();
                lose(&mut w, &lost.into_iter().collect::<Vec<_>>());
                let (result, output) = repaired(&mut w);
                let len = proof::proof_len(layer, 3);
                assert_eq!(result, Ok(Repaired { end: End::Fault(len), stored: 0 }));
                assert_eq!(check(w.depth, &w.record, &w.table, &output[..len]), Ok(()));
                let withheld = lost.map_or(k, |lost| lost - place(layer, 0));
                let head = Head { layer, equation: 0, withheld };
                assert_eq!(output[..HEAD], head.bytes());
                assert_eq!(absent(&w), lost.into_iter().collect::<Vec<_>>());
            }
        }
    }
}

/// After a take the search begins again: equation 1 gives symbol 1, and then
/// equation 0 comes before the others, which all hold or show a fault, or lack 0
/// too.
#[test]
fn the_search_begins_again() {
    for kind in KINDS {
        let mut layer: Vec<Vec<usize>> = vec![vec![0, 1, 4], vec![1, 5]];
        layer.extend((2..10).map(|e| vec![2, 4 + e]));
        layer.extend((10..12).map(|e| vec![0, 3, 4 + e]));
        let words = write_table(&[layer]);
        let mut w = Written::altered(kind, 1, &words, &cases_block(), |_, symbols| {
            symbols[4] = [0x55; SYMBOL];
            symbols[6] = [0x66; SYMBOL];
        });
        lose(&mut w, &[0, 1]);
        let (result, output) = repaired(&mut w);
        assert_eq!(result, Ok(Repaired { end: End::Fault(proof::proof_len(0, 3)), stored: 1 }));
        assert_eq!(output[..HEAD], Head { layer: 0, equation: 0, withheld: 0 }.bytes());
    }
}

/// Steps (b) and (c) by their words: after each take the search begins again at equation 0.
fn plain_peel(repair: &mut Repair, layer: usize, equations: &[Vec<usize>]) -> Option<End> {
    let mut used = vec![false; equations.len()];
    let takeable = |repair: &Repair, used: &[bool], equation: usize| {
        !used[equation] && repair.absent(layer, &equations[equation]).len() <= 1
    };
    while let Some(equation) = (0..equations.len()).find(|&e| takeable(repair, &used, e)) {
        used[equation] = true;
        if let Some(end) = repair.take(layer, equation, &equations[equation]) {
            return Some(end);
        }
    }
    let gaps = (0..symbols(layer)).any(|symbol| !repair.held(layer, symbol));
    gaps.then_some(End::Unavailable(layer))
}

/// Miscoded bases with gaps: which equation is taken first decides what is stored and which
/// fault shows. A set of equations and a plain search take the same ones in the same order.
#[test]
fn equations_are_taken_in_the_order_of_a_plain_search() {
    let mut ends = [0; 3];
    for (depth, turns) in [(1, 600), (2, 300), (4, 90), (6, 12), (9, 3)] {
        let base = depth - 1;
        for turn in 0..turns {
            let mixed = |i: usize| (i * 7919 + turn * 104_729 + i * i * 31) % 1009;
            let kind = KINDS[turn % 2];
            let miscoded =
                Written::altered(kind, depth, &house(depth), &block_of(depth), |layer, coded| {
                    let replaced = (0..turn % 4).map(|i| mixed(i + 5000) % symbols(base));
                    replaced.filter(|_| layer == base).for_each(|symbol| coded[symbol][3] ^= 1);
                });
            let lost = (0..symbols(base)).filter(|&i| mixed(i) % 100 < turn * 7 % 60);
            let mut w = miscoded.clone();
            lose(&mut w, &lost.map(|symbol| place(base, symbol)).collect::<Vec<_>>());
            let equations = w.equations().swap_remove(base);
            let results = [true, false].map(|plain| {
                let mut w = w.clone();
                let mut output = vec![LENT; output_len(depth)];
                let (root, tree, marks) = (record::root(&w.record), &mut w.tree, &mut w.marks);
                let (hash, lent) = (Kind::hash, &mut output[..]);
                let mut repair = Repair { kind, hash, root, tree, marks, output: lent, stored: 0 };
                repair.sweep(base);
                let end = match plain {
                    true => plain_peel(&mut repair, base, &equations),
                    false => repair.peel(base, &equations),
                };
                let stored = repair.stored;
                (end, stored, w.tree, w.marks, output)
            });
            assert!(results[0] == results[1], "depth {depth}, turn {turn}");
            ends[match results[0].0 {
                None => 0,
                Some(End::Fault(_)) => 1,
                _ => 2,
            }] += 1;
        }
    }
    assert!(ends.iter().all(|&times| times >= 40), "{ends:?}");
}

/// What a repair of a tree of depth 3 comes to by a hash that is always zero, with what it stores and
/// the start of its output. The layers above this one are zeros, as their hashes are. So a formed
/// symbol always fits, and an equation that is complete and fails shows twins: equation 1 of the
/// layer, {1, 2, k, k+1}, gives symbol k+1, and then 2, {2, 3, k+1, k+2}, fails.
fn twins_in(kind: Kind, layer: usize) -> (End, usize, Vec<u8>) {
    let (mut w, k) = (written(kind, 3), data_symbols(layer));
    let layers = w.equations();
    assert_eq!(layers[layer][1..3], [vec![1, 2, k, k + 1], vec![2, 3, k + 1, k + 2]]);
    w.tree[..SYMBOL * place(layer, 0)].fill(0);
    lose(&mut w, &[place(layer, k + 1)]);
    w.tree[SYMBOL * place(layer, k + 2)..][..SYMBOL].fill(0x66);
    let mut output = vec![LENT; output_len(3)];
    let (root, hash) = ([0; ROOT], |_: Kind, _: usize, _: usize, _: &[u8]| [0; HASH]);
    let Written { tree, marks, .. } = &mut w;
    let (root, output_lent) = (&root, &mut output[..]);
    let mut repair = Repair { kind, hash, root, tree, marks, output: output_lent, stored: 0 };
    // Its block is not zero either.
    let (end, stored) = (repair.ended(&layers, 0), repair.stored);
    assert!(output[2 * SYMBOL..].iter().all(|&byte| byte == LENT));
    output.truncate(2 * SYMBOL);
    (end, stored, output)
}

/// Twins with places name the place, in each layer; plain ones none.
#[test]
fn twins_of_a_poor_hash() {
    for layer in 0..3 {
        for (kind, named) in [(Kind::Plain, None), (Kind::Placed, Some((layer, (4 << layer) + 2)))]
        {
            let right = written(kind, 3).tree;
            let k = data_symbols(layer);
            let others = [2, 3, k + 1].map(|i| symbol_at(&right, place(layer, i)));
            let expected = [[0x66; SYMBOL], exclusive_or(others.into_iter())].concat();
            assert_eq!(twins_in(kind, layer), (End::Twins(named), 1, expected));
        }
    }
}

/// Only symbols of one place are twins by a hash that is the place's: at another place the same
/// bytes have another hash, and are a bad copy.
#[test]
fn twins_are_of_one_place() {
    let hash = |_: Kind, layer: usize, number: usize, _: &[u8]| {
        let mut hash = [0; HASH];
        hash[..2].copy_from_slice(&[layer as u8, number as u8]);
        hash
    };
    let mut root: Vec<u8> = (0..16).flat_map(|number| hash(Kind::Placed, 0, number, &[])).collect();
    for (exchanged, end, left) in [
        (None, End::Twins(Some((0, 6))), 0),
        // The hashes of 4 and 6 exchanged: both are absent, and formed symbols do not fit.
        (Some((4, 6)), End::Fault(proof::proof_len(0, 3)), 2),
    ] {
        let mut w = cases_tree(Kind::Placed);
        w.tree[6 * SYMBOL..7 * SYMBOL].fill(0x66);
        if let Some((one, other)) = exchanged {
            (0..HASH).for_each(|i| root.swap(HASH * one + i, HASH * other + i));
        }
        let (layers, mut output) = (w.equations(), vec![LENT; output_len(1)]);
        let Written { tree, marks, .. } = &mut w;
        let (kind, output) = (Kind::Placed, &mut output[..]);
        let mut repair = Repair { kind, hash, root: &root, tree, marks, output, stored: 0 };
        assert_eq!((repair.run(&layers), absent(&w).len()), (end, left));
    }
}

/// The tree of a block that is zero from a byte on, but for one byte, and whose record says
/// this length.
fn misfilled(kind: Kind, depth: usize, length: usize, but: Option<usize>) -> Written {
    let mut block = block_of(depth);
    block[length..].fill(0);
    but.into_iter().for_each(|at| block[at] = 0x80);
    let mut w = Written::new(kind, depth, &house(depth), &block);
    w.put(RecordHead { length, ..w.head() });
    w
}

/// Lengths of a block: none, beside the ends of a symbol, beside the longest.
fn lengths(depth: usize) -> [usize; 7] {
    let longest = block_len(depth);
    [0, 1, 255, 256, 257, longest - 1, longest]
}

/// Losses that come back, by their places: none, a data symbol of the base and its last, its
/// first parity symbol and one of the top.
fn losses(depth: usize) -> [Vec<usize>; 3] {
    let base = depth - 1;
    let k = data_symbols(base);
    [vec![], vec![place(base, 1), place(base, k - 1)], vec![2, place(base, k)]]
}

/// Zero, and one other byte: the first that fills up, a middle one, the last.
#[test]
fn what_fills_up_must_be_zero() {
    for depth in 1..=4 {
        for (length, last) in lengths(depth).map(|length| (length, block_len(depth) - 1)) {
            let others = [length, (length + last) / 2, last].map(Some);
            for but in [None].into_iter().chain(others).filter(|_| length <= last) {
                let right = misfilled(KINDS[depth % 2], depth, length, but);
                let end = but.map_or(End::Whole, |_| End::Misfilled);
                for lost in losses(depth) {
                    let mut w = right.clone();
                    lose(&mut w, &lost);
                    let (result, output) = repaired(&mut w);
                    assert_eq!(result, Ok(Repaired { end, stored: lost.len() }));
                    assert!(w.tree == right.tree && w.marks == right.marks);
                    assert!(output.iter().all(|&byte| byte == LENT));
                }
            }
        }
        let mut w = written(KINDS[depth % 2], depth);
        assert_eq!(repaired(&mut w).0, Ok(Repaired { end: End::Whole, stored: 0 }));
    }
}

/// The byte before what fills up may be any.
#[test]
fn the_last_byte_of_a_block_does_not_fill_up() {
    for length in [1, 255, 256, 257, 1024] {
        let mut w = misfilled(KINDS[length % 2], 1, length, Some(length - 1));
        assert_eq!(repaired(&mut w).0, Ok(Repaired { end: End::Whole, stored: 0 }));
    }
}

/// Where a repair is not whole, what fills up is not looked at.
#[test]
fn other_ends_of_misfilled_trees() {
    for kind in KINDS {
        let right = misfilled(kind, 2, 256, Some(2047));
        let mut w = right.clone();
        lose(&mut w, &(16..48).collect::<Vec<_>>());
        assert_eq!(repaired(&mut w).0, Ok(Repaired { end: End::Unavailable(1), stored: 0 }));
        let mut w = Written::altered(kind, 2, &house(2), &block_of(2), |layer, symbols| {
            if layer == 1 {
                symbols[8][0] ^= 1;
            }
        });
        w.put(RecordHead { length: 256, ..w.head() });
        let len = proof::proof_len(1, 3);
        assert_eq!(repaired(&mut w).0, Ok(Repaired { end: End::Fault(len), stored: 0 }));
    }
}

/// A table that is not covered, and a mark that is none: 10 comes first, and
/// everything stays as it was.
#[test]
fn uncovered_tables_are_not_repaired_by() {
    for kind in KINDS {
        let mut w = written(kind, 2);
        w.table = to_bytes(&without(2, 0, 1));
        for mark in [0, 2] {
            w.marks[20] = mark;
            let before = w.clone();
            let (result, output) = repaired(&mut w);
            assert_eq!(result, Err(Stop::Uncovered { layer: 0, symbol: 1 }));
            assert!(w.tree == before.tree && w.marks == before.marks);
            assert!(output.iter().all(|&byte| byte == LENT));
        }
    }
}

/// What a repair stops with for these lengths of record, table, tree, marks and
/// output at depth 1, and for these marks. A table of another length is none.
fn stop_of(depth: u64, lens: [usize; 5], mark: u8) -> Option<Stop> {
    let mut w = cases_tree(Kind::Placed);
    let mut output = vec![LENT; lens[4]];
    w.record.resize(lens[0], 0);
    w.table.resize(lens[1], 0);
    w.tree.resize(lens[2], 0);
    w.marks.resize(lens[3], 1);
    w.marks[9] = mark;
    let before = w.clone();
    let result = repair(depth, &w.record, &w.table, &mut w.tree, &mut w.marks, &mut output);
    if result.is_err() {
        assert!(w.tree == before.tree && w.marks == before.marks);
        assert!(output.iter().all(|&byte| byte == LENT));
    }
    result.err()
}

#[test]
fn tests_in_their_order() {
    let right = [556, 244, 4096, 16, output_len(1)];
    assert_eq!(output_len(1), 1804);
    assert_eq!(stop_of(1, right, 1), None);
    assert_eq!(stop_of(1, right, 2), Some(Stop::Mark(9)));
    assert_eq!(stop_of(1, [556, 240, 4096, 16, 1804], 2), Some(Stop::Word(60)));
    for buffer in 0..5 {
        for other in [right[buffer] - 1, right[buffer] + 1] {
            let mut lens = right;
            lens[buffer] = other;
            assert_eq!(stop_of(1, lens, 2), Some(Stop::Length));
            assert_eq!(stop_of(1 << 32 | 1, lens, 2), Some(Stop::Depth));
        }
    }
}
