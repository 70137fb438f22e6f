use super::*;
use crate::kind::KINDS;
use crate::sha256::sha256;
use crate::table::{house, house_equation, to_bytes, write as write_table, MAX_DEPTH};
use crate::written::{block_of, cases_block, without, Written};
use std::collections::BTreeSet;

/// Case 3.
#[test]
fn symbols_of_the_cases_tree() {
    for kind in KINDS {
        let w = Written::new(kind, 1, &house(1), &cases_block());
        for (symbol, byte) in [(5, 0x05), (7, 0x00), (9, 0x0f)] {
            assert_eq!(symbol_at(&w.tree, symbol), [byte; SYMBOL]);
        }
    }
}

/// Case 8, with the depths of CR 6.
#[test]
fn depths() {
    for depth in [0, 10, 1 << 32 | 1, 1 << 32 | 9, u64::MAX] {
        let mut w = Written::lent(1, &house(1));
        let Written { table, tree, marks, record, .. } = &mut w;
        for kind in [0, 1, 2] {
            let stop = write(depth, kind, table, &cases_block(), tree, marks, record);
            assert_eq!(stop, Err(Stop::Depth));
        }
        assert_eq!(read_block(depth, &[], &w.tree, &w.marks, &mut [0; 3]), Err(Stop::Depth));
    }
    assert_eq!([tree_symbols(5), tree_symbols(9)], [496, 8176]);
    assert_eq!(data_symbols(8), 1024);
}

/// Case 10.
#[test]
fn place_of_a_hash() {
    assert_eq!(committed(1, 31), Committed::Above { symbol: 3, at: 224 });
    assert_eq!(committed(0, 15), Committed::Root { at: 480 });
    let hash_at = |kind| {
        let w = Written::new(kind, 2, &house(2), &block_of(2));
        let (symbol, above) = (symbol_at(&w.tree, place(1, 31)), symbol_at(&w.tree, 3));
        (symbol.to_vec(), above[224..].to_vec())
    };
    let (symbol, hash) = hash_at(Kind::Plain);
    assert_eq!(hash, sha256(&symbol));
    // The base is coded as before; its layer is 1, its number 31, and its place 47.
    let (placed_symbol, placed_hash) = hash_at(Kind::Placed);
    assert_eq!(placed_symbol, symbol);
    assert_eq!(placed_hash, sha256(&[&[0x41, 0, 0, 31], &symbol[..]].concat()));
}

/// Blank pages have one hash in a plain volume, and in one with places each another.
#[test]
fn hashes_of_blank_pages() {
    for (kind, different) in [(Kind::Plain, 1), (Kind::Placed, 16)] {
        let w = Written::new(kind, 1, &house(1), &[]);
        let hashes: BTreeSet<&[u8]> = w.root().chunks(HASH).collect();
        assert_eq!(hashes.len(), different);
    }
}

/// Every equation holds, every hash stands in its place, and the block comes
/// back.
#[test]
fn written_trees_are_correctly_coded() {
    for depth in 1..=MAX_DEPTH as usize {
        let words = house(depth);
        let (block, kind) = (block_of(depth), KINDS[depth % 2]);
        let w = Written::new(kind, depth, &words, &block);
        for (layer, equations) in w.equations().iter().enumerate() {
            for members in equations {
                for byte in 0..SYMBOL {
                    let sum = members.iter().fold(0, |sum, &member| {
                        sum ^ symbol_at(&w.tree, place(layer, member))[byte]
                    });
                    assert_eq!(sum, 0);
                }
            }
            for symbol in 0..symbols(layer) {
                let hash = kind.hash(layer, symbol, symbol_at(&w.tree, place(layer, symbol)));
                assert_eq!(hash, committed_hash(w.root(), &w.tree, layer, symbol));
            }
        }
        assert!(w.marks.iter().all(|&mark| mark == 1));
        let mut back = vec![0; block.len()];
        read_block(depth as u64, &w.record, &w.tree, &w.marks, &mut back).unwrap();
        assert_eq!(back, block);
    }
}

/// The SHA-256 of the root of each depth with the house table, plain and with places, by Python's
/// hashlib.
#[test]
fn roots_by_another_implementation() {
    let plain = [
        "4f044b39f38e51aff4cb1f79aaf46753d9f8689c2e6be1fa0071a1f33f2d5a23",
        "88f5d1b10b77f9da6a5a704f5e463fc71a89f45c17893af049c5a998bde768ac",
        "de16359339f52c0279d13e0859a67b66636d6a1075f851d6b834cd5cfeaf1df0",
        "314798f148451ac47457477bb5f61558a88d9380ad8fdf1044185c286dd1dc88",
        "5c684b01529fc751539c8f79657adbbb56293f6c1d99d4d3d834e47e291b3f70",
        "23cb2887d84dc982ae3bf029c7bc6d880829c10626375e2dea862dbf6e4d3e6a",
        "534ef8502e0132cf21578b8bdee8c795fa0f9c10fade9e510f3cd9b9e5774a0b",
        "35cc1fa7f9a52ced4c52fe8044c32bfbc2e182708a0bfe6789681a3b9c1bd93d",
        "9c33f0f2a594ea7938701d1a140d74aa464f8ee4e1395c93e8fd68b7c61cd149",
    ];
    let placed = [
        "f1e9999be915f6fe145b0c8a700cbac00776bfc5b7a69a97d0cd5a0584191bd9",
        "8c7c927224b2adc94480a3de82b3898aaee5ba04b9d46630cb5e15dc2167e0a2",
        "aac24e35e9cb22285d36259a0c20a78c9c88e24db8aab92d9aa7d022b12f65f1",
        "208e3067a586ae03851e980c5a1ae138c26a022396d62d86950a0fb3b8bebeef",
        "cedd08006d0da0a098e7fae37b5fad87e886fdbf2b6caa622e12b21c12b5657a",
        "d4d35552196074991a4d21d37634c19de958a31ae07554e2a271b27612ff06ef",
        "2c9096bfbf7e1c296d1f3b3af75a6cc03ecde7b128b6b892de678ed341e17040",
        "5ae299539d03e08938a98be63a388d0b66a96043691f294468fff605fd9b8e0e",
        "bd97312b9173d42d7c6d7ea5286aa40c3ae8d399be4850c1d79e384f6d023ddb",
    ];
    for (kind, expected) in [(Kind::Plain, plain), (Kind::Placed, placed)] {
        assert_eq!(expected.len() as u64, MAX_DEPTH);
        for (depth, expected) in (1..).zip(expected) {
            let w = Written::new(kind, depth, &house(depth), &block_of(depth));
            let digest: String =
                sha256(w.root()).iter().map(|byte| format!("{byte:02x}")).collect();
            assert_eq!(digest, expected, "{kind:?}, depth {depth}");
        }
    }
}

/// Another table gives another tree.
#[test]
fn the_table_decides_the_parity() {
    let mut layers = vec![(0..12).map(|e| house_equation(4, e)).collect::<Vec<_>>()];
    layers[0][0] = vec![2, 4];
    let w = Written::new(Kind::Placed, 1, &write_table(&layers), &cases_block());
    assert_eq!(symbol_at(&w.tree, 4), [4; SYMBOL]);
    assert_eq!(symbol_at(&w.tree, 5), [2; SYMBOL]);
}

/// What the writer stops with for this kind and these lengths of table, block, tree, marks
/// and record at depth 1. A table of another length is no table.
fn stop_of(depth: u64, kind: u64, lens: [usize; 5]) -> Option<Stop> {
    let mut table = to_bytes(&house(1));
    table.resize(lens[0], 0);
    let mut tree = vec![1; lens[2]];
    let mut marks = vec![2; lens[3]];
    let mut record = vec![3; lens[4]];
    let block = vec![0; lens[1]];
    let result = write(depth, kind, &table, &block, &mut tree, &mut marks, &mut record);
    if result.is_err() {
        let kept = tree.iter().all(|&b| b == 1) && marks.iter().all(|&b| b == 2);
        assert!(kept && record.iter().all(|&b| b == 3));
    }
    result.err()
}

#[test]
fn tests_of_the_writer_in_their_order() {
    let right = [244, 1024, 4096, 16, 556];
    for block in [0, 1, 255, 256, 257, 1023, 1024] {
        assert_eq!(stop_of(1, 1, [244, block, 4096, 16, 556]), None);
        assert_eq!(stop_of(1, 0, [244, block, 4096, 16, 556]), None);
    }
    for buffer in 0..5 {
        let mut lens = right;
        lens[buffer] += 1;
        for kind in [0, 1, 2, 1 << 32] {
            assert_eq!(stop_of(1, kind, lens), Some(Stop::Length));
            assert_eq!(stop_of(10, kind, lens), Some(Stop::Depth));
        }
        lens[0] = 248;
        let last = if buffer == 0 { Stop::Word(61) } else { Stop::Length };
        assert_eq!(stop_of(1, 0, lens), Some(last));
    }
    assert_eq!(stop_of(1, 1, [0, 1024, 4096, 16, 556]), Some(Stop::Word(0)));
    assert_eq!(stop_of(1, 1, [244, 1024, 4096, 16, 512]), Some(Stop::Length));
    for kind in [2, 3, 255, 256, 257, 1 << 32, 1 << 32 | 1, 1 << 63] {
        assert_eq!(stop_of(1, kind, right), Some(Stop::WrongRecord));
        assert_eq!(stop_of(1, kind, [0, 1024, 4096, 16, 556]), Some(Stop::WrongRecord));
    }
}

/// A table that is not covered: the buffers stay as they are.
#[test]
fn uncovered_tables_are_not_written_by() {
    let lent = Written::lent(2, &without(2, 1, 5));
    let mut w = lent.clone();
    let block = block_of(2);
    for (kind, stop) in [(0, Stop::Uncovered { layer: 1, symbol: 5 }), (2, Stop::WrongRecord)] {
        let Written { table, tree, marks, record, .. } = &mut w;
        let result = write(2, kind, table, &block, tree, marks, record);
        assert_eq!(result, Err(stop));
        assert!(w == lent);
    }
}

#[test]
fn tests_of_reading_back_in_their_order() {
    let w = Written::new(Kind::Placed, 2, &house(2), &block_of(2));
    let mut block = vec![7; block_len(2)];
    let mut read = |marks: &[u8]| read_block(2, &w.record, &w.tree, marks, &mut block);
    let mut marks = w.marks.clone();
    marks[place(1, 8)] = 0;
    marks[place(0, 3)] = 0;
    assert_eq!(read(&marks), Ok(()));
    marks[place(1, 7)] = 0;
    marks[place(1, 2)] = 0;
    assert_eq!(read(&marks), Err(Stop::Absent(2)));
    marks[place(1, 31)] = 255;
    assert_eq!(read(&marks), Err(Stop::Mark(47)));
    marks[5] = 2;
    assert_eq!(read(&marks), Err(Stop::Mark(5)));
    assert_eq!(read(&marks[1..]), Err(Stop::Length));
    let record = &w.record;
    assert_eq!(read_block(2, record, &w.tree, &marks, &mut [0; 2047]), Err(Stop::Length));
    assert_eq!(read_block(2, record, &w.tree[1..], &marks, &mut [0; 2048]), Err(Stop::Length));
    assert_eq!(read_block(2, w.root(), &w.tree, &marks, &mut [0; 2048]), Err(Stop::Length));
}

/// Lengths of a block: none, beside the ends of a symbol, beside the longest.
fn lengths(depth: usize) -> [usize; 7] {
    let longest = block_len(depth);
    [0, 1, 255, 256, 257, longest - 1, longest]
}

/// A shorter block gives the tree of the same block with zeros after it, and its own length.
#[test]
fn blocks_are_filled_up_with_zeros() {
    for depth in 1..=5 {
        for length in lengths(depth) {
            let block = &block_of(depth)[..length];
            let kind = KINDS[length % 2];
            let w = Written::new(kind, depth, &house(depth), block);
            let full = Written::new(kind, depth, &house(depth), &filled(depth, block));
            assert!(w.tree == full.tree && w.marks == full.marks && w.root() == full.root());
            assert_eq!(base_data(depth, &w.tree)[..length], *block);
            assert!(base_data(depth, &w.tree)[length..].iter().all(|&byte| byte == 0));
            assert_eq!(w.head(), Head { length, ..full.head() });
            assert_eq!(w.head(), Head::of(kind, depth, length, &w.table));
        }
    }
}

/// Whatever the length and what fills up, the first bytes come back, and no other is touched.
#[test]
fn as_many_bytes_as_the_record_says() {
    for depth in 1..=5 {
        let mut w = Written::new(Kind::Plain, depth, &house(depth), &block_of(depth));
        for length in lengths(depth) {
            let kind = KINDS[length % 2];
            w.put(Head { kind, length, words: 9, hash: [9; HASH], ..w.head() });
            let mut block = vec![0xdd; block_len(depth)];
            read_block(depth as u64, &w.record, &w.tree, &w.marks, &mut block).unwrap();
            assert_eq!(block[..length], block_of(depth)[..length]);
            assert!(block[length..].iter().all(|&byte| byte == 0xdd));
            // A symbol that holds none of the block is needed too.
            let mut marks = w.marks.clone();
            marks[place(depth - 1, data_symbols(depth - 1) - 1)] = 0;
            let stop = Stop::Absent(data_symbols(depth - 1) - 1);
            let read = read_block(depth as u64, &w.record, &w.tree, &marks, &mut block);
            assert_eq!(read, Err(stop));
        }
    }
}
