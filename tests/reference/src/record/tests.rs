use super::*;
use crate::kind;
use crate::proof::check as check_proof;
use crate::recode::recode;
use crate::repair::{output_len, repair};
use crate::sample::{check as check_sample, sample_len};
use crate::table::{house, house_equation, write as write_table, LAYER, MAX_DEPTH};
use crate::tree::read_block;
use crate::written::{block_of, Written};

const LONGEST: usize = (1 << 30) - 1;

fn head_of(kind: Kind) -> Head {
    Head { kind, depth: 2, length: 700, words: 181, hash: [0xab; HASH] }
}

fn head() -> Head {
    head_of(Kind::Plain)
}

/// The head's bytes with another word at an index.
fn with(index: usize, by: u32) -> Vec<u8> {
    let mut bytes = head().bytes();
    bytes[4 * index..4 * index + 4].copy_from_slice(&by.to_be_bytes());
    bytes
}

#[test]
fn bytes_of_a_record() {
    assert_eq!((HEAD, RECORD), (44, 556));
    let record = head().before(&[0x11; ROOT]);
    assert_eq!(record.len(), RECORD);
    assert_eq!(record[..12], [0x40, 0, 0, 2, 0x80, 0, 0x02, 0xbc, 0xc0, 0, 0, 0xb5]);
    assert_eq!(record[12..HEAD], [0xab; HASH]);
    assert_eq!(root(&record), [0x11; ROOT]);
    let placed = head_of(Kind::Placed).before(&[0x11; ROOT]);
    assert_eq!(placed[..4], [0, 0, 0, 2]);
    assert_eq!(placed[4..], record[4..]);
}

#[test]
fn what_is_written_is_read() {
    for depth in 1..=MAX_DEPTH as usize {
        for length in [0, 1, 255, 256, 257, block_len(depth) - 1, block_len(depth)] {
            for kind in kind::KINDS {
                let head = Head { depth, length, ..head_of(kind) };
                assert_eq!(Head::read(depth, &head.before(&[7; ROOT])), Ok(head));
            }
        }
    }
}

/// The count may be any: 12 compares it.
#[test]
fn heads_that_are_read() {
    for words in [0, 1, LONGEST] {
        let head = Head { words, ..head() };
        assert_eq!(Head::read(2, &head.bytes()), Ok(head));
    }
}

#[test]
fn kinds_of_the_three_words() {
    let values = [2, 700, 181];
    for (index, value) in values.into_iter().enumerate() {
        for kind in 0..4 {
            let read = Head::read(2, &with(index, word(kind, value)));
            assert_eq!(
                read,
                match (index, kind) {
                    (0, 0) => Ok(head_of(Kind::Placed)),
                    (0, 1) | (1, 2) | (2, 3) => Ok(head()),
                    _ => Err(Stop::WrongRecord),
                }
            );
        }
    }
}

#[test]
fn lengths_over_the_longest_block() {
    for depth in 1..=MAX_DEPTH as usize {
        for length in [block_len(depth) + 1, 1 << 24, 1 << 29, LONGEST] {
            let bytes = Head { depth, length, ..head() }.bytes();
            assert_eq!(Head::read(depth, &bytes), Err(Stop::WrongRecord));
        }
    }
}

#[test]
fn another_depth() {
    for depth in [0, 1, 3, 9, 10, 1 << 8 | 2, 1 << 16 | 2, 1 << 29 | 2, LONGEST] {
        for kind in [LAYER, 0] {
            assert_eq!(Head::read(2, &with(0, word(kind, depth))), Err(Stop::WrongRecord));
        }
    }
    // A length that the larger depth has room for, and the smaller one not.
    let bytes = Head { length: 1025, ..head() }.bytes();
    assert_eq!(Head::read(1, &bytes), Err(Stop::WrongRecord));
    assert_eq!(Head::read(3, &bytes), Err(Stop::WrongRecord));
}

/// The house table of depth 1 with member 2 in the place of 1 in equation 0: as many words.
fn sibling() -> Vec<u8> {
    let mut layers = vec![(0..12).map(|e| house_equation(4, e)).collect::<Vec<_>>()];
    assert_eq!(layers[0][0], [0, 1, 4]);
    layers[0][0] = vec![0, 2, 4];
    to_bytes(&write_table(&layers))
}

#[test]
fn only_the_table_itself() {
    let table = to_bytes(&house(1));
    let head = Head::of(Kind::Placed, 1, 0, &table);
    assert_eq!((head.words, head.hash), (61, sha256(&table)));
    assert_eq!(head.names(&table), Ok(()));
    assert_eq!(sibling().len(), table.len());
    for other in [&sibling(), &to_bytes(&house(2)), &table[..240], &[]] {
        assert_eq!(head.names(other), Err(Stop::OtherTable));
    }
    for words in [0, 60, 62, 61 | 1 << 8, 61 | 1 << 29] {
        assert_eq!(Head { words, ..head }.names(&table), Err(Stop::OtherTable));
    }
    for bit in 0..8 * HASH {
        let mut hash = head.hash;
        hash[bit / 8] ^= 0x80 >> (bit % 8);
        assert_eq!(Head { hash, ..head }.names(&table), Err(Stop::OtherTable));
    }
}

/// Whatever was asked before.
#[test]
fn hashes_of_tables() {
    let tables = [vec![], vec![0; 4], vec![0; 8], vec![1; 8]];
    for (one, other) in tables.iter().flat_map(|one| tables.iter().map(move |other| (one, other))) {
        assert_eq!([one, other, one].map(|t| hash_of(t)), [one, other, one].map(|t| sha256(t)));
    }
}

/// The count and the hash are of all words, the end word too.
#[test]
fn the_end_word_counts() {
    let table = to_bytes(&house(1));
    let [head, short] = [&table[..], &table[..240]].map(|t| Head::of(Kind::Plain, 1, 0, t));
    for wrong in [short, Head { words: 60, ..head }, Head { hash: short.hash, ..head }] {
        assert_eq!(wrong.names(&table), Err(Stop::OtherTable));
    }
}

/// What each call stops with for a record, a table and marks: reading back, a sample's check,
/// a proof's check, a repair, a recoding. Number, sample and proof are wrong, and a data symbol is
/// absent.
fn stops(depth: u64, record: &[u8], table: &[u8], mark: u8) -> [Option<Stop>; 5] {
    let mut w = Written::new(Kind::Plain, 1, &house(1), &block_of(1));
    w.marks[9] = mark;
    w.marks[0] = 0;
    let (mut block, mut output) = (vec![7; block_len(1)], vec![7; output_len(1)]);
    let read = read_block(depth, record, &w.tree, &w.marks, &mut block);
    let sample = check_sample(depth, 16, record, &vec![0; sample_len(1)]);
    let proof = check_proof(depth, record, table, &[0; 12]);
    let mut new = Written::lent(1, &[]);
    let Written { tree, marks, record: written, .. } = &mut new;
    let recoded = recode(depth, record, table, &w.tree, &w.marks, tree, marks, written);
    assert!(new == Written::lent(1, &[]));
    let before = w.clone();
    let repaired = repair(depth, record, table, &mut w.tree, &mut w.marks, &mut output);
    if repaired.is_err() {
        assert!(w.tree == before.tree && w.marks == before.marks);
        assert!(output.iter().all(|&byte| byte == 7));
    }
    assert!(block.iter().all(|&byte| byte == 7));
    [read.err(), sample.err(), proof.err(), repaired.err(), recoded.err()]
}

#[test]
fn tests_in_their_order() {
    let all = |stop: Stop| [Some(stop); 5];
    let w = Written::new(Kind::Plain, 1, &house(1), &block_of(1));
    let mut wrong = w.record.clone();
    wrong[0] ^= 0x80;
    let no_table = &to_bytes(&house(2));
    assert_eq!(stops(10, &wrong[1..], no_table, 2), all(Stop::Depth));
    for len in [0, 11, 12, 44, ROOT, RECORD - 1] {
        assert_eq!(stops(1, &wrong[..len], no_table, 2), all(Stop::Length));
    }
    assert_eq!(stops(1, w.root(), no_table, 2), all(Stop::Length));
    assert_eq!(stops(1, &[&wrong[..], &[0]].concat(), no_table, 2), all(Stop::Length));
    assert_eq!(stops(1, &wrong, no_table, 2), all(Stop::WrongRecord));
    assert_eq!(stops(1, &wrong, &w.table, 1), all(Stop::WrongRecord));
    let tests = |of_read, of_table| [Some(of_read), Some(Stop::Number), Some(of_table)];
    let stopped = |table: &[u8], mark| {
        let [read, sample, proof, repair, recode] = stops(1, &w.record, table, mark);
        ([read, sample, proof], [repair, recode])
    };
    let both = |stop| [Some(stop); 2];
    let word = Stop::Word(60);
    assert_eq!(stopped(no_table, 2), (tests(Stop::Mark(9), word), both(word)));
    let uncovered = to_bytes(&crate::written::without(1, 0, 2));
    let stop = Stop::Uncovered { layer: 0, symbol: 2 };
    assert_eq!(stopped(&uncovered, 2), (tests(Stop::Mark(9), stop), both(stop)));
    let stop = Stop::OtherTable;
    assert_eq!(stopped(&sibling(), 2), (tests(Stop::Mark(9), stop), both(stop)));
    assert_eq!(stopped(&sibling(), 1), (tests(Stop::Absent(0), stop), both(stop)));
    let stop = Stop::Mark(9);
    assert_eq!(stopped(&w.table, 2), (tests(stop, Stop::Head), both(stop)));
    let last = [None, Some(Stop::NotWhole)];
    assert_eq!(stopped(&w.table, 1), (tests(Stop::Absent(0), Stop::Head), last));
}
