use super::*;
use crate::kind::KINDS;
use crate::record::HEAD;
use crate::table::{house, MAX_DEPTH};
use crate::tree::ROOT;
use crate::written::{block_of, Written};

/// The depths that there are.
const DEPTHS: std::ops::RangeInclusive<usize> = 1..=MAX_DEPTH as usize;

/// A tree of the house table.
fn written(kind: Kind, depth: usize) -> Written {
    Written::new(kind, depth, &house(depth), &block_of(depth))
}

fn sample_of(w: &Written, depth: usize, number: usize) -> Vec<u8> {
    let mut sample = vec![0; sample_len(depth)];
    take(depth as u64, number as u64, &w.tree, &w.marks, &mut sample).unwrap();
    sample
}

#[test]
fn members_of_a_sample() {
    assert_eq!(members(1, 15), [(0, 15)]);
    assert_eq!(members(2, 31), [(1, 31), (0, 3), (0, 4 + 7)]);
    assert_eq!(members(3, 61), [(2, 61), (1, 5), (1, 8 + 13), (0, 1), (0, 4 + 1)]);
}

/// Each data symbol of a sample is the one that the hashes below stand in.
#[test]
fn members_stand_under_the_next_data_symbol() {
    for depth in DEPTHS {
        for number in 0..symbols(depth - 1) {
            let members = members(depth, number);
            for &(layer, symbol) in &members {
                if let Committed::Above { symbol: above, .. } = committed(layer, symbol) {
                    assert_eq!(members[data_index(depth, layer - 1)], (layer - 1, above));
                }
            }
        }
    }
}

#[test]
fn samples_of_a_written_tree_pass() {
    for depth in DEPTHS {
        let w = written(KINDS[depth % 2], depth);
        for number in 0..symbols(depth - 1) {
            let sample = sample_of(&w, depth, number);
            assert_eq!(check(depth as u64, number as u64, &w.record, &sample), Ok(()));
        }
        let (n, sample) = (symbols(depth - 1), vec![0; sample_len(depth)]);
        assert_eq!(check(depth as u64, n as u64, &w.record, &sample), Err(Stop::Number));
    }
}

fn breaks_in(layer: usize) -> Result<(), Stop> {
    Err(Stop::Hash { layer, position: None })
}

/// Any byte of any symbol. Where it is one of the hash for another symbol of the sample,
/// the path breaks there, a layer further down.
#[test]
fn a_damaged_sample_is_refused() {
    for depth in DEPTHS {
        let w = written(KINDS[1 - depth % 2], depth);
        let number = symbols(depth - 1) - 3;
        let sample = sample_of(&w, depth, number);
        let members = members(depth, number);
        for at in 0..sample.len() {
            let (layer, symbol) = members[at / SYMBOL];
            let hash = Committed::Above { symbol, at: at % SYMBOL / HASH * HASH };
            let holds = |&(below, other): &(usize, usize)| {
                below == layer + 1 && committed(below, other) == hash
            };
            let expected = if members.iter().any(holds) { layer + 1 } else { layer };
            let mut damaged = sample.clone();
            damaged[at] ^= 1 << (at % 8);
            let result = check(depth as u64, number as u64, &w.record, &damaged);
            assert_eq!(result, breaks_in(expected));
        }
    }
}

/// A sample of symbol 61 at depth 3 has symbol 61 of the base, 5 and 21 of layer 1, 1 and
/// 5 of layer 0. The hash of 61 is the last in 5, and those of 5 and 21 are numbers 1 and 5
/// in layer 0's symbol 1.
#[test]
fn first_broken_layer_going_up() {
    let w = written(Kind::Placed, 3);
    let sample = sample_of(&w, 3, 61);
    let check_with = |bytes: &[(usize, usize)]| {
        let mut damaged = sample.clone();
        bytes.iter().for_each(|&(index, byte)| damaged[SYMBOL * index + byte] ^= 1);
        check(3, 61, &w.record, &damaged)
    };
    let (base, data, parity, top_data, top_parity) = (0, 1, 2, 3, 4);
    assert_eq!(check_with(&[(base, 0)]), breaks_in(2));
    assert_eq!(check_with(&[(data, 255)]), breaks_in(2));
    assert_eq!(check_with(&[(data, 223)]), breaks_in(1));
    assert_eq!(check_with(&[(parity, 255)]), breaks_in(1));
    assert_eq!(check_with(&[(top_data, 63)]), breaks_in(1));
    assert_eq!(check_with(&[(top_data, 160)]), breaks_in(1));
    assert_eq!(check_with(&[(top_data, 64)]), breaks_in(0));
    assert_eq!(check_with(&[(top_parity, 32)]), breaks_in(0));
    assert_eq!(check_with(&[(top_data, 0), (top_parity, 0)]), breaks_in(0));
    assert_eq!(check_with(&[(top_data, 0), (parity, 0)]), breaks_in(1));
    assert_eq!(check_with(&[(data, 0), (parity, 0)]), breaks_in(1));
    assert_eq!(check_with(&[(top_parity, 0), (base, 7)]), breaks_in(2));
    assert_eq!(check_with(&[]), Ok(()));
}

/// Of the root only the hashes of the sample's symbols in layer 0 count.
#[test]
fn a_damaged_root() {
    let w = written(Kind::Placed, 2);
    let sample = sample_of(&w, 2, 31);
    for at in 0..ROOT {
        let mut damaged = w.record.clone();
        damaged[HEAD + at] ^= 0x10;
        let counts = at / HASH == 3 || at / HASH == 11;
        let expected = if counts { breaks_in(0) } else { Ok(()) };
        assert_eq!(check(2, 31, &damaged, &sample), expected);
    }
}

/// By a record of the other kind no hash fits, so that the base symbol is the first.
#[test]
fn samples_of_the_other_kind() {
    for (depth, kind) in DEPTHS.flat_map(|depth| KINDS.map(|kind| (depth, kind))) {
        let mut w = written(kind, depth);
        let sample = sample_of(&w, depth, 3);
        w.put(record::Head { kind: kind.other(), ..w.head() });
        assert_eq!(check(depth as u64, 3, &w.record, &sample), breaks_in(depth - 1));
    }
}

/// Of blank pages the sample of one passes for any other in a plain volume. In one with places it
/// passes only for those that have equal pages above.
#[test]
fn samples_of_blank_pages() {
    for (depth, kind) in (2..=4).flat_map(|depth| KINDS.map(|kind| (depth, kind))) {
        let w = Written::new(kind, depth, &house(depth), &[]);
        let sample = sample_of(&w, depth, 5);
        for number in 0..symbols(depth - 1) {
            let passes = sample == sample_of(&w, depth, number);
            assert!(passes || kind == Kind::Placed);
            let result = check(depth as u64, number as u64, &w.record, &sample);
            assert_eq!(result.is_ok(), passes, "{kind:?}, depth {depth}, {number}");
        }
    }
}

#[test]
fn tests_of_the_sampler_in_their_order() {
    let w = written(Kind::Placed, 2);
    let mut sample = vec![9; sample_len(2)];
    let mut take_of =
        |depth, number, marks: &[u8]| take(depth, number, &w.tree, marks, &mut sample);
    let mut marks = w.marks.clone();
    marks[place(0, 11)] = 0;
    assert_eq!(take_of(2, 31, &marks), Err(Stop::Absent(2)));
    assert_eq!(take_of(2, 30, &marks), Ok(()));
    marks[place(0, 3)] = 0;
    assert_eq!(take_of(2, 31, &marks), Err(Stop::Absent(1)));
    marks[place(1, 31)] = 0;
    assert_eq!(take_of(2, 31, &marks), Err(Stop::Absent(0)));
    assert_eq!(take_of(2, 32, &marks), Err(Stop::Number));
    assert_eq!(take_of(2, 1 << 32 | 1, &marks), Err(Stop::Number));
    marks[47] = 2;
    assert_eq!(take_of(2, 32, &marks), Err(Stop::Mark(47)));
    assert_eq!(take_of(2, 32, &marks[1..]), Err(Stop::Length));
    assert_eq!(take_of(10, 32, &marks[1..]), Err(Stop::Depth));
}

#[test]
fn tests_of_the_check_in_their_order() {
    let w = written(Kind::Placed, 2);
    let mut sample = sample_of(&w, 2, 31);
    sample[0] ^= 1;
    assert_eq!(check(2, 31, &w.record, &sample), breaks_in(1));
    assert_eq!(check(2, 32, &w.record, &sample), Err(Stop::Number));
    assert_eq!(check(2, 1 << 32 | 31, &w.record, &sample), Err(Stop::Number));
    assert_eq!(check(2, 32, &w.record[1..], &sample), Err(Stop::Length));
    assert_eq!(check(2, 32, &w.record, &sample[1..]), Err(Stop::Length));
    assert_eq!(check(0, 32, &w.record, &sample[1..]), Err(Stop::Depth));
}
