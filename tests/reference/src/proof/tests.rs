use super::*;
use crate::kind::KINDS;
use crate::table::{house, to_bytes, MAX_DEPTH};
use crate::tree::ROOT;
use crate::written::{block_of, cases_block, without, Written};

/// The tree of 01's case 7.
fn case_7(kind: Kind) -> Written {
    Written::altered(kind, 1, &house(1), &cases_block(), |_, symbols| symbols[7] = [1; SYMBOL])
}

/// A tree of the house table with this symbol of a layer replaced.
fn replaced(kind: Kind, depth: usize, layer: usize, symbol: usize) -> Written {
    Written::altered(kind, depth, &house(depth), &block_of(depth), |altered, symbols| {
        if altered == layer {
            symbols[symbol][200] ^= 0x40;
        }
    })
}

fn proof_of(w: &Written, layer: usize, equation: usize, withheld: usize) -> Vec<u8> {
    let members = &w.equations()[layer][equation];
    write(Head { layer, equation, withheld }, members, &w.tree)
}

fn check_of(w: &Written, proof: &[u8]) -> Result<(), Stop> {
    check(w.depth, &w.record, &w.table, proof)
}

#[test]
fn proof_of_case_7() {
    for kind in KINDS {
        let mut w = case_7(kind);
        let proof = proof_of(&w, 0, 3, 7);
        assert_eq!(proof.len(), 780);
        assert_eq!(proof[..HEAD], [0x40, 0, 0, 0, 0x80, 0, 0, 3, 0xc0, 0, 0, 7]);
        assert_eq!(check_of(&w, &proof), Ok(()));
        // By a record of the other kind the first member's hash is another.
        w.put(record::Head { kind: kind.other(), ..w.head() });
        assert_eq!(check_of(&w, &proof), breaks_in(0, 0));
    }
}

/// Case 9, and that of CR 6.
#[test]
fn longest_proof() {
    assert_eq!(proof_len(4, 8), 9996);
    assert_eq!(proof_len(MAX_DEPTH as usize - 1, 8), 18_188);
}

#[test]
fn symbols_of_a_proof() {
    let head = Head { layer: 2, equation: 5, withheld: 20 };
    let expected =
        [(2, 5), (1, 5), (0, 1), (2, 6), (1, 6), (0, 2), (2, 21), (1, 5), (0, 1), (1, 4), (0, 0)];
    assert_eq!(head.symbols(&[5, 6, 20, 21]), expected);
    assert_eq!(Head { layer: 0, ..head }.symbols(&[5, 20]), [(0, 5)]);
}

/// Just the equations with the replaced symbol are faults, whichever member is
/// withheld.
#[test]
fn any_member_may_be_withheld() {
    for depth in 1..=4 {
        for layer in 0..depth {
            let symbol = data_symbols(layer) + 2;
            let w = replaced(KINDS[(depth + layer) % 2], depth, layer, symbol);
            for (equation, members) in w.equations()[layer].iter().enumerate() {
                for &withheld in members {
                    let proof = proof_of(&w, layer, equation, withheld);
                    assert_eq!(proof.len(), proof_len(layer, members.len()));
                    let fault = members.contains(&symbol);
                    let expected = if fault { Ok(()) } else { Err(Stop::NoFault) };
                    assert_eq!(check_of(&w, &proof), expected);
                }
            }
        }
    }
}

fn breaks_in(layer: usize, position: usize) -> Result<(), Stop> {
    Err(Stop::Hash { layer, position: Some(position) })
}

/// A proof with one bit changed of each of these bytes, each by the index of its symbol.
fn damaged(proof: &[u8], bytes: &[(usize, usize)]) -> Vec<u8> {
    let mut damaged = proof.to_vec();
    for &(index, byte) in bytes {
        damaged[HEAD + SYMBOL * index + byte] ^= 1 << (byte % 8);
    }
    damaged
}

/// Any byte of a member or of a path, the withheld member's too. Equation 0 is {0, 1, 16}:
/// the given members are 0 and 1, and each hash on their paths, and that of layer 1's symbol
/// 0 on the withheld one's, is the first in the symbol above.
#[test]
fn a_damaged_proof_is_refused() {
    let w = replaced(Kind::Placed, 3, 2, 16);
    let proof = proof_of(&w, 2, 0, 16);
    let first = [(2, 0), (2, 0), (1, 0), (2, 1), (2, 1), (1, 1), (1, 2), (1, 2)];
    let others = [(2, 0), (1, 0), (0, 0), (2, 1), (1, 1), (0, 1), (1, 2), (0, 2)];
    assert_eq!(proof.len(), HEAD + SYMBOL * others.len());
    for (index, (first, other)) in first.into_iter().zip(others).enumerate() {
        for byte in 0..SYMBOL {
            let (layer, position) = if byte < HASH { first } else { other };
            let result = check_of(&w, &damaged(&proof, &[(index, byte)]));
            assert_eq!(result, breaks_in(layer, position));
        }
    }
}

/// Equation 5 of layer 2 is {5, 6, 20, 21}. Two paths share symbols: 5 and 21 go up to 5 and
/// 1. The withheld one is last, whatever its number.
#[test]
fn first_broken_member_in_proof_order() {
    let w = replaced(Kind::Placed, 3, 2, 21);
    let members = &w.equations()[2][5];
    assert_eq!(members[..], [5, 6, 20, 21]);
    for &withheld in members {
        let proof = proof_of(&w, 2, 5, withheld);
        let check_with = |bytes: &[(usize, usize)]| check_of(&w, &damaged(&proof, bytes));
        // Symbols 0 to 8 are those of the given members, 9 and 10 the withheld one's path.
        // The last byte of none is in a hash of the proof.
        let last = 255;
        assert_eq!(check_with(&[(0, last)]), breaks_in(2, 0), "{withheld} withheld");
        assert_eq!(check_with(&[(9, last), (8, last), (7, last)]), breaks_in(1, 2));
        assert_eq!(check_with(&[(3, last), (2, last)]), breaks_in(0, 0));
        assert_eq!(check_with(&[(6, last), (5, last), (4, last)]), breaks_in(1, 1));
        assert_eq!(check_with(&[(10, last), (9, last)]), breaks_in(1, 3));
        assert_eq!(check_with(&[(10, last)]), breaks_in(0, 3));
        assert_eq!(check_with(&[]), Ok(()));
    }
}

/// In layer 0 the withheld member has no path.
#[test]
fn a_damaged_root() {
    let w = case_7(Kind::Placed);
    let proof = proof_of(&w, 0, 3, 7);
    for hash in 0..16 {
        let mut record = w.record.clone();
        record[record::HEAD + HASH * hash + 31 - hash] ^= 0x80;
        let given = [0, 3, 6].iter().position(|&member| member == hash);
        let expected = given.map_or(Ok(()), |position| breaks_in(0, position));
        assert_eq!(check(1, &record, &w.table, &proof), expected);
    }
}

#[test]
fn heads() {
    let w = case_7(Kind::Plain);
    let proof = proof_of(&w, 0, 3, 7);
    let with = |at: usize, by: u32| {
        let mut altered = proof.clone();
        altered[4 * at..4 * at + 4].copy_from_slice(&by.to_be_bytes());
        check_of(&w, &altered)
    };
    for at in 0..3 {
        for kind in [0, 1, 2, 3] {
            let value = [0, 3, 7][at];
            let expected = if kind == [1, 2, 3][at] { Ok(()) } else { Err(Stop::Head) };
            assert_eq!(with(at, word(kind, value)), expected);
        }
    }
    for value in [1, 2, 5, 1 << 8, 1 << 29, (1 << 30) - 1] {
        assert_eq!(with(0, word(LAYER, value)), Err(Stop::Head));
    }
    for value in [12, 1 << 8 | 3, (1 << 30) - 1] {
        assert_eq!(with(1, word(EQUATION, value)), Err(Stop::Head));
    }
    for value in [1, 2, 4, 8, 16, 1 << 16 | 7, (1 << 30) - 1] {
        assert_eq!(with(2, word(END, value)), Err(Stop::Head));
    }
    // The third given member is 7 then, and the proof has 6.
    assert_eq!(with(2, word(END, 6)), breaks_in(0, 2));
}

#[test]
fn tests_in_their_order() {
    let w = case_7(Kind::Placed);
    let proof = proof_of(&w, 0, 3, 7);
    let no_table = to_bytes(&house(2));
    assert_eq!(check(1 << 32 | 1, &w.record[1..], &[1], &[]), Err(Stop::Depth));
    assert_eq!(check(1, &w.record[1..], &w.table, &proof), Err(Stop::Length));
    assert_eq!(check(1, &w.record, &no_table[1..], &proof), Err(Stop::Length));
    assert_eq!(check(1, &w.record, &no_table, &proof[..11]), Err(Stop::Length));
    assert_eq!(check(1, &w.record, &no_table, &[0; 12]), Err(Stop::Word(60)));
    let uncovered = to_bytes(&without(1, 0, 3));
    let stop = Err(Stop::Uncovered { layer: 0, symbol: 3 });
    assert_eq!(check(1, &w.record, &uncovered, &[0; 11]), Err(Stop::Length));
    assert_eq!(check(1, &w.record, &uncovered[..40], &[0; 12]), Err(Stop::Word(10)));
    assert_eq!(check(1, &w.record, &uncovered, &[0; 12]), stop);
    assert_eq!(check(1, &w.record, &uncovered, &proof), stop);
    assert_eq!(check(1, &w.record, &w.table, &[0; 12]), Err(Stop::Head));
    assert_eq!(check(1, &w.record, &w.table, &[0; 780]), Err(Stop::Head));
    assert_eq!(check(1, &w.record, &w.table, &proof[..12]), Err(Stop::Length));
    assert_eq!(check(1, &w.record, &w.table, &[&proof[..], &[0]].concat()), Err(Stop::Length));
    let no_root = w.head().before(&[0; ROOT]);
    assert_eq!(check(1, &no_root, &w.table, &proof), breaks_in(0, 0));
}

/// A record says its depth: a proof that another depth's upper layers would show is not looked
/// at there.
#[test]
fn a_proof_is_for_the_depth_of_its_record() {
    let w = replaced(Kind::Placed, 2, 1, 8);
    let proof = proof_of(&w, 1, 0, 8);
    assert_eq!(check_of(&w, &proof), Ok(()));
    let deeper = to_bytes(&house(3));
    for table in [&w.table, &deeper] {
        assert_eq!(check(3, &w.record, table, &proof), Err(Stop::WrongRecord));
    }
    let record = record::Head::of(Kind::Placed, 3, 0, &deeper).before(w.root());
    assert_eq!(check(3, &record, &deeper, &proof), Ok(()));
}
