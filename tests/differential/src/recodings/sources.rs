//! Volumes to recode: whole ones, and such as are flawed in each way.

use super::{again, of, RECODE};
use crate::comparisons::Comparisons;
use crate::difference::Compared;
use crate::input::Input;
use crate::random::Random;
use crate::records::{kind, put_kind, put_root, put_value, DEPTH, LENGTH};
use crate::repairs;
use crate::stops::{sparse, turns, DEEP};
use crate::tables::lists::{any_table, some_table};
use crate::trees::tree_len;
use crate::volumes::{lengths, some_kind, some_length, some_symbol, Volume};
use reference::kind::KINDS;
use reference::record::root;
use reference::stop::Stop;
use reference::table::{data_symbols, house};
use reference::tree::{block_len, exclusive_or, place, symbol_at, symbols, ROOT, SYMBOL};

/// A call that must stop with 14.
fn make_flawed(c: &mut Comparisons, what: &str, input: &Input) -> Compared {
    c.make_so(what, input, Err(Stop::NotWhole))
}

/// What the reference makes of a call.
fn recoded(input: &Input) -> Input {
    let mut after = input.clone();
    assert_eq!((RECODE.reference)(&mut after), 0);
    after
}

/// Volumes of both kinds, of each length and of some, and what comes of each recoded again: the
/// first tree, marks and record, byte for byte.
pub fn there_and_back(c: &mut Comparisons) -> Compared {
    for &depth in c.sizes {
        let all = lengths(depth).into_iter().skip(if depth < DEEP { 0 } else { 6 });
        for (turn, length) in all.cycle().take(turns(depth, 30)).enumerate() {
            for kind in KINDS {
                let words = some_table(depth, &mut c.random);
                let block = match turn % 8 {
                    6 => vec![0; length],
                    7 => vec![turn as u8; length],
                    _ => c.random.bytes(length),
                };
                let volume = Volume::of(kind, depth, &words, &block);
                let there = of(&volume, &mut c.random);
                c.make_so("there", &there, Ok(()))?;
                let back = again(&recoded(&there), &mut c.random);
                c.make_so("and back again", &back, Ok(()))?;
                let home = recoded(&back);
                assert!(home["new_tree"] == volume.tree && home["new_record"] == volume.record);
                assert!(home["new_marks"] == there["marks"]);
            }
        }
    }
    Ok(())
}

/// A symbol of each layer, the first, the last, and some: absent, and one bit of it another.
pub fn one_symbol(c: &mut Comparisons) -> Compared {
    for &depth in c.sizes {
        for right in c.of_each_kind(depth) {
            for layer in 0..depth {
                let n = symbols(layer);
                let some = [0, n - 1].into_iter().filter(|_| depth < DEEP);
                let some: Vec<usize> =
                    some.chain((0..turns(depth, 10)).map(|_| c.random.below(n))).collect();
                for symbol in some {
                    let mut input = right.clone();
                    input["marks"][place(layer, symbol)] = 0;
                    make_flawed(c, "a symbol absent", &input)?;
                    let mut input = right.clone();
                    let at = SYMBOL * place(layer, symbol) + c.random.below(SYMBOL);
                    input["tree"][at] ^= 1 << c.random.below(8);
                    make_flawed(c, "a bad copy", &input)?;
                }
            }
        }
    }
    Ok(())
}

/// A symbol of each layer that does not fit the equations, with the hash that is committed for it:
/// parity, the last parity symbol, data. Of a deep depth one of them.
pub fn miscoded(c: &mut Comparisons) -> Compared {
    for &depth in c.sizes {
        for layer in 0..depth {
            let k = data_symbols(layer);
            for turn in 0..if depth < DEEP { 12 } else { 1 } {
                let symbol = match (turn + layer) % 3 {
                    0 => k + c.random.below(3 * k),
                    1 => 4 * k - 1,
                    _ => c.random.below(k),
                };
                let words = some_table(depth, &mut c.random);
                let volume = Volume::miscoded(depth, &words, &[(layer, symbol)], &mut c.random);
                let input = of(&volume, &mut c.random);
                make_flawed(c, "a miscoded source", &input)?;
            }
        }
    }
    Ok(())
}

/// The last symbol of each layer with another hash committed for it: nothing else is wrong, since
/// every equation holds.
pub fn last_hashes(c: &mut Comparisons) -> Compared {
    for &depth in c.sizes {
        for layer in 0..depth {
            let (kind, last) = (KINDS[layer % 2], symbols(layer) - 1);
            let words = some_table(depth, &mut c.random);
            let replaced = [(layer, last)];
            let volume = Volume::miscoded_of(kind, depth, &words, &replaced, &mut c.random);
            let others = volume.equations[layer][last - data_symbols(layer)].iter().rev().skip(1);
            let others = others.map(|&other| symbol_at(&volume.tree, place(layer, other)));
            let mut input = of(&volume, &mut c.random);
            let at = SYMBOL * place(layer, last);
            input["tree"][at..at + SYMBOL].copy_from_slice(&exclusive_or(others));
            make_flawed(c, "another hash of the last symbol", &input)?;
        }
    }
    Ok(())
}

/// Zeros, and one other byte: the first that fills up, a middle one, the last.
pub fn fillings(c: &mut Comparisons) -> Compared {
    for &depth in c.sizes {
        for (turn, length) in lengths(depth).into_iter().enumerate() {
            let len = block_len(depth) - length;
            let others = [None, Some(0), Some(len / 2), Some(len.saturating_sub(1))];
            let others = others.into_iter().enumerate().filter(|(_, other)| *other < Some(len));
            // Of a deep depth one of them for each second length.
            let some = |at: usize| depth < DEEP || turn % 2 == 0 && at == 1 + turn / 2 % 3;
            for (at, other) in others.filter(|&(at, _)| some(at)) {
                let mut filling = vec![0; len];
                other.into_iter().for_each(|other| filling[other] = 1 << c.random.below(8));
                let words = some_table(depth, &mut c.random);
                let kind = KINDS[(turn + at) % 2];
                let volume = Volume::filled_with(kind, depth, &words, &filling, &mut c.random);
                let input = of(&volume, &mut c.random);
                let expected = other.map_or(Ok(()), |_| Err(Stop::NotWhole));
                c.make_so("a filling", &input, expected)?;
            }
        }
        let words = some_table(depth, &mut c.random);
        let kind = some_kind(&mut c.random);
        let volume = Volume::filled_with(kind, depth, &words, &[], &mut c.random);
        for _ in 0..turns(depth, 8) {
            let mut input = of(&volume, &mut c.random);
            put_value(&mut input, LENGTH, some_length(depth, &mut c.random) as u32);
            c.make("a length that is said shorter", &input)?;
        }
    }
    Ok(())
}

/// The same tree and root by a record of the other kind. And the tree of the same block of the
/// other kind by this record, which at depth 1, where no hash stands in it, is the same.
pub fn other_kinds(c: &mut Comparisons) -> Compared {
    for &depth in c.sizes {
        for _ in 0..turns(depth, 12) {
            for right in c.of_each_kind(depth) {
                let mut input = right.clone();
                let other = kind(&right).expect("a kind").other();
                put_kind(&mut input, DEPTH, other as u32);
                make_flawed(c, "hashes of the other kind", &input)?;
                let after = recoded(&right);
                let mut input = right.clone();
                input["tree"] = after["new_tree"].clone();
                let expected = if depth == 1 { Ok(()) } else { Err(Stop::NotWhole) };
                c.make_so("a tree of the other kind", &input, expected)?;
                put_root(&mut input, root(&after["new_record"]));
                make_flawed(c, "tree and root of the other kind", &input)?;
            }
        }
    }
    Ok(())
}

/// A page at the place of another: where the two are equal, of either kind, nothing is wrong.
pub fn exchanged(c: &mut Comparisons) -> Compared {
    for &depth in c.sizes {
        for turn in 0..turns(depth, 24) {
            let (kind, base) = (KINDS[turn % 2], depth - 1);
            let equal = c.random.bytes(SYMBOL).repeat(data_symbols(base));
            for block in [vec![], equal, c.random.bytes(block_len(depth))] {
                let volume = Volume::of(kind, depth, &house(depth), &block);
                let mut input = of(&volume, &mut c.random);
                let [one, other] = [0, 1].map(|_| c.random.below(data_symbols(base)));
                let bytes = symbol_at(&volume.tree, place(base, one)).to_vec();
                let at = SYMBOL * place(base, other);
                input["tree"][at..at + SYMBOL].copy_from_slice(&bytes);
                match input["tree"] == volume.tree {
                    true => c.make_so("a page at the place of an equal one", &input, Ok(()))?,
                    false => make_flawed(c, "a page at the place of another", &input)?,
                }
            }
        }
    }
    Ok(())
}

/// Whatever the buffers held that are written, and where the call is refused they keep it: one
/// byte, the source, what would be written.
pub fn destinations(c: &mut Comparisons) -> Compared {
    for &depth in c.sizes {
        for right in c.of_each_kind(depth) {
            let after = recoded(&right);
            for turn in 0..if depth < DEEP { 5 } else { 1 } {
                let mut input = right.clone();
                for (written, read) in
                    [("new_tree", "tree"), ("new_marks", "marks"), ("new_record", "record")]
                {
                    match turn {
                        0 => input[written] = right[read].clone(),
                        1 => input[written] = after[written].clone(),
                        _ => input[written].fill([0, 255, 1][turn - 2]),
                    }
                }
                c.make_so("a destination", &input, Ok(()))?;
                let at = c.random.below(input["marks"].len());
                input["marks"][at] = 0;
                make_flawed(c, "a destination that is not written", &input)?;
            }
        }
    }
    Ok(())
}

/// Trees that a repair brings back: recoded after it, and not before.
pub fn repaired_before(c: &mut Comparisons) -> Compared {
    for &depth in c.sizes {
        for turn in 0..turns(depth, 16) {
            let words = some_table(depth, &mut c.random);
            let volume = Volume::new(depth, &words, &mut c.random);
            let mut input = of(&volume, &mut c.random);
            let layer = turn % depth;
            let lost = place(layer, some_symbol(layer, &mut c.random));
            match turn / depth % 2 {
                0 => input["marks"][lost] = 0,
                _ => input["tree"][SYMBOL * lost] ^= 1,
            }
            make_flawed(c, "a tree that is to be repaired", &input)?;
            repair(&mut input, &volume, &mut c.random);
            c.make_so("a tree that was repaired", &input, Ok(()))?;
        }
    }
    Ok(())
}

/// Repairs the tree of a call, of which one symbol is lost.
fn repair(input: &mut Input, volume: &Volume, random: &mut Random) {
    let mut lent = repairs::of(volume, random);
    (lent["tree"], lent["marks"]) = (input["tree"].clone(), input["marks"].clone());
    assert_eq!((repairs::REPAIR.reference)(&mut lent), 1 << 32);
    (input["tree"], input["marks"]) = (lent["tree"].clone(), lent["marks"].clone());
}

/// Random bytes, marks, roots and tables, in some or in all of the buffers.
pub fn junk(c: &mut Comparisons) -> Compared {
    for turn in 0..c.turns(600) {
        let depth = c.some_depth();
        let words = any_table(depth, &mut c.random);
        let volume = Volume::new(depth, &words, &mut c.random);
        let mut input = of(&volume, &mut c.random);
        let junk = 1 + turn % 7;
        if junk & 1 != 0 {
            input["tree"] = c.random.bytes(tree_len(depth));
        }
        if junk & 2 != 0 {
            let some = sparse(depth, input["marks"].len());
            some.into_iter().for_each(|at| input["marks"][at] = c.random.below(2) as u8);
        }
        if junk & 4 != 0 {
            put_root(&mut input, &c.random.bytes(ROOT));
        }
        c.make("junk", &input)?;
    }
    Ok(())
}
