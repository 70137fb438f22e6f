//! `cmt_block_read`: records, trees and marks.

#[cfg(test)]
mod mutants;

use super::{block_len, tree_len, BLOCK_LEN, MARKS_LEN, TREE_LEN};
use crate::call::Argument::{Number, Read, Written};
use crate::call::{Call, Test, CALL, TEST};
use crate::comparisons::Comparisons;
use crate::difference::Compared;
use crate::input::Input;
use crate::marks::{absent, MARKS};
use crate::random::Random;
use crate::records::heads::RECORD;
use crate::records::{put_kind, put_value, DEPTH as DEPTH_WORD, LENGTH, RECORD_LEN};
use crate::results::number;
use crate::stops::{turns, DEPTH, DEPTHS, LENGTHS};
use crate::tables::lists::some_table;
use crate::volumes::{lengths, some_kind, some_length, Volume};
use reference::kind::KINDS;
use reference::record::Head;
use reference::stop::Stop;
use reference::table::data_symbols;
use reference::tree::{self, place, tree_symbols, ROOT, SYMBOL};
use std::ops::Range;

pub static BLOCK_READ: Call = Call {
    name: "block_read",
    sizes: &DEPTHS,
    arguments: &[
        Number("depth"),
        Read("record", RECORD_LEN),
        Read("tree", TREE_LEN),
        Read("marks", MARKS_LEN),
        Written("block", BLOCK_LEN),
    ],
    tests: &[DEPTH, LENGTHS, RECORD, MARKS, ABSENT],
    good: |depth, random| to_read(depth, random),
    reference: |i| {
        let depth = i.number("depth");
        let [record, tree, marks, block] = i.all();
        number(tree::read_block(depth, record, tree, marks, block))
    },
    own: &[block_lengths, coded_trees, other_kinds, absent, absent_elsewhere],
    least: &[("end 0", 2000), ("4", 1000), ("9", 500), ("11", 1000)],
    ..CALL
};

/// The first data symbol of the base that is absent.
const ABSENT: Test = Test {
    number: 9,
    ask: |i| {
        let needed = i.size().and_then(|depth| i["marks"].get(needed(depth)));
        match needed.and_then(|marks| marks.iter().position(|&mark| mark == 0)) {
            Some(absent) => Err(Stop::Absent(absent)),
            None => Ok(()),
        }
    },
    spoil: |i, random| {
        let needed = needed(i.number("depth") as usize);
        i["marks"][needed.start + random.below(needed.len())] = 0;
    },
    ..TEST
};

/// The places of the block.
fn needed(depth: usize) -> Range<usize> {
    place(depth - 1, 0)..place(depth - 1, data_symbols(depth - 1))
}

/// Buffers of the right lengths: random bytes, each symbol held, and a record of some kind and
/// length that names no table.
pub fn to_read(depth: usize, random: &mut Random) -> Input {
    let (tree, marks) = (random.bytes(tree_len(depth)), vec![1; tree_symbols(depth)]);
    let (kind, length) = (some_kind(random), some_length(depth, random));
    let head = Head::of(kind, depth, length, &random.bytes(4 * depth));
    let (record, block) = (head.before(&random.bytes(ROOT)), random.bytes(block_len(depth)));
    Input::new(&BLOCK_READ, [depth as u64], [record, tree, marks, block])
}

/// Each length at a limit, and, at a small depth, each beside the end of a symbol: the first
/// bytes come, the rest stays, whatever fills up the block.
fn block_lengths(c: &mut Comparisons) -> Compared {
    for &depth in c.sizes {
        let mut input = to_read(depth, &mut c.random);
        let ends = (SYMBOL..block_len(depth)).step_by(SYMBOL).filter(|_| depth < 4);
        let beside = ends.flat_map(|end| [end - 1, end, end + 1]);
        for length in lengths(depth).into_iter().chain(beside) {
            put_value(&mut input, LENGTH, length as u32);
            c.make_done("a length of the block", &input)?;
            input["marks"][needed(depth)][data_symbols(depth - 1) - 1] = 0;
            let last = Stop::Absent(data_symbols(depth - 1) - 1);
            c.make_so("the last symbol absent", &input, Err(last))?;
            input["marks"].fill(1);
        }
    }
    Ok(())
}

/// A tree that the reference wrote, with its record, to be read back.
fn coded_tree(depth: usize, random: &mut Random) -> Input {
    let mut input = to_read(depth, random);
    let words = some_table(depth, random);
    let volume = Volume::new(depth, &words, random);
    (input["record"], input["tree"]) = (volume.record, volume.tree);
    input
}

/// Trees that the reference wrote.
fn coded_trees(c: &mut Comparisons) -> Compared {
    for &depth in c.sizes {
        for _ in 0..turns(depth, 40) {
            let input = coded_tree(depth, &mut c.random);
            c.make_done("a coded tree", &input)?;
        }
    }
    Ok(())
}

/// A coded tree is read alike by a record of the other kind, since no hash is looked at.
fn other_kinds(c: &mut Comparisons) -> Compared {
    for &depth in c.sizes {
        for _ in 0..turns(depth, 12) {
            let mut input = coded_tree(depth, &mut c.random);
            for kind in KINDS {
                put_kind(&mut input, DEPTH_WORD, kind as u32);
                c.make_done("a record of either kind", &input)?;
            }
        }
    }
    Ok(())
}

/// Many absent where nothing is needed, and few where something is.
fn absent_elsewhere(c: &mut Comparisons) -> Compared {
    for &depth in c.sizes {
        let mut input = to_read(depth, &mut c.random);
        for turn in 0..turns(depth, 150) {
            input["marks"].fill_with(|| c.random.below(2) as u8);
            input["marks"][needed(depth)].fill(1);
            c.make_done("many absent that are not needed", &input)?;
            for _ in 0..1 + turn % 3 {
                (ABSENT.spoil)(&mut input, &mut c.random);
            }
            c.make("some needed ones absent", &input)?;
        }
    }
    Ok(())
}
