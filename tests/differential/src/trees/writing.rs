//! `cmt_tree_write`: kinds, blocks and tables.

mod kinds;
#[cfg(test)]
mod mutants;

use kinds::{blank_pages, KIND};

use super::{block_len, tree_len, MARKS_LEN, TREE_LEN};
use crate::call::Argument::{Number, Read, Written};
use crate::call::{Call, Length, CALL};
use crate::comparisons::Comparisons;
use crate::difference::Compared;
use crate::input::Input;
use crate::messages::{Content, CONTENTS};
use crate::random::Random;
use crate::records::RECORD_LEN;
use crate::results::number;
use crate::stops::{turns, DEEP, DEPTH, DEPTHS, LENGTHS};
use crate::tables::cover::COVER;
use crate::tables::lists::{random_table, some_table, table_of};
use crate::tables::{TABLE_LEN, WORDS};
use crate::volumes::{lengths, some_kind, some_length};
use reference::kind::Kind;
use reference::record::RECORD;
use reference::stop::Stop;
use reference::table::{house, to_bytes};
use reference::tree::{self, tree_symbols, SYMBOL};

pub static TREE_WRITE: Call = Call {
    name: "tree_write",
    sizes: &DEPTHS,
    arguments: &[
        Number("depth"),
        Number("kind"),
        Read("table", TABLE_LEN),
        Read("block", Length::UpTo(block_len)),
        Written("tree", TREE_LEN),
        Written("marks", MARKS_LEN),
        Written("record", RECORD_LEN),
    ],
    tests: &[DEPTH, LENGTHS, KIND, WORDS, COVER],
    good: |depth, random| {
        let (words, length) = (some_table(depth, random), some_length(depth, random));
        to_write(some_kind(random), depth, &words, Content::Random, length, random)
    },
    reference: |i| {
        let (depth, kind) = (i.number("depth"), i.number("kind"));
        let [table, block, tree, marks, record] = i.all();
        number(tree::write(depth, kind, table, block, tree, marks, record))
    },
    own: &[block_lengths, lent_bytes, blank_pages, blocks],
    least: &[("end 0", 2000), ("3", 1000), ("10", 500), ("11", 600)],
    ..CALL
};

/// Buffers of the right lengths, and a block of this one. Those to be written hold random bytes.
pub fn to_write(
    kind: Kind,
    depth: usize,
    words: &[u32],
    content: Content,
    length: usize,
    random: &mut Random,
) -> Input {
    let (table, block) = (to_bytes(words), content.message(length, random));
    let (tree, marks) = (random.bytes(tree_len(depth)), random.bytes(tree_symbols(depth)));
    let numbers = [depth as u64, kind as u64];
    Input::new(&TREE_WRITE, numbers, [table, block, tree, marks, random.bytes(RECORD)])
}

/// Each length at a limit, one over it, and, at a small depth, each length beside the end of a
/// symbol.
fn block_lengths(c: &mut Comparisons) -> Compared {
    for &depth in c.sizes {
        let most = block_len(depth);
        let ends = (SYMBOL..most).step_by(SYMBOL).filter(|_| depth < 4);
        let beside = ends.flat_map(|end| [end - 1, end, end + 1]);
        for length in lengths(depth).into_iter().chain(beside).chain([most + 1, most + SYMBOL]) {
            let words = some_table(depth, &mut c.random);
            let kind = some_kind(&mut c.random);
            let input = to_write(kind, depth, &words, Content::Random, length, &mut c.random);
            let expected = if length > most { Err(Stop::Length) } else { Ok(()) };
            c.make_so("a length of the block", &input, expected)?;
        }
    }
    Ok(())
}

/// Each content, with the house table, with the smallest and the largest
/// equations, and with random ones.
fn blocks(c: &mut Comparisons) -> Compared {
    for &depth in c.sizes {
        let mut tables = vec![house(depth), table_of(depth, 2), table_of(depth, 8)];
        tables.extend((0..turns(depth, 45)).map(|_| random_table(depth, &mut c.random)));
        for (number, words) in tables.into_iter().enumerate() {
            // Of a deep depth one content for a table.
            let contents = CONTENTS.into_iter().enumerate();
            let one = |(at, _): &(usize, Content)| depth < DEEP || at % 4 == number % 4;
            for (_, content) in contents.filter(one) {
                let (kind, length) = (some_kind(&mut c.random), some_length(depth, &mut c.random));
                let input = to_write(kind, depth, &words, content, length, &mut c.random);
                c.make_done("a block", &input)?;
            }
        }
    }
    Ok(())
}

/// Whatever the buffers held, marks that are none too.
fn lent_bytes(c: &mut Comparisons) -> Compared {
    for &depth in c.sizes {
        for byte in [0, 255, 1, 2, 3, 128].into_iter().take(if depth < DEEP { 6 } else { 2 }) {
            let mut input = c.good(depth);
            ["tree", "marks", "record"].into_iter().for_each(|buffer| input[buffer].fill(byte));
            c.make_done("buffers of one byte", &input)?;
        }
    }
    Ok(())
}
