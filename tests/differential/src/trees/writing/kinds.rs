//! The kind of volume that the writer is told: test 11, and blank pages of both kinds.

use super::{to_write, TREE_WRITE};
use crate::call::{Test, TEST};
use crate::comparisons::{large, Comparisons};
use crate::difference::Compared;
use crate::messages::Content;
use crate::stops::turns;
use crate::tables::lists::{random_table, some_table};
use reference::kind::{Kind, KINDS};
use reference::record::root;
use reference::stop::Stop;
use reference::table::house;
use reference::tree::HASH;
use std::collections::BTreeSet;

pub const KIND: Test = Test {
    number: 11,
    ask: |i| Kind::told(i.number("kind")).map(|_| ()),
    spoil: |i, random| {
        let others = no_kinds();
        i.set("kind", others[random.below(others.len())]);
    },
    own: &[every_kind, later_tests],
    #[cfg(test)]
    wrong: super::mutants::KINDS,
    ..TEST
};

/// Numbers that no kind has: near, and such as are one's only where bits are lost.
fn no_kinds() -> Vec<u64> {
    let near = [2, 3, 4, 255].into_iter();
    near.chain(large(0)).chain(large(1)).chain([u64::MAX - 1, u64::MAX]).collect()
}

fn every_kind(c: &mut Comparisons, depth: usize) -> Compared {
    for _ in 0..turns(depth, 4) {
        let mut input = c.good(depth);
        for kind in KINDS {
            input.set("kind", kind as u64);
            c.make_so("a kind", &input, Ok(()))?;
        }
        for kind in no_kinds() {
            input.set("kind", kind);
            c.make_so("a kind that there is not", &input, Err(Stop::WrongRecord))?;
        }
    }
    Ok(())
}

/// Each later test failed too: 11 comes before it.
fn later_tests(c: &mut Comparisons, depth: usize) -> Compared {
    let later = c.call.tests.iter().skip_while(|test| test.number != KIND.number).skip(1);
    for test in later {
        for _ in 0..turns(depth, 6) {
            let mut input = c.good(depth);
            (test.spoil)(&mut input, &mut c.random);
            (KIND.spoil)(&mut input, &mut c.random);
            c.make_so("no kind, and a later cause", &input, Err(Stop::WrongRecord))?;
        }
    }
    Ok(())
}

/// Volumes of blank pages: by the house table all pages of the base are equal, so that all of
/// layer 0's data are in a plain volume, and have one hash. With places no two hashes are equal.
pub fn blank_pages(c: &mut Comparisons) -> Compared {
    for &depth in c.sizes {
        for kind in KINDS {
            let words = house(depth);
            let input = to_write(kind, depth, &words, Content::Zeros, 0, &mut c.random);
            c.make_so("blank pages", &input, Ok(()))?;
            let mut after = input.clone();
            (TREE_WRITE.reference)(&mut after);
            let hashes: BTreeSet<&[u8]> = root(&after["record"]).chunks(HASH).take(4).collect();
            assert_eq!(hashes.len(), if kind == Kind::Plain { 1 } else { 4 });
            let words = [random_table(depth, &mut c.random), some_table(depth, &mut c.random)];
            for words in words.iter().take(turns(depth, 2)) {
                let input = to_write(kind, depth, words, Content::Zeros, 0, &mut c.random);
                c.make_done("blank pages by another table", &input)?;
            }
        }
    }
    Ok(())
}
