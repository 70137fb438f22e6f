//! Marks that a call reads: test 4, and calls with every mark.

#[cfg(test)]
pub mod mutants;

use crate::call::{Test, TEST};
use crate::comparisons::Comparisons;
use crate::difference::Compared;
use crate::random::Random;
use crate::stops::{sparse, turns, DEEP};
use reference::table::data_symbols;
use reference::tree::{marks_in_form, place, tree_symbols};
use std::collections::BTreeSet;

pub const MARKS: Test = Test {
    number: 4,
    ask: |i| marks_in_form(&i["marks"]),
    spoil: |i, random| spoil_mark(&mut i["marks"], random),
    own: &[bad_marks],
    #[cfg(test)]
    wrong: mutants::WRONG,
    ..TEST
};

/// How many bytes are no marks: all from 2 on.
const BAD_MARKS: usize = 254;

/// Gives a random symbol a mark that is none.
fn spoil_mark(marks: &mut [u8], random: &mut Random) {
    let at = random.below(marks.len());
    marks[at] = 2 + random.below(BAD_MARKS) as u8;
}

/// The places of a depth: all, or, of a deep one, the first and the last of the data and of the
/// parity of each layer, and some between.
fn places(depth: usize) -> Vec<usize> {
    if depth < DEEP {
        return (0..tree_symbols(depth)).collect();
    }
    let ends = |layer| {
        let k = data_symbols(layer);
        [0, k - 1, k, 4 * k - 1].map(|symbol| place(layer, symbol))
    };
    let ends = (depth - 4..depth).flat_map(ends);
    let all: BTreeSet<usize> = ends.chain(sparse(depth, tree_symbols(depth))).collect();
    all.into_iter().collect()
}

/// Each place alone with a mark that is none, and several beside random marks.
fn bad_marks(c: &mut Comparisons, size: usize) -> Compared {
    let mut goods = c.of_each_kind(size);
    let kinds = goods.len();
    for (turn, place) in places(size).into_iter().enumerate() {
        let input = &mut goods[turn % kinds];
        let mark = 2 + (place % BAD_MARKS) as u8;
        let before = std::mem::replace(&mut input["marks"][place], mark);
        c.make("one bad mark", input)?;
        input["marks"][place] = before;
    }
    for turn in 0..turns(size, 200) {
        let input = &mut goods[turn % kinds];
        input["marks"].fill_with(|| c.random.below(2) as u8);
        for _ in 0..1 + turn % 4 {
            spoil_mark(&mut input["marks"], &mut c.random);
        }
        c.make("some bad marks", input)?;
    }
    Ok(())
}

/// Each place alone absent, and many.
pub fn absent(c: &mut Comparisons) -> Compared {
    for &size in c.sizes {
        let mut input = c.good(size);
        for place in places(size) {
            if place % 16 == 0 && size < DEEP {
                input = c.good(size);
            }
            input["marks"][place] = 0;
            c.make("one absent", &input)?;
            input["marks"][place] = 1;
        }
        for turn in 0..turns(size, 150) {
            let mut input = c.good(size);
            let some = [2, 8, 32][turn % 3];
            input["marks"].fill_with(|| c.random.below(some).min(1) as u8);
            c.make("random marks", &input)?;
        }
    }
    Ok(())
}
