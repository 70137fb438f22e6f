//! `cmt_sample_take`: every base symbol, and marks.

#[cfg(test)]
mod mutants;

use super::{base_symbol, base_symbols, sample_len, NUMBER, SAMPLE_LEN};
use crate::call::Argument::{Number, Read, Written};
use crate::call::{Call, Test, CALL, TEST};
use crate::comparisons::Comparisons;
use crate::difference::Compared;
use crate::input::Input;
use crate::marks::{absent, MARKS};
use crate::random::Random;
use crate::results::number;
use crate::stops::{sparse, DEEP, DEPTH, DEPTHS, LENGTHS};
use crate::tables::lists::random_table;
use crate::trees::{tree_len, MARKS_LEN, TREE_LEN};
use crate::volumes::Volume;
use reference::sample::{self, members};
use reference::stop::Stop;
use reference::tree::{place, tree_symbols};

pub static SAMPLE_TAKE: Call = Call {
    name: "sample_take",
    sizes: &DEPTHS,
    arguments: &[
        Number("depth"),
        Number("number"),
        Read("tree", TREE_LEN),
        Read("marks", MARKS_LEN),
        Written("sample", SAMPLE_LEN),
    ],
    tests: &[DEPTH, LENGTHS, MARKS, NUMBER, ABSENT],
    good: |depth, random| to_sample(depth, random),
    reference: |i| {
        let (depth, base) = (i.number("depth"), i.number("number"));
        let [tree, marks, sample] = i.all();
        number(sample::take(depth, base, tree, marks, sample))
    },
    own: &[every_number, absent, absent_members],
    least: &[("end 0", 2000), ("4", 1600), ("5", 1500), ("9", 500)],
    ..CALL
};

/// The first symbol of the sample that is absent.
const ABSENT: Test = Test {
    number: 9,
    ask: |i| {
        let absent = |place: &usize| i["marks"].get(*place) == Some(&0);
        places(i).iter().position(absent).map_or(Ok(()), |index| Err(Stop::Absent(index)))
    },
    spoil: |i, random| {
        let places = places(i);
        i["marks"][places[random.below(places.len())]] = 0;
    },
    ..TEST
};

/// Buffers of the right lengths: random bytes, each symbol held.
pub fn to_sample(depth: usize, random: &mut Random) -> Input {
    let number = random.below(base_symbols(depth) as usize) as u64;
    let (tree, marks) = (random.bytes(tree_len(depth)), vec![1; tree_symbols(depth)]);
    let sample = random.bytes(sample_len(depth));
    Input::new(&SAMPLE_TAKE, [depth as u64, number], [tree, marks, sample])
}

/// The places of the sample's symbols.
fn places(input: &Input) -> Vec<usize> {
    let members = base_symbol(input).map_or_else(Vec::new, |(depth, base)| members(depth, base));
    members.into_iter().map(|(layer, symbol)| place(layer, symbol)).collect()
}

/// Of random bytes, which no table gives, and of a coded tree; with every
/// other symbol absent, too. Of a deep depth some numbers, and the last.
fn every_number(c: &mut Comparisons) -> Compared {
    for &depth in c.sizes {
        let mut random = to_sample(depth, &mut c.random);
        let mut coded = random.clone();
        let words = random_table(depth, &mut c.random);
        coded["tree"] = Volume::new(depth, &words, &mut c.random).tree;
        for number in sparse(depth, base_symbols(depth) as usize).into_iter().map(|n| n as u64) {
            random.set("number", number);
            c.make_done("random bytes", &random)?;
            coded.set("number", number);
            c.make_done("a coded tree", &coded)?;
            random["marks"].fill(0);
            places(&random).into_iter().for_each(|place| random["marks"][place] = 1);
            c.make_done("the others absent", &random)?;
            random["marks"].fill(1);
        }
    }
    Ok(())
}

/// Each set of the sample's own symbols absent, or some: each that is one symbol and those
/// after it.
fn absent_members(c: &mut Comparisons) -> Compared {
    for &depth in c.sizes {
        let mut input = to_sample(depth, &mut c.random);
        let sets: Vec<u64> = match depth < DEEP {
            true => (0..1 << (2 * depth - 1)).collect(),
            false => (0..2 * depth - 1).map(|i| c.random.next() << (i + 1) | 1 << i).collect(),
        };
        for set in sets {
            input.set("number", c.random.below(base_symbols(depth) as usize) as u64);
            input["marks"].fill(1);
            for (index, place) in places(&input).into_iter().enumerate() {
                input["marks"][place] = 1 - (set >> index & 1) as u8;
            }
            c.make("some of its own absent", &input)?;
        }
    }
    Ok(())
}
