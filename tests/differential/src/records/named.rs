//! Test 12, that the table of a call is the one that its record names.

use super::{head, name_table, put_value, COUNT, LARGEST};
use crate::call::{Sorts, Test, TEST};
use crate::comparisons::Comparisons;
use crate::difference::Compared;
use crate::input::Input;
use crate::random::Random;
use crate::stops::{turns, DEEP};
use crate::tables::cover::COVER;
use crate::tables::lists::{another_of_as_many_words, random_table, some_equations, table_of};
use crate::tables::uses::uncover;
use crate::tables::WORDS;
use reference::record::{hash_of, HEAD};
use reference::sha256::sha256;
use reference::stop::Stop;
use reference::table::{house, to_bytes, to_words, write};
use reference::tree::HASH;

/// Of a table whose length is wrong, its whole words are asked.
pub const NAMED: Test = Test {
    number: 12,
    ask: |i| if is_named(i) { Ok(()) } else { Err(Stop::OtherTable) },
    spoil: |i, random| {
        let cause = random.below(3);
        if cause != 1 {
            put_value(i, COUNT, other_counts(i)[random.below(2)]);
        }
        if cause != 0 {
            i["record"][HEAD - HASH + random.below(HASH)] ^= 1 << random.below(8);
        }
    },
    own: &[counts, hashes, other_tables, earlier_tests, later_tests],
    sorts: Sorts {
        all: |depth| CAUSES.map(|cause| sort(depth, cause)).to_vec(),
        of: |i, _| {
            let (count, hash) = fits(i)?;
            Some(sort(i.size()?, CAUSES[usize::from(!count) + 2 * usize::from(!hash) - 1]))
        },
    },
    #[cfg(test)]
    wrong: super::mutants::NAMED,
    ..TEST
};

const CAUSES: [&str; 3] = ["its count", "its hash", "count and hash"];

fn sort(depth: usize, cause: &str) -> String {
    format!("another table at depth {depth}: {cause}")
}

/// Whether the count and the hash of a record are the table's, where there is a head.
fn fits(input: &Input) -> Option<(bool, bool)> {
    let head = head(input)?;
    let words = input["table"].len() / 4;
    Some((head.words == words, head.hash == hash_of(&input["table"][..4 * words])))
}

/// Whether the record of a call names its table, or has no head.
pub fn is_named(input: &Input) -> bool {
    fits(input).map_or(true, |fits| fits == (true, true))
}

/// Counts that are another than the table's: by one, without bits, none, the largest.
fn other_counts(input: &Input) -> Vec<u32> {
    let count = (input["table"].len() / 4) as u32;
    let bits = [8, 15, 16, 24, 29].map(|bit| count ^ 1 << bit);
    [count - 1, count + 1, 0, 4 * count, LARGEST].into_iter().chain(bits).collect()
}

/// A call that must stop with 12.
fn make_other(c: &mut Comparisons, what: &str, input: &Input) -> Compared {
    c.make_so(what, input, Err(Stop::OtherTable))
}

fn counts(c: &mut Comparisons, depth: usize) -> Compared {
    let right = c.good(depth);
    for count in other_counts(&right) {
        let mut input = right.clone();
        put_value(&mut input, COUNT, count);
        make_other(c, "another count", &input)?;
    }
    Ok(())
}

/// One bit of each byte of the hash; the hash of all words but the last or the first, of the
/// words with their lowest bytes first, and of none.
fn hashes(c: &mut Comparisons, depth: usize) -> Compared {
    let right = c.good(depth);
    let table = &right["table"];
    let turned: Vec<u8> = to_words(table).into_iter().flat_map(u32::to_le_bytes).collect();
    let bits = (0..HASH).map(|byte| {
        let mut hash = sha256(table);
        hash[byte] ^= 1 << c.random.below(8);
        hash
    });
    let bits: Vec<_> = bits.step_by(if depth < DEEP { 1 } else { 31 }).collect();
    let parts = [&table[..table.len() - 4], &table[4..], &turned, &[]].map(sha256);
    for hash in bits.into_iter().chain(parts) {
        let mut input = right.clone();
        input["record"][HEAD - HASH..HEAD].copy_from_slice(&hash);
        make_other(c, "another hash", &input)?;
    }
    Ok(())
}

/// Tables that are taken, of as many words and of others, which the record does not name; and
/// which it names.
fn other_tables(c: &mut Comparisons, depth: usize) -> Compared {
    for _ in 0..turns(depth, 16) {
        let right = c.good(depth);
        let words = to_words(&right["table"]);
        let sibling = another_of_as_many_words(depth, &words, &mut c.random);
        let random = random_table(depth, &mut c.random);
        let all = [sibling, random, house(depth), table_of(depth, 5)];
        for other in all.into_iter().filter(|other| *other != words) {
            let mut input = right.clone();
            input["table"] = to_bytes(&other);
            let what = if other.len() == words.len() { "as many words" } else { "other words" };
            make_other(c, what, &input)?;
            name_table(&mut input);
            let result = c.make("another table, which is named", &input)?;
            assert_ne!(result, NAMED.number, "{}", input.description());
        }
    }
    Ok(())
}

/// 3 and 10 come before 12, whether the record names the table or not.
fn earlier_tests(c: &mut Comparisons, depth: usize) -> Compared {
    for test in [WORDS, COVER] {
        for turn in 0..turns(depth, 8) {
            let mut input = c.good(depth);
            (test.spoil)(&mut input, &mut c.random);
            if turn % 2 == 0 {
                (NAMED.spoil)(&mut input, &mut c.random);
            }
            let result = c.make("an earlier cause, and perhaps another table", &input)?;
            assert_eq!(result % 256, test.number, "{}", input.description());
        }
    }
    uncovered_twins(c, depth)
}

/// A table that is not covered, in the place of the one that the record names.
fn uncovered_twins(c: &mut Comparisons, depth: usize) -> Compared {
    let mut input = c.good(depth);
    let mut layers = some_equations(depth, &mut c.random);
    let (layer, symbol) = uncover(&mut layers, &mut c.random);
    input["table"] = to_bytes(&write(&layers));
    let stop = Err(Stop::Uncovered { layer, symbol });
    c.make_so("an uncovered table that is not named", &input, stop)
}

/// Each later test failed too: 12 comes before it.
fn later_tests(c: &mut Comparisons, depth: usize) -> Compared {
    let later = c.call.tests.iter().skip_while(|test| test.number != NAMED.number).skip(1);
    for test in later {
        for _ in 0..turns(depth, 6) {
            let mut input = c.good(depth);
            (test.spoil)(&mut input, &mut c.random);
            spoil_table(&mut input, &mut c.random);
            make_other(c, "another table and a later cause", &input)?;
        }
    }
    Ok(())
}

/// Another record, or another table for it.
fn spoil_table(input: &mut Input, random: &mut Random) {
    match random.below(2) {
        0 => (NAMED.spoil)(input, random),
        _ => {
            let depth = input.number("depth") as usize;
            let words = to_words(&input["table"]);
            input["table"] = to_bytes(&another_of_as_many_words(depth, &words, random));
        }
    }
}
