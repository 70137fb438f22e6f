//! `cmt_table_check` and `cmt_house_table` beside the reference, and the tables
//! that other calls read.

pub mod cover;
mod damaged;
pub mod lists;
mod long;
pub mod uses;

#[cfg(test)]
pub mod mutants;

use cover::{every_symbol, every_two_equations, COVER};
use damaged::damaged_tables;

use crate::call::Argument::{Number, Read, Written};
use crate::call::{Call, Length, Test, CALL, TEST};
use crate::comparisons::{large, Comparisons};
use crate::difference::Compared;
use crate::input::Input;
use crate::random::Random;
use crate::records::put_table;
use crate::results::number;
use crate::stops::{sparse, turns, BEYOND, DEEP, DEPTH, DEPTHS, LENGTHS};
use lists::{alterations, random_damage, random_table, some_table};
use lists::{perhaps_uncovered, WORD_KINDS};
use reference::stop::Stop;
use reference::table::{self, check_words, house, layers_of, to_bytes, to_words};
use reference::table::{Layers, LAYER, MAX_BYTES, MAX_DEPTH};
use std::cell::RefCell;
use std::rc::Rc;

pub static TABLE_CHECK: Call = Call {
    name: "table_check",
    sizes: &DEPTHS,
    arguments: &[Number("depth"), Read("table", TABLE_LEN)],
    tests: &[DEPTH, LENGTHS, WORDS, COVER],
    good: |depth, random| listed(depth as u64, &some_table(depth, random)),
    reference: |i| number(table::check_bytes(i.number("depth"), &i["table"])),
    own: &[
        depths,
        every_symbol,
        every_two_equations,
        every_word,
        more_words,
        random_tables,
        random_words,
        byte_lengths,
        long::longest_tables,
        long::more_words_than_a_table,
        long::neighbouring_depths,
        long::chains,
    ],
    least: &[("end 0", 15_000), ("1", 2000), ("2", 1000), ("3", 100_000), ("10", 1000)],
    least_deep: &[("end 0", 200), ("1", 100), ("2", 100), ("3", 1000), ("10", 100)],
    ..CALL
};

pub static HOUSE_TABLE: Call = Call {
    name: "house_table",
    sizes: &DEPTHS,
    arguments: &[Number("depth"), Written("table", Length::Of(house_len))],
    tests: &[DEPTH, LENGTHS],
    good: |depth, random| to_fill(depth as u64, house_len(depth), random),
    reference: |i| match (layers_of(i.number("depth")), &mut i["table"]) {
        (Err(stop), _) => number(Err(stop)),
        (Ok(depth), table) if table.len() != house_len(depth) => number(Err(Stop::Length)),
        (Ok(depth), table) => {
            *table = to_bytes(&house(depth));
            0
        }
    },
    own: &[house_tables],
    ..CALL
};

/// The length of a table that comes as bytes.
pub const TABLE_LEN: Length = Length::Within { least: 0, most: MAX_BYTES, step: 4 };

/// The rules of a table, where its length is wrong of its whole words.
pub const WORDS: Test = Test {
    number: 3,
    ask: |i| i.size().map_or(Ok(()), |depth| check_words(depth as u64, &to_words(&i["table"]))),
    // A word of another kind, or one after the end word.
    spoil: |i, random| {
        let mut table = i["table"].clone();
        match (table.len() / 4, random.below(4)) {
            (_, 0) => table.extend([0; 4]),
            (words, _) => table[4 * random.below(words)] ^= 0xc0,
        }
        put_table(i, table);
    },
    own: &[damaged_tables],
    #[cfg(test)]
    wrong: mutants::WRONG,
    ..TEST
};

/// The equations of a call's table, where it keeps 01's rules, covered or not.
pub fn equations(input: &Input) -> Option<Rc<Layers>> {
    let (size, table) = (input.size()?, &input["table"]);
    LISTED.with(|listed| {
        let mut listed = listed.borrow_mut();
        if listed.size != size || listed.table != *table {
            let layers = table::listed(size as u64, &to_words(table)).ok().map(Rc::new);
            *listed = Listed { size, table: table.clone(), layers };
        }
        listed.layers.clone()
    })
}

/// The table whose equations were asked for last: all tests of a call ask for them.
#[derive(Default)]
struct Listed {
    size: usize,
    table: Vec<u8>,
    layers: Option<Rc<Layers>>,
}

thread_local!(static LISTED: RefCell<Listed> = RefCell::default());

pub fn house_len(depth: usize) -> usize {
    4 * house(depth).len()
}

fn listed(depth: u64, words: &[u32]) -> Input {
    Input::new(&TABLE_CHECK, [depth], [to_bytes(words)])
}

/// A buffer for a house table.
pub fn to_fill(depth: u64, len: usize, random: &mut Random) -> Input {
    Input::new(&HOUSE_TABLE, [depth], [random.bytes(len)])
}

/// Depths that there are, depths beside them, and some that are one of them
/// only where bits are lost.
fn asked() -> impl Iterator<Item = u64> {
    (0..=BEYOND as u64).chain(large(1)).chain(large(MAX_DEPTH)).chain([u64::MAX])
}

/// House tables and random ones, each read for every depth.
fn depths(c: &mut Comparisons) -> Compared {
    for made_for in c.made_sizes() {
        for words in [house(made_for), random_table(made_for, &mut c.random)] {
            for depth in asked() {
                c.make("a table of some depth", &listed(depth, &words))?;
            }
        }
    }
    Ok(())
}

/// A house table and a random one of each depth: each word altered in each
/// way, and the list cut at each length. Of a deep depth some words, and those beside the
/// opener of the base.
fn every_word(c: &mut Comparisons) -> Compared {
    for &depth in c.sizes {
        for words in [house(depth), random_table(depth, &mut c.random)] {
            let base = words.iter().position(|&word| word == table::word(LAYER, depth - 1));
            let base = base.expect("the opener of the base");
            let beside = (base - 1..base + 4).filter(|_| depth >= DEEP);
            for at in sparse(depth, words.len()).into_iter().chain(beside) {
                for (damage, altered) in alterations(&words, at) {
                    c.make(damage, &listed(depth as u64, &altered))?;
                }
                c.make("cut", &listed(depth as u64, &words[..at]))?;
            }
        }
    }
    Ok(())
}

/// Words after the end word.
fn more_words(c: &mut Comparisons) -> Compared {
    for &depth in c.sizes {
        let whole = house(depth);
        for kind in WORD_KINDS {
            for value in [0, 1, whole.len() - 1, whole.len(), (1 << 30) - 1] {
                let mut words = whole.clone();
                for _ in 0..3 {
                    words.push(table::word(kind, value));
                    c.make("words after the end word", &listed(depth as u64, &words))?;
                }
            }
        }
    }
    Ok(())
}

/// Random tables, covered or not, whole and with some words damaged.
fn random_tables(c: &mut Comparisons) -> Compared {
    for &depth in c.sizes {
        for _ in 0..turns(depth, 300) {
            let words = random_table(depth, &mut c.random);
            let words = perhaps_uncovered(depth, words, &mut c.random);
            c.make("a random table", &listed(depth as u64, &words))?;
            for damages in 1..=3 {
                let damaged = random_damage(&words, damages, &mut c.random);
                c.make("random damage", &listed(depth as u64, &damaged))?;
            }
        }
    }
    Ok(())
}

/// Lists that are no tables at all.
fn random_words(c: &mut Comparisons) -> Compared {
    let lens: &[usize] = if c.is_deep() { &[MAX_BYTES / 4] } else { &[0, 1, 2, 3, 61, 62, 4096] };
    for depth in asked() {
        for &len in lens {
            let random = c.random.bytes(4 * len);
            for bytes in [random, vec![0; 4 * len], vec![0xff; 4 * len]] {
                c.make("random words", &Input::new(&TABLE_CHECK, [depth], [bytes]))?;
            }
        }
    }
    Ok(())
}

/// Lengths that are no multiple of 4, or over the limit, or just not.
fn byte_lengths(c: &mut Comparisons) -> Compared {
    for depth in asked() {
        for made_for in c.made_sizes().skip_while(|&made_for| made_for == 0) {
            let len = house_len(made_for);
            // The limit with a table of few words, and with one of many.
            let limit =
                if matches!(made_for, 1 | 9) { MAX_BYTES - 9..MAX_BYTES + 10 } else { 0..0 };
            for other in (len - 9..len + 10).chain(16_380..16_389).chain(limit) {
                let mut input = listed(depth, &house(made_for));
                input["table"].resize(other, 0);
                c.make("a length", &input)?;
            }
        }
        for len in [1, 2, 3, 5, 17_000, 20_000, 65_536 + 244, MAX_BYTES + 16_384] {
            let bytes = c.random.bytes(len);
            c.make("random bytes", &Input::new(&TABLE_CHECK, [depth], [bytes]))?;
        }
    }
    Ok(())
}

/// Every depth, into buffers of the right length and of others.
fn house_tables(c: &mut Comparisons) -> Compared {
    for depth in asked() {
        let near = |made_for| [-4, -1, 0, 1, 4].map(|more| house_len(made_for) as isize + more);
        for len in c.made_sizes().flat_map(near).chain([0, 1, 4, 60, MAX_BYTES as isize]) {
            let input = to_fill(depth, len as usize, &mut c.random);
            c.make("a length", &input)?;
        }
    }
    Ok(())
}
