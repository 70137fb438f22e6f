//! `cmt_sample_check`: samples of coded trees, and damaged ones.

mod breaks;
#[cfg(test)]
mod mutants;

use super::{base_symbol, base_symbols, sample_len, NUMBER, SAMPLE_LEN};
use crate::call::Argument::{Number, Read};
use crate::call::{Call, Test, CALL, TEST};
use crate::comparisons::Comparisons;
use crate::difference::Compared;
use crate::input::Input;
use crate::random::Random;
use crate::records::heads::RECORD;
use crate::records::{self, put_kind, put_root, root_mut, DEPTH as DEPTH_WORD, RECORD_LEN};
use crate::results::number;
use crate::stops::{sparse, turns, DEEP, DEPTH, DEPTHS, LENGTHS};
use crate::tables::lists::some_table;
use crate::volumes::Volume;
use reference::kind::{Kind, KINDS};
use reference::sample::{self, data_index, members};
use reference::table::house;
use reference::tree::{committed, place, symbol_at, Committed, HASH, ROOT, SYMBOL};

pub static SAMPLE_CHECK: Call = Call {
    name: "sample_check",
    sizes: &DEPTHS,
    arguments: &[
        Number("depth"),
        Number("number"),
        Read("record", RECORD_LEN),
        Read("sample", SAMPLE_LEN),
    ],
    tests: &[DEPTH, LENGTHS, RECORD, NUMBER, HASHES],
    good: some_sample,
    reference: |i| {
        let (depth, base) = (i.number("depth"), i.number("number"));
        number(sample::check(depth, base, &i["record"], &i["sample"]))
    },
    own: &[
        every_number,
        every_byte,
        every_hash,
        breaks::damaged_sets,
        breaks::damaged_roots,
        other_numbers,
        other_symbols,
        other_kinds,
        blank_pages,
    ],
    least: &[
        ("end 0", 2000),
        ("5", 300),
        ("7", 11_000),
        ("11", 1000),
        ("one wrong hash", 800),
        ("some symbols damaged", 600),
        ("a hash of the root", 400),
        ("a record of the other kind", 100),
        ("a blank page for another, accepted", 300),
        ("a blank page for another, refused", 300),
    ],
    least_deep: &[
        ("end 0", 1000),
        ("5", 100),
        ("7", 2000),
        ("11", 100),
        ("one wrong hash", 100),
        ("some symbols damaged", 500),
        ("a hash of the root", 64),
        ("a record of the other kind", 8),
        ("a blank page for another, accepted", 20),
        ("a blank page for another, refused", 20),
    ],
    ..CALL
};

/// Every hash leads to the root.
const HASHES: Test = Test {
    number: 7,
    ask: |i| match (i.cut(|_| true), base_symbol(i), records::kind(i)) {
        (cut, Some((depth, base)), Some(kind)) if cut.lengths_fit(|_| true) => {
            sample::judge(kind, depth, base, records::root(&cut), &cut["sample"])
        }
        _ => Ok(()),
    },
    spoil: |i, random| {
        let index = random.below(i["sample"].len() / SYMBOL);
        break_hash(i, index, random.below(HASH));
    },
    sorts: breaks::SORTS,
    ..TEST
};

/// A sample of a tree.
pub fn sample_of(volume: &Volume, number: usize) -> Input {
    let members = members(volume.depth, number).into_iter();
    let symbols = members.map(|(layer, symbol)| symbol_at(&volume.tree, place(layer, symbol)));
    let sample = symbols.collect::<Vec<_>>().concat();
    let numbers = [volume.depth as u64, number as u64];
    Input::new(&SAMPLE_CHECK, numbers, [volume.record.clone(), sample])
}

/// A random sample of a random tree.
fn some_sample(depth: usize, random: &mut Random) -> Input {
    let words = some_table(depth, random);
    let volume = Volume::new(depth, &words, random);
    sample_of(&volume, random.below(base_symbols(depth) as usize))
}

/// The hash of the sample's symbol of an index.
fn hashed(input: &Input, index: usize) -> [u8; HASH] {
    let (layer, symbol) = member(input, index);
    let kind = records::kind(input).expect("a kind");
    kind.hash(layer, symbol, symbol_at(&input["sample"], index))
}

/// The layer and the number of the sample's symbol of an index.
fn member(input: &Input, index: usize) -> (usize, usize) {
    members(input.number("depth") as usize, input.number("number") as usize)[index]
}

/// The byte from which the hash of the sample's symbol of an index stands: in
/// the root, or in the sample's symbol of the index given.
fn hash_of(input: &Input, index: usize) -> (Option<usize>, usize) {
    let depth = input.number("depth") as usize;
    let (layer, symbol) = member(input, index);
    match committed(layer, symbol) {
        Committed::Root { at } => (None, at),
        Committed::Above { at, .. } => (Some(data_index(depth, layer - 1)), at),
    }
}

/// Changes a byte of the hash that stands for the symbol of an index, and
/// makes every hash above fit that change: no other hash is wrong.
fn break_hash(input: &mut Input, index: usize, byte: usize) {
    let (mut holder, at) = hash_of(input, index);
    match holder {
        None => root_mut(input)[at + byte] ^= 1,
        Some(above) => input["sample"][SYMBOL * above + at + byte] ^= 1,
    }
    while let Some(symbol) = holder {
        let hash = hashed(input, symbol);
        let (next, at) = hash_of(input, symbol);
        let holding = match next {
            None => &mut root_mut(input)[at..],
            Some(above) => &mut input["sample"][SYMBOL * above + at..],
        };
        holding[..HASH].copy_from_slice(&hash);
        holder = next;
    }
}

fn every_number(c: &mut Comparisons) -> Compared {
    for &depth in c.sizes {
        for _ in 0..turns(depth, 2) {
            let words = some_table(depth, &mut c.random);
            let volume = Volume::new(depth, &words, &mut c.random);
            let n = base_symbols(depth) as usize;
            let step = if depth < DEEP { 1 } else { 7 };
            for number in (0..n).filter(|number| number % step == 0 || number + 3 > n) {
                c.make_done("a sample", &sample_of(&volume, number))?;
            }
        }
    }
    Ok(())
}

/// Each byte of a sample and of a record, one bit of it changed.
fn every_byte(c: &mut Comparisons) -> Compared {
    for &depth in c.sizes {
        let right = c.good(depth);
        for buffer in 0..2 {
            for at in (0..right.buffers[buffer].len()).step_by(if depth < DEEP { 1 } else { 11 }) {
                let mut input = right.clone();
                input.buffers[buffer][at] ^= 1 << c.random.below(8);
                c.make("a damaged byte", &input)?;
            }
        }
    }
    Ok(())
}

/// Each byte of each hash, the only wrong hash of the sample.
fn every_hash(c: &mut Comparisons) -> Compared {
    for &depth in c.sizes {
        let mut right = c.good(depth);
        for index in 0..2 * depth - 1 {
            if depth < DEEP && index > 0 {
                right = c.good(depth);
            }
            for byte in (0..HASH).step_by(if depth < DEEP { 1 } else { 31 }) {
                let mut input = right.clone();
                break_hash(&mut input, index, byte);
                let layer = depth - 1 - (index + 1) / 2;
                c.make_so("one wrong hash", &input, breaks::breaks_in(Some(layer)))?;
            }
        }
    }
    Ok(())
}

/// The sample of one number, given for another.
fn other_numbers(c: &mut Comparisons) -> Compared {
    for &depth in c.sizes {
        for _ in 0..turns(depth, 8) {
            let mut input = c.good(depth);
            let all = 0..base_symbols(depth);
            for other in all.step_by(if depth < DEEP { 1 } else { 13 }) {
                input.set("number", other);
                c.make("another number", &input)?;
            }
        }
    }
    Ok(())
}

/// The same sample and the same 512 bytes by a record of the other kind: it breaks at the base.
fn other_kinds(c: &mut Comparisons) -> Compared {
    for &depth in c.sizes {
        for _ in 0..turns(depth, 12) {
            for mut input in c.of_each_kind(depth) {
                let kind = records::kind(&input).expect("a kind");
                put_kind(&mut input, DEPTH_WORD, kind.other() as u32);
                let base = breaks::breaks_in(Some(depth - 1));
                c.make_so("a record of the other kind", &input, base)?;
            }
        }
    }
    Ok(())
}

/// The sample of a blank page, given for others: it passes for those whose own is equal. By the
/// house table all are in a plain volume, and with places those with equal pages above.
fn blank_pages(c: &mut Comparisons) -> Compared {
    for (&depth, kind) in c.sizes.iter().flat_map(|depth| KINDS.map(|kind| (depth, kind))) {
        let volume = Volume::of(kind, depth, &house(depth), &[]);
        let n = base_symbols(depth) as usize;
        let number = c.random.below(n);
        let mut input = sample_of(&volume, number);
        for other in sparse(depth, n) {
            input.set("number", other as u64);
            let passes = sample_of(&volume, other)["sample"] == input["sample"];
            assert!(passes || kind == Kind::Placed);
            let result = c.make("a blank page for another", &input)?;
            assert_eq!(result == 0, passes, "{number} for {other}, {}", input.description());
            let how = if passes { "accepted" } else { "refused" };
            c.met.outcomes.count(&format!("a blank page for another, {how}"));
        }
    }
    Ok(())
}

/// Symbols in each other's place, another root, and no sample at all.
fn other_symbols(c: &mut Comparisons) -> Compared {
    for &depth in c.sizes {
        let right = c.good(depth);
        for one in 0..2 * depth - 1 {
            for other in 0..one {
                let mut input = right.clone();
                let (low, high) = input["sample"].split_at_mut(SYMBOL * one);
                low[SYMBOL * other..][..SYMBOL].swap_with_slice(&mut high[..SYMBOL]);
                c.make("two symbols swapped", &input)?;
            }
        }
        for _ in 0..turns(depth, 20) {
            let mut input = right.clone();
            put_root(&mut input, records::root(&c.good(depth)));
            c.make("another root", &input)?;
            put_root(&mut input, &c.random.bytes(ROOT));
            c.make("a random root", &input)?;
            input["sample"] = c.random.bytes(sample_len(depth));
            c.make("random bytes", &input)?;
        }
    }
    Ok(())
}
