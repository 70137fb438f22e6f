//! `cmt_proof_check` beside the reference.

mod breaks;
mod damaged;
mod foreign;
mod heads;
mod shown;

#[cfg(test)]
mod mutants;

use crate::call::Argument::{Number, Read};
use crate::call::{Call, Length, Test, CALL, TEST};
use crate::comparisons::Comparisons;
use crate::difference::Compared;
use crate::input::Input;
use crate::random::Random;
use crate::records::heads::RECORD;
use crate::records::named::NAMED;
use crate::records::{kind, root, RECORD_LEN};
use crate::results::number;
use crate::stops::{DEEP, DEPTH, DEPTHS, LENGTHS};
use crate::tables::cover::COVER;
use crate::tables::{equations, TABLE_LEN, WORDS};
use crate::volumes::{equation_of, Volume};
use reference::kind::Kind;
use reference::proof::{self, hash_for, proof_len, Head, HEAD};
use reference::record;
use reference::stop::Stop;
use reference::table::{self, END, EQUATION, LAYER};
use reference::tree::{block_len, exactly, exclusive_or, symbol_at, SYMBOL};

pub static PROOF_CHECK: Call = Call {
    name: "proof_check",
    sizes: &DEPTHS,
    arguments: &[
        Number("depth"),
        Read("record", RECORD_LEN),
        Read("table", TABLE_LEN),
        Read("proof", Length::Within { least: HEAD, most: usize::MAX, step: 1 }),
    ],
    tests: &[DEPTH, LENGTHS, RECORD, WORDS, COVER, NAMED, HEADS, BODIES, HASHES, FAULT],
    apart: &[(3, 7), (3, 8)],
    good: |depth, random| {
        let layer = random.below(depth);
        of_fault(depth, layer, random).0
    },
    reference: |i| number(proof::check(i.number("depth"), &i["record"], &i["table"], &i["proof"])),
    own: &[
        shown::longest_proofs,
        heads::heads_before_bodies,
        heads::kinds,
        heads::bits,
        damaged::hashes,
        breaks::damaged_symbols,
        breaks::damaged_pairs,
        breaks::damaged_sets,
        breaks::damaged_roots,
        shown::other_kinds,
        shown::committed_otherwise,
        damaged::bytes,
        damaged::root_bytes,
        heads::values,
        damaged::lengths_of_proofs,
        damaged::swapped_symbols,
        shown::other_depths,
        shown::withheld_members,
        shown::written_by_repair,
        foreign::forged_members,
        foreign::other_volumes,
        foreign::random_proofs,
        foreign::damage_for_right_trees,
    ],
    least: &[
        ("end 0", 7000),
        ("1", 500),
        ("2", 2000),
        ("3", 500),
        ("6", 5000),
        ("7", 10_000),
        ("8", 5000),
        ("10", 1000),
        ("11", 1000),
        ("12", 2000),
        ("nothing damaged", 300),
        ("a symbol damaged", 3000),
        ("one of some copies", 1000),
        ("two symbols damaged", 1600),
        ("some symbols damaged", 700),
        ("a hash of the root", 1400),
        ("a record of the other kind", 200),
    ],
    least_deep: &[
        ("end 0", 500),
        ("1", 50),
        ("2", 150),
        ("3", 50),
        ("6", 500),
        ("7", 2000),
        ("8", 200),
        ("10", 50),
        ("11", 100),
        ("12", 100),
        ("nothing damaged", 200),
        ("a symbol damaged", 1600),
        ("two symbols damaged", 100),
        ("some symbols damaged", 30),
        ("a hash of the root", 64),
        ("a record of the other kind", 8),
        ("the longest proof", 12),
        ("the longest proof of a right tree", 12),
    ],
    ..CALL
};

/// What the head names. Without a table, its kinds alone can be asked.
const HEADS: Test = Test {
    number: 6,
    ask: |i| match (equations(i), i["proof"].get(..HEAD)) {
        (Some(table), Some(head)) => Head::read(&table, head).map(|_| ()),
        (None, Some(head)) if [0, 4, 8].map(|at| head[at] >> 6) != [1, 2, 3] => Err(Stop::Head),
        _ => Ok(()),
    },
    // A kind, or a value that is none: the low bytes might stay in form.
    spoil: |i, random| i["proof"][[0, 1, 2, 3, 4, 5, 8, 9, 10][random.below(9)]] ^= 0x40,
    ..TEST
};

/// The length that the head demands, or, where it is out of form, some head.
const BODIES: Test = Test {
    number: 2,
    ask: |i| match (named(i), i["proof"].len()) {
        (Some((head, members)), len) => exactly(len, proof_len(head.layer, members)),
        (None, len) => exactly(len % SYMBOL, HEAD),
    },
    spoil: |i, random| {
        let len = i["proof"].len();
        let others = [len - 1, len + 1, len + SYMBOL, len + (1 << 16)];
        i["proof"].resize(others[random.below(4)], 1);
    },
    ..TEST
};

/// Every hash leads to the root.
const HASHES: Test = Test {
    number: 7,
    ask: |i| match (equations(i), cut(i)) {
        (Some(table), Some(Cut { input, kind, .. })) => {
            match proof::judge(kind, &table, root(&input), &input["proof"]) {
                Err(Stop::NoFault) => Ok(()),
                judged => judged,
            }
        }
        _ => Ok(()),
    },
    spoil: |i, random| {
        let at = HEAD + random.below(i["proof"].len() - HEAD);
        i["proof"][at] ^= 4;
    },
    sorts: breaks::SORTS,
    ..TEST
};

/// The exclusive-or of the given members has another hash than the withheld.
const FAULT: Test = Test {
    number: 8,
    ask: |i| match cut(i) {
        Some(cut) if fits(&cut) => Err(Stop::NoFault),
        _ => Ok(()),
    },
    spoil: |i, random| {
        let (head, _) = named(i).expect("a head");
        let words = table::write(&equations(i).expect("a table"));
        let (depth, kind) = (i.number("depth") as usize, kind(i).expect("a kind"));
        let sound = Volume::of(kind, depth, &words, &random.bytes(block_len(depth)));
        *i = of(&sound, sound.proof(head));
    },
    ..TEST
};

/// The head and the number of members of its equation, where its values are in
/// form, whatever its kinds.
fn named(input: &Input) -> Option<(Head, usize)> {
    let table = equations(input)?;
    let mut bytes = input["proof"].get(..HEAD)?.to_vec();
    for (at, kind) in [(0, LAYER), (4, EQUATION), (8, END)] {
        bytes[at] = bytes[at] & 0x3f | (kind << 6) as u8;
    }
    let head = Head::read(&table, &bytes).ok()?;
    Some((head, table[head.layer][head.equation].len()))
}

/// A call with what is too long cut and the kinds of its head right, the kind of volume, and what
/// the head names.
struct Cut {
    input: Input,
    kind: Kind,
    head: Head,
    members: usize,
}

/// The same of a call, where its head is in form, its record says a kind and nothing is too short.
fn cut(input: &Input) -> Option<Cut> {
    let kind = kind(input)?;
    let (head, members) = named(input)?;
    let len = proof_len(head.layer, members);
    let mut cut = input.cut(|_| true);
    cut["proof"].truncate(len);
    cut["proof"].splice(..HEAD, head.bytes());
    let whole = cut["proof"].len() == len && cut["record"].len() == record::RECORD;
    whole.then_some(Cut { input: cut, kind, head, members })
}

/// Whether the exclusive-or of the given members has the withheld one's hash.
fn fits(Cut { input, kind, head, members }: &Cut) -> bool {
    let (given, height, others) = (&input["proof"][HEAD..], head.layer + 1, members - 1);
    let sum = exclusive_or((0..others).map(|other| symbol_at(given, other * height)));
    kind.hash(head.layer, head.withheld, &sum)
        == hash_for(root(input), given, head.layer, head.withheld, others * height)
}

/// A proof for the record and the table of a tree.
pub fn of(volume: &Volume, proof: Vec<u8>) -> Input {
    let (record, table) = (volume.record.clone(), volume.table.clone());
    Input::new(&PROOF_CHECK, [volume.depth as u64], [record, table, proof])
}

/// The proof of a fault that a miscoded tree shows in a layer, with its tree
/// and its head.
fn of_fault(depth: usize, layer: usize, random: &mut Random) -> (Input, Volume, Head) {
    let (volume, parity) = Volume::with_fault(depth, layer, random);
    let head = volume.withholding(layer, equation_of(layer, parity), random);
    (of(&volume, volume.proof(head)), volume, head)
}

/// Compares with the proof of a fault in each layer of each depth, with its tree
/// and its head.
fn each_fault(
    c: &mut Comparisons,
    compare: impl Fn(&mut Comparisons, &Input, &Volume, Head) -> Compared,
) -> Compared {
    for &depth in c.sizes {
        // Of a deep depth the base, and one layer above it.
        let above = depth - 1 - depth % 4;
        for layer in (0..depth).filter(|l| depth < DEEP || [above, depth - 1].contains(l)) {
            let (input, volume, head) = of_fault(depth, layer, &mut c.random);
            compare(c, &input, &volume, head)?;
        }
    }
    Ok(())
}

/// A call with the record and the table of a correctly coded tree: whatever the
/// proof, it must not pass.
fn make_for_right_tree(c: &mut Comparisons, what: &str, input: &Input) -> Compared {
    let result = c.make(what, input)?;
    assert_ne!(result, 0, "a proof that must not pass: {what}, {}", input.description());
    Ok(())
}
