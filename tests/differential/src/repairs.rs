//! `cmt_repair` beside the reference, and each fault proof that it writes
//! beside both checkers.

mod deep;
mod filling;
mod kinds;
mod losses;
mod miscoded;
mod nested;
mod promises;

#[cfg(test)]
mod mutants;

use crate::call::Argument::{Number, Read, Written};
use crate::call::{Call, Length, CALL};
use crate::comparisons::Comparisons;
use crate::difference::Compared;
use crate::input::Input;
use crate::marks::MARKS;
use crate::proofs::PROOF_CHECK;
use crate::random::Random;
use crate::records::heads::RECORD;
use crate::records::named::NAMED;
use crate::records::RECORD_LEN;
use crate::results::{ended, repaired};
use crate::stops::{DEPTH, DEPTHS, LENGTHS};
use crate::tables::cover::COVER;
use crate::tables::lists::some_table;
use crate::tables::{TABLE_LEN, WORDS};
use crate::trees::{MARKS_LEN, TREE_LEN};
use crate::volumes::{some_parity, Volume};
use reference::repair::{self, repair, End, Repaired};
use reference::tree::{place, tree_symbols, SYMBOL};

pub static REPAIR: Call = Call {
    name: "repair",
    sizes: &DEPTHS,
    arguments: &[
        Number("depth"),
        Read("record", RECORD_LEN),
        Read("table", TABLE_LEN),
        Written("tree", TREE_LEN),
        Written("marks", MARKS_LEN),
        Written("output", Length::Of(output_len)),
    ],
    tests: &[DEPTH, LENGTHS, RECORD, WORDS, COVER, NAMED, MARKS],
    good: some_repair,
    reference: |i| {
        let depth = i.number("depth");
        let [record, table, tree, marks, output] = i.all();
        repaired(repair(depth, record, table, tree, marks, output))
    },
    also: |c, before, after, result| {
        let result = ended(result);
        result.into_iter().for_each(|ended| promises::hold(before, after, ended));
        match result {
            Some(Repaired { end: End::Fault(len), .. }) => check_proof(c, after, len),
            _ => Ok(()),
        }
    },
    own: &[
        deep::chains,
        deep::losses,
        deep::longest_proofs,
        deep::far_faults,
        deep::far_back,
        kinds::other_kinds,
        kinds::symbols_of_the_other_kind,
        kinds::filed_elsewhere,
        kinds::exchanged_hashes,
        kinds::equal_pages,
        filling::one_byte,
        filling::more_bytes,
        filling::other_ends,
        losses::known_stopping_sets,
        losses::lost_parity,
        miscoded::one_fault,
        miscoded::some_faults,
        losses::one_symbol,
        losses::bad_copies,
        losses::sets_of_one_layer,
        losses::random_losses,
        losses::lost_layers,
        losses::found_stopping_sets,
        miscoded::faults_in_some_layers,
        miscoded::other_hashes,
        losses::junk,
        nested::more_held,
    ],
    // Whole, fault, unavailable, misfilled; a lone fault in each layer; what came of two repairs,
    // the second of which holds more; the numbers.
    least: &[
        ("end 0", 5000),
        ("end 1", 5000),
        ("end 2", 3000),
        ("end 13", 700),
        ("a record of the other kind", 200),
        ("a symbol of the other kind, stored 1", 80),
        ("a symbol of the other kind, stored 0", 20),
        ("a page at another place, stored 1", 50),
        ("a page at another place, stored 0", 50),
        ("exchanged, not noticed", 40),
        ("exchanged, noticed", 40),
        ("layer 0", 500),
        ("layer 1", 300),
        ("layer 2", 150),
        ("layer 3", 100),
        ("layer 4", 40),
        ("more held, then whole", 2000),
        ("more held, then misfilled", 2000),
        ("more held, then deeper", 400),
        ("more held, fewer missing", 700),
        ("more held, the same missing", 200),
        ("more held, still whole", 1000),
        ("more held, still misfilled", 1000),
        ("the same held", 500),
        ("1", 500),
        ("2", 1000),
        ("3", 1000),
        ("4", 1000),
        ("10", 2000),
        ("11", 1000),
        ("12", 1000),
    ],
    least_deep: &[
        ("end 0", 100),
        ("end 1", 150),
        ("end 2", 40),
        ("end 13", 12),
        ("a record of the other kind", 8),
        ("exchanged, not noticed", 4),
        ("exchanged, noticed", 4),
        ("layer 5", 4),
        ("layer 6", 4),
        ("layer 7", 4),
        ("layer 8", 4),
        ("more held, then whole", 80),
        ("more held, then misfilled", 80),
        ("more held, then deeper", 50),
        ("more held, fewer missing", 20),
        ("more held, the same missing", 16),
        ("more held, still whole", 12),
        ("more held, still misfilled", 12),
        ("the same held", 16),
        ("1", 50),
        ("2", 200),
        ("3", 50),
        ("4", 100),
        ("10", 50),
        ("11", 100),
        ("12", 100),
        ("a chain", 16),
        ("the longest proof of 18188 bytes", 3),
    ],
    ..CALL
};

/// The bytes of the output buffer of a depth, of a depth 0 too.
fn output_len(depth: usize) -> usize {
    repair::output_len(depth.max(1))
}

/// A tree with every symbol held. The output buffer holds random bytes.
pub fn of(volume: &Volume, random: &mut Random) -> Input {
    let Volume { depth, table, tree, record, .. } = volume.clone();
    let (marks, output) = (vec![1; tree_symbols(depth)], random.bytes(output_len(depth)));
    Input::new(&REPAIR, [depth as u64], [record, table, tree, marks, output])
}

/// A tree of which few symbols are absent, and perhaps one is miscoded.
fn some_repair(depth: usize, random: &mut Random) -> Input {
    let words = some_table(depth, random);
    let layer = random.below(depth);
    let fault = [(layer, some_parity(layer, random))];
    let faults = random.below(3) / 2;
    let volume = Volume::miscoded(depth, &words, &fault[..faults], random);
    let mut input = of(&volume, random);
    lose_some(&mut input, &volume.all_symbols(), 10, random);
    input
}

/// The fault proof that a repair wrote passes, by the library and by the
/// reference.
fn check_proof(c: &mut Comparisons, after: &Input, len: usize) -> Compared {
    let proof = after["output"][..len].to_vec();
    let buffers = [after["record"].clone(), after["table"].clone(), proof];
    let input = Input::new(&PROOF_CHECK, [after.number("depth")], buffers);
    let random = Random::new(c.random.next());
    Comparisons::of(&PROOF_CHECK, &c.library, random).make_done("a repair's proof", &input)
}

/// Takes a symbol away, and leaves what stood there, or nothing, or other
/// bytes.
fn lose(input: &mut Input, layer: usize, symbol: usize, random: &mut Random) {
    let place = place(layer, symbol);
    input["marks"][place] = 0;
    let bytes = &mut input["tree"][SYMBOL * place..SYMBOL * (place + 1)];
    match random.below(3) {
        0 => {}
        1 => bytes.fill(0),
        _ => bytes.copy_from_slice(&random.bytes(SYMBOL)),
    }
}

/// Takes away some symbols of those given, `parts` of 256.
fn lose_some(input: &mut Input, symbols: &[(usize, usize)], parts: usize, random: &mut Random) {
    for &(layer, symbol) in symbols {
        if random.below(256) < parts {
            lose(input, layer, symbol, random);
        }
    }
}

/// Makes a bad copy of a symbol: one bit of it, or all of it, is another.
fn spoil(input: &mut Input, layer: usize, symbol: usize, random: &mut Random) {
    let start = SYMBOL * place(layer, symbol);
    let bytes = &mut input["tree"][start..start + SYMBOL];
    match random.below(4) {
        0 => bytes.copy_from_slice(&random.bytes(SYMBOL)),
        _ => bytes[random.below(SYMBOL)] ^= 1 << random.below(8),
    }
}
