//! `cmt_recode` beside the reference.

mod flaws;
mod sources;

#[cfg(test)]
mod mutants;

pub use flaws::NOT_WHOLE;

use flaws::Look;

use crate::call::Argument::{Number, Read, Written};
use crate::call::{Call, CALL};
use crate::input::Input;
use crate::marks::{absent, MARKS};
use crate::random::Random;
use crate::records::heads::RECORD;
use crate::records::named::NAMED;
use crate::records::RECORD_LEN;
use crate::results::number;
use crate::stops::{DEPTH, DEPTHS, LENGTHS};
use crate::tables::cover::COVER;
use crate::tables::lists::some_table;
use crate::tables::{TABLE_LEN, WORDS};
use crate::trees::{tree_len, MARKS_LEN, TREE_LEN};
use crate::volumes::Volume;
use reference::recode::recode;
use reference::record::{Head, RECORD as RECORD_BYTES};
use reference::tree::{base_data, tree_symbols};

pub static RECODE: Call = Call {
    name: "recode",
    sizes: &DEPTHS,
    arguments: &[
        Number("depth"),
        Read("record", RECORD_LEN),
        Read("table", TABLE_LEN),
        Read("tree", TREE_LEN),
        Read("marks", MARKS_LEN),
        Written("new_tree", TREE_LEN),
        Written("new_marks", MARKS_LEN),
        Written("new_record", RECORD_LEN),
    ],
    tests: &[DEPTH, LENGTHS, RECORD, WORDS, COVER, NAMED, MARKS, NOT_WHOLE],
    good: |depth, random| {
        let words = some_table(depth, random);
        of(&Volume::new(depth, &words, random), random)
    },
    reference: |i| {
        let depth = i.number("depth");
        let [record, table, tree, marks, new_tree, new_marks, new_record] = i.all();
        number(recode(depth, record, table, tree, marks, new_tree, new_marks, new_record))
    },
    also: |_, _, after, result| {
        if result == 0 {
            promise(after);
        }
        Ok(())
    },
    own: &[
        sources::there_and_back,
        sources::one_symbol,
        sources::miscoded,
        sources::last_hashes,
        sources::fillings,
        sources::other_kinds,
        sources::exchanged,
        sources::destinations,
        sources::repaired_before,
        absent,
        sources::junk,
    ],
    least: &[
        ("end 0", 1200),
        ("1", 500),
        ("2", 1000),
        ("3", 1000),
        ("4", 1000),
        ("10", 800),
        ("11", 1000),
        ("12", 1000),
        ("14", 3000),
        ("there", 300),
        ("and back again", 300),
        ("a symbol absent", 300),
        ("a bad copy", 300),
        ("a miscoded source", 150),
        ("another hash of the last symbol", 15),
        ("a filling", 100),
        ("hashes of the other kind", 100),
        ("a tree of the other kind", 100),
        ("a page at the place of an equal one", 100),
        ("a destination", 50),
        ("a tree that is to be repaired", 80),
        ("a tree that was repaired", 80),
    ],
    least_deep: &[
        ("end 0", 20),
        ("1", 50),
        ("2", 100),
        ("3", 50),
        ("4", 50),
        ("10", 20),
        ("11", 100),
        ("12", 100),
        ("14", 150),
        ("there", 8),
        ("and back again", 8),
        ("a symbol absent", 30),
        ("a bad copy", 60),
        ("a miscoded source", 30),
        ("a filling", 4),
        ("hashes of the other kind", 8),
        ("a tree of the other kind", 8),
    ],
    ..CALL
};

/// A volume with every symbol held. The buffers that are written hold random bytes.
pub fn of(volume: &Volume, random: &mut Random) -> Input {
    let Volume { depth, table, tree, record, .. } = volume.clone();
    let (new_tree, new_marks) = (random.bytes(tree_len(depth)), random.bytes(tree_symbols(depth)));
    let marks = vec![1; tree_symbols(depth)];
    let new_record = random.bytes(RECORD_BYTES);
    let buffers = [record, table, tree, marks, new_tree, new_marks, new_record];
    Input::new(&RECODE, [depth as u64], buffers)
}

/// The call that recodes what one has written. Its own buffers hold random bytes.
fn again(done: &Input, random: &mut Random) -> Input {
    let mut again = done.clone();
    for (read, written) in [("tree", "new_tree"), ("marks", "new_marks"), ("record", "new_record")]
    {
        again[read] = std::mem::take(&mut again[written]);
        again[written] = random.bytes(again[read].len());
    }
    again
}

/// Asserts what CR 7 says of what a recoding has written: a volume of the other kind, which is
/// whole, with the same block, length and table.
fn promise(after: &Input) {
    let depth = after.number("depth") as usize;
    let head = Head::read(depth, &after["record"]).expect("a head");
    let new_head = Head::read(depth, &after["new_record"]).expect("a head");
    assert_eq!(new_head, Head { kind: head.kind.other(), ..head });
    assert!(base_data(depth, &after["tree"]) == base_data(depth, &after["new_tree"]));
    assert!(after["new_marks"].iter().all(|&mark| mark == 1));
    let mut new = after.clone();
    for (read, written) in [("tree", "new_tree"), ("record", "new_record")] {
        new[read] = after[written].clone();
    }
    let look = Look::at(&new).expect("a tree");
    assert_eq!(look.flaws().next(), None);
}
