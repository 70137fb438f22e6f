//! Each call from the crate's own side: what it gives, and each stop that it can give, at every depth and of both kinds.

use cedunmi::{Depth, End, Kind, Place, Record, Stop};

/// A volume whose bytes differ from page to page, coded with the house table.
fn coded_as(kind: Kind, depth: u64) -> (Vec<u8>, Vec<u8>, cedunmi::Coded) {
    let bytes = Depth::new(depth).expect("a depth").block_bytes();
    let volume: Vec<u8> = (0..bytes).map(|i| (i + i / 256) as u8).collect();
    let table = cedunmi::house_table(depth).expect("the house table");
    let coded = cedunmi::code(depth, kind, &table, &volume).expect("a tree");
    (volume, table, coded)
}

/// The same with places.
fn coded(depth: u64) -> (Vec<u8>, Vec<u8>, cedunmi::Coded) {
    coded_as(Kind::Placed, depth)
}

/// Each kind at each depth.
fn all() -> impl Iterator<Item = (Kind, u64)> {
    Kind::ALL.into_iter().flat_map(|kind| (1..=9).map(move |depth| (kind, depth)))
}

#[test]
fn a_volume_goes_round() {
    for (kind, depth) in all() {
        let (volume, table, coded) = coded_as(kind, depth);
        assert_eq!(Record::read(&coded.record).map(|record| record.kind), Ok(kind));
        assert_eq!(cedunmi::check_table(depth, &table), Ok(()));
        assert_eq!(
            cedunmi::read_block(depth, &coded.record, &coded.tree, &coded.marks),
            Ok(volume)
        );
        let sample = cedunmi::take_sample(depth, 13, &coded.tree, &coded.marks).expect("a sample");
        assert_eq!(cedunmi::check_sample(depth, 13, &coded.record, &sample), Ok(()));
        // With places the base page alone shows that it is another's.
        let layer = if kind == Kind::Placed { depth - 1 } else { 0 };
        let broken = Err(Stop::WrongHash { layer, position: None });
        assert_eq!(cedunmi::check_sample(depth, 12, &coded.record, &sample), broken);
        for i in 0..2 * depth as usize - 1 {
            let place = Depth::new(depth).expect("a depth").sampled_place(13, i);
            assert_eq!(sample[256 * i..][..256], coded.tree[256 * place..][..256]);
        }
    }
}

/// The root has the hash of each page of layer 0 by the record's kind.
#[test]
fn hashes_are_those_of_the_kind() {
    for kind in Kind::ALL {
        let (_, _, coded) = coded_as(kind, 2);
        for (number, page) in coded.tree.chunks(256).take(16).enumerate() {
            let committed = &coded.record[44 + 32 * number..][..32];
            let place = Place { layer: 0, number };
            assert_eq!(kind.hash(place, page).expect("a hash"), committed);
            assert_ne!(kind.other().hash(place, page).expect("a hash"), committed);
        }
        let hash = kind.hash(Place { layer: 1, number: 21 }, &coded.tree[256 * 37..][..256]);
        assert_eq!(hash.expect("a hash"), coded.tree[256 + 32 * 5..][..32]);
    }
}

/// There and back: the other kind as it is coded, then the first again.
#[test]
fn volumes_are_recoded() {
    for (kind, depth) in all() {
        let (_, table, first) = coded_as(kind, depth);
        let again = |coded: &cedunmi::Coded| {
            cedunmi::recode(depth, &coded.record, &table, &coded.tree, &coded.marks)
        };
        let other = again(&first).expect("the other kind");
        assert_eq!(other, coded_as(kind.other(), depth).2);
        assert_eq!(again(&other), Ok(first.clone()));
    }
}

/// A page that is absent or bad, a record whose kind was changed, a filling that isn't zero.
#[test]
fn what_is_not_whole_is_not_recoded() {
    for (kind, depth) in all() {
        let (_, table, coded) = coded_as(kind, depth);
        let refused = |record: &[u8], tree: &[u8], marks: &[u8]| {
            let stop = cedunmi::recode(depth, record, &table, tree, marks);
            assert_eq!(stop, Err(Stop::NotWhole), "{kind:?}, depth {depth}");
        };
        let cedunmi::Coded { tree, marks, record } = &coded;
        refused(record, tree, &damaged(marks, 3));
        refused(record, &damaged(tree, 256 * 9 + 7), marks);
        refused(record, &damaged(tree, tree.len() - 1), marks);
        let mut other = *record;
        other[0] ^= 1 << 6;
        refused(&other, tree, marks);
        let mut shorter = *record;
        shorter[4..8].copy_from_slice(&(2u32 << 30 | 255).to_be_bytes());
        refused(&shorter, tree, marks);
    }
}

/// The fault proof that a repair of depth 2 ends with.
fn proof_of(record: &[u8], table: &[u8], tree: &[u8], marks: &[u8]) -> Vec<u8> {
    let (mut tree, mut marks) = (tree.to_vec(), marks.to_vec());
    match cedunmi::repair(2, record, table, &mut tree, &mut marks).expect("an end").end {
        End::Fault { proof } => proof,
        other => panic!("{other}"),
    }
}

#[test]
fn ends_come_with_what_they_show() {
    let (_, table, coded) = coded(2);
    let (mut tree, mut marks) = (coded.tree.clone(), vec![0; coded.marks.len()]);
    let end = cedunmi::repair(2, &coded.record, &table, &mut tree, &mut marks).expect("an end");
    assert_eq!((end.stored, end.end), (0, End::Unavailable { layer: 0 }));
}

/// Page 7 of the top layer is another, and its hash stands in the root.
#[test]
fn faults_are_shown() {
    for kind in Kind::ALL {
        let (_, table, coded) = coded_as(kind, 2);
        let (mut tree, mut record) = (coded.tree.clone(), coded.record);
        tree[256 * 7..][..256].fill(1);
        let hash = kind.hash(Place { layer: 0, number: 7 }, &[1; 256]).expect("a hash");
        record[44 + 32 * 7..][..32].copy_from_slice(&hash);
        let proof = proof_of(&record, &table, &tree, &coded.marks);
        assert_eq!((proof.len(), cedunmi::check_proof(2, &record, &table, &proof)), (780, Ok(())));
        assert_eq!(cedunmi::check_proof(2, &coded.record, &table, &proof), Err(Stop::NoFault));
    }
}

/// The bytes with one of them changed.
fn damaged(bytes: &[u8], at: usize) -> Vec<u8> {
    let mut damaged = bytes.to_vec();
    damaged[at] ^= 1;
    damaged
}

/// A damaged symbol of a sample breaks it at its own layer; where the hash of the one below is damaged, at that one's.
#[test]
fn samples_say_where_they_break() {
    for (kind, depth) in all() {
        let (_, _, coded) = coded_as(kind, depth);
        let sample = cedunmi::take_sample(depth, 13, &coded.tree, &coded.marks).expect("a sample");
        let layer_of = |index: usize| depth - 1 - (index as u64 + 1) / 2;
        let breaks = |at, layer| {
            let found = cedunmi::check_sample(depth, 13, &coded.record, &damaged(&sample, at));
            assert_eq!(found, Err(Stop::WrongHash { layer, position: None }), "byte {at}");
        };
        for index in 0..sample.len() / 256 {
            // The eighth hash is of no symbol in the sample.
            breaks(256 * index + 255, layer_of(index));
        }
        for index in (1..sample.len() / 256).step_by(2) {
            let below = if index == 1 { 13 } else { 13 % (8 << layer_of(index)) };
            breaks(256 * index + 32 * (below / (4 << layer_of(index))), layer_of(index) + 1);
        }
    }
}

/// A volume that was coded with 1 in the place of 2 in the table's last equation, which has 2, 7, 30 and 31: the house
/// table, a record that names it with the volume's root, and a fault proof of layer 1.
fn fault(kind: Kind) -> (Vec<u8>, [u8; 556], Vec<u8>) {
    let (volume, table, right) = coded_as(kind, 2);
    let mut other = table.clone();
    let member = other.len() - 4 * 5 + 3;
    assert_eq!(std::mem::replace(&mut other[member], 1), 2);
    let mut coded = cedunmi::code(2, kind, &other, &volume).expect("a tree");
    coded.record[..44].copy_from_slice(&right.record[..44]);
    let proof = proof_of(&coded.record, &table, &coded.tree, &coded.marks);
    (table, coded.record, proof)
}

/// Each given member, each page of a path, and the hash of a member in it; the withheld one's path comes last.
#[test]
fn proofs_say_where_they_break() {
    Kind::ALL.into_iter().for_each(a_proof_says_where_it_breaks);
}

fn a_proof_says_where_it_breaks(kind: Kind) {
    let (table, mut record, proof) = fault(kind);
    assert_eq!(cedunmi::check_proof(2, &record, &table, &proof), Ok(()));
    let breaks = |at, layer, position| {
        let found = cedunmi::check_proof(2, &record, &table, &damaged(&proof, 12 + at));
        assert_eq!(found, Err(Stop::WrongHash { layer, position: Some(position) }), "byte {at}");
    };
    for (position, slot) in (0..).zip([2 / 4, 7 / 4, 30 / 4]) {
        let member = 512 * position as usize;
        breaks(member + 9, 1, position);
        breaks(member + 256 + 32 * slot, 1, position);
        breaks(member + 256 + 32 * 2, 0, position);
    }
    breaks(512 * 3, 0, 3);
    breaks(512 * 3 + 255, 0, 3);
    record[44..].fill(0);
    let none = cedunmi::check_proof(2, &record, &table, &proof);
    assert_eq!(none, Err(Stop::WrongHash { layer: 0, position: Some(0) }));
}

#[test]
fn every_stop_comes() {
    let (volume, table, coded) = coded(1);
    assert_eq!(cedunmi::house_table(10), Err(Stop::WrongDepth));
    assert_eq!(cedunmi::house_table(0), Err(Stop::WrongDepth));
    for kind in Kind::ALL {
        let code = |depth, volume: &[u8]| cedunmi::code(depth, kind, &table, volume);
        assert_eq!(code(1 << 32 | 1, &volume), Err(Stop::WrongDepth));
        assert_eq!(code(1 << 32 | 9, &volume), Err(Stop::WrongDepth));
        assert_eq!(code(1, &[0; 1025]), Err(Stop::WrongLength));
    }
    let long = vec![0; cedunmi::TABLE_BYTES_MAX + 4];
    assert_eq!(cedunmi::check_table(1, &long), Err(Stop::WrongLength));
    assert_eq!(cedunmi::check_table(1, &long[4..]), Err(Stop::WrongTable { word: 0 }));
    assert_eq!(cedunmi::sha256(&vec![0; cedunmi::MESSAGE_MAX + 1]), Err(Stop::WrongLength));
    assert_eq!(cedunmi::check_table(1, &table[..240]), Err(Stop::WrongTable { word: 60 }));
    let mut marks = coded.marks.clone();
    marks[9] = 2;
    assert_eq!(
        cedunmi::read_block(1, &coded.record, &coded.tree, &marks),
        Err(Stop::WrongMark { place: 9 })
    );
    marks[9] = 1;
    marks[3] = 0;
    assert_eq!(
        cedunmi::read_block(1, &coded.record, &coded.tree, &marks),
        Err(Stop::Absent { number: 3 })
    );
    assert_eq!(cedunmi::take_sample(1, 16, &coded.tree, &marks), Err(Stop::WrongNumber));
    let proof = [0; 780];
    assert_eq!(cedunmi::check_proof(1, &coded.record, &table, &proof), Err(Stop::WrongHead));
}

/// Each call that takes a record: the old root is no record, and neither is a record of another depth, or of a kind that
/// there is not.
#[test]
fn records_are_held_to_the_call() {
    let (_, table, mut coded) = coded(1);
    let sample = cedunmi::take_sample(1, 13, &coded.tree, &coded.marks).expect("a sample");
    let (mut other, mut kind) = (coded.record, coded.record);
    (other[3], kind[0]) = (2, 2 << 6);
    for (record, stop) in [
        (&coded.record[44..], Stop::WrongLength),
        (&other[..], Stop::WrongRecord),
        (&kind[..], Stop::WrongRecord),
    ] {
        let (tree, marks) = (&mut coded.tree, &mut coded.marks);
        assert_eq!(cedunmi::read_block(1, record, tree, marks), Err(stop));
        assert_eq!(cedunmi::check_sample(1, 13, record, &sample), Err(stop));
        assert_eq!(cedunmi::check_proof(1, record, &table, &[0; 780]), Err(stop));
        assert_eq!(cedunmi::repair(1, record, &table, tree, marks), Err(stop));
        assert_eq!(cedunmi::recode(1, record, &table, tree, marks), Err(stop));
    }
}

/// Each call that takes record and table: of another number of words, and of as many.
#[test]
fn tables_are_held_to_the_record() {
    let (_, table, mut coded) = coded(1);
    let mut count = coded.record;
    count[11] ^= 1;
    let mut digest = coded.record;
    digest[43] ^= 1;
    for record in [count, digest] {
        let (tree, marks) = (&mut coded.tree, &mut coded.marks);
        let stop = Err(Stop::OtherTable);
        assert_eq!(cedunmi::check_proof(1, &record, &table, &[0; 780]), stop);
        assert_eq!(cedunmi::repair(1, &record, &table, tree, marks).map(|_| ()), stop);
        assert_eq!(cedunmi::recode(1, &record, &table, tree, marks).map(|_| ()), stop);
    }
}

/// The volume comes back as long as it was, at the least depth that holds it; a length that says less than what the
/// tree holds is seen by the repair alone.
#[test]
fn volumes_of_any_length_go_round() {
    for bytes in [0, 1, 255, 256, 257, 700, 1023, 1024, 1025, 2048, 4097, 262_143, 262_144] {
        let depth = Depth::least(bytes).expect("a depth");
        assert!(depth.layers() == 1 || bytes > depth.block_bytes() / 2);
        let number = depth.layers() as u64;
        let volume: Vec<u8> = (0..bytes).map(|i| (i % 255 + 1) as u8).collect();
        let table = cedunmi::house_table(number).expect("the house table");
        let mut coded = cedunmi::code(number, Kind::Placed, &table, &volume).expect("a tree");
        let said = Record::read(&coded.record).expect("a record");
        assert_eq!((said.depth, said.length), (depth, bytes));
        assert_eq!(
            (said.table_words, Ok(said.table_digest)),
            (table.len() / 4, cedunmi::sha256(&table))
        );
        let end = |coded: &mut cedunmi::Coded| {
            let (tree, marks) = (&mut coded.tree, &mut coded.marks);
            cedunmi::repair(number, &coded.record, &table, tree, marks).expect("an end").end
        };
        assert_eq!(end(&mut coded), End::Whole);
        assert_eq!(
            cedunmi::read_block(number, &coded.record, &coded.tree, &coded.marks),
            Ok(volume)
        );
        if bytes > 0 {
            coded.record[4..8].copy_from_slice(&(2 << 30 | bytes as u32 - 1).to_be_bytes());
            assert_eq!(end(&mut coded), End::Misfilled);
        }
    }
    assert_eq!(Depth::least(262_145), None);
}

/// The house table of depth 1 with another member in the place of data symbol 2 in all its equations but the first.
fn uncovered() -> Vec<u8> {
    let mut table = cedunmi::house_table(1).expect("the house table");
    for (word, member) in [(11, 1), (22, 1), (32, 3), (52, 3), (56, 1)] {
        assert_eq!(std::mem::replace(&mut table[4 * word + 3], member), 2);
    }
    table
}

/// Each call that takes a table turns one down that leaves a data symbol in one equation; nothing is changed.
#[test]
fn uncovered_tables_are_not_taken() {
    let (volume, _, coded) = coded(1);
    let (table, stop) = (uncovered(), Stop::Uncovered { layer: 0, symbol: 2 });
    let (mut tree, mut marks) = (coded.tree.clone(), vec![2; 16]);
    assert_eq!(cedunmi::check_table(1, &table), Err(stop));
    assert_eq!(cedunmi::code(1, Kind::Placed, &table, &volume), Err(stop));
    assert_eq!(cedunmi::check_proof(1, &coded.record, &table, &[0; 780]), Err(stop));
    assert_eq!(cedunmi::repair(1, &coded.record, &table, &mut tree, &mut marks), Err(stop));
    assert_eq!(cedunmi::recode(1, &coded.record, &table, &tree, &marks), Err(stop));
    assert_eq!((tree, marks), (coded.tree, vec![2; 16]));
}

/// The calls of a depth on a thread that has just the stack that the depth needs, and some for the crate's own
/// functions: a tree is coded, lost in part, repaired, read, recoded, and repaired to the fault that another table sees in
/// it.
fn on_little_stack(depth: u64) {
    let (volume, mut table, mut coded) = coded(depth);
    let sample = cedunmi::take_sample(depth, 7, &coded.tree, &coded.marks).expect("a sample");
    assert_eq!(cedunmi::check_sample(depth, 7, &coded.record, &sample), Ok(()));
    coded.marks.iter_mut().step_by(7).for_each(|mark| *mark = 0);
    let end = cedunmi::repair(depth, &coded.record, &table, &mut coded.tree, &mut coded.marks);
    assert_eq!(end.map(|repaired| repaired.end), Ok(End::Whole));
    assert_eq!(cedunmi::read_block(depth, &coded.record, &coded.tree, &coded.marks), Ok(volume));
    let other = cedunmi::recode(depth, &coded.record, &table, &coded.tree, &coded.marks);
    assert_eq!(other, Ok(coded_as(Kind::Plain, depth).2));
    let member = table.len() - 4 * 5 + 3;
    assert_eq!(std::mem::replace(&mut table[member], 1), 2);
    coded.record[12..44].copy_from_slice(&cedunmi::sha256(&table).expect("a digest"));
    let end = cedunmi::repair(depth, &coded.record, &table, &mut coded.tree, &mut coded.marks);
    match end.expect("an end").end {
        End::Fault { proof } => {
            assert_eq!(cedunmi::check_proof(depth, &coded.record, &table, &proof), Ok(()));
        }
        other => panic!("{other}"),
    }
}

#[test]
fn the_stack_that_a_depth_needs_is_enough() {
    for depth in 1..=9 {
        let needed = Depth::new(depth).expect("a depth").stack_bytes();
        let thread = std::thread::Builder::new().stack_size(needed + 65_536);
        let made = thread.spawn(move || on_little_stack(depth)).expect("a thread");
        made.join().expect("every call as it should be");
    }
}
