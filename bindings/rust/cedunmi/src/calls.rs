//! The calls. What a call writes is made with the length that its depth asks; of a depth that there is not
//! it is empty, and the call names the depth.

use crate::result::{done, ended, sample_done};
use crate::{Depth, Kind, Record, Repaired, Stop, DIGEST_BYTES, RECORD_BYTES};
use cedunmi_sys as library;

/// A coded volume.
#[derive(Clone, Debug, PartialEq, Eq)]
pub struct Coded {
    pub tree: Vec<u8>,
    pub marks: Vec<u8>,
    pub record: [u8; RECORD_BYTES],
}

/// Zeros, as many as a depth asks.
fn room(depth: u64, bytes: fn(Depth) -> usize) -> Vec<u8> {
    vec![0; Depth::new(depth).map_or(0, bytes)]
}

/// SHA-256 of a message of at most `MESSAGE_MAX` bytes.
pub fn sha256(message: &[u8]) -> Result<[u8; DIGEST_BYTES], Stop> {
    let mut digest = [0; DIGEST_BYTES];
    done(library::cmt_sha256(message, &mut digest))?;
    Ok(digest)
}

/// Whether the bytes are a parity table of this depth that calls take: a well-formed one, with each data symbol in
/// at least two equations of its layer.
pub fn check_table(depth: u64, table: &[u8]) -> Result<(), Stop> {
    done(library::cmt_table_check(depth, table))
}

/// The house table.
pub fn house_table(depth: u64) -> Result<Vec<u8>, Stop> {
    let mut table = room(depth, Depth::house_table_bytes);
    done(library::cmt_house_table(depth, &mut table))?;
    Ok(table)
}

/// A tree, marks and a record of this depth, as a call writes them.
fn coded(
    depth: u64,
    write: impl FnOnce(&mut [u8], &mut [u8], &mut [u8]) -> u64,
) -> Result<Coded, Stop> {
    let (mut tree, mut marks) = (room(depth, Depth::tree_bytes), room(depth, Depth::symbols));
    let mut record = [0; RECORD_BYTES];
    done(write(&mut tree, &mut marks, &mut record))?;
    Ok(Coded { tree, marks, record })
}

/// Codes a block of any length up to the depth's, as a volume of this kind.
pub fn code(depth: u64, kind: Kind, table: &[u8], block: &[u8]) -> Result<Coded, Stop> {
    coded(depth, |tree, marks, record| {
        library::cmt_tree_write(depth, kind.number(), table, block, tree, marks, record)
    })
}

/// The block of a tree, as long as the record says. Each data symbol of the base must be marked held. No hash is
/// looked at.
pub fn read_block(depth: u64, record: &[u8], tree: &[u8], marks: &[u8]) -> Result<Vec<u8>, Stop> {
    let mut block = room(depth, Depth::block_bytes);
    done(library::cmt_block_read(depth, record, tree, marks, &mut block))?;
    block.truncate(Record::read(record)?.length);
    Ok(block)
}

/// A sample of a base symbol.
pub fn take_sample(depth: u64, number: u64, tree: &[u8], marks: &[u8]) -> Result<Vec<u8>, Stop> {
    let mut sample = room(depth, Depth::sample_bytes);
    done(library::cmt_sample_take(depth, number, tree, marks, &mut sample))?;
    Ok(sample)
}

/// Checks a sample of a base symbol against the record. Where a hash does not lead to the root, the layer is told.
pub fn check_sample(depth: u64, number: u64, record: &[u8], sample: &[u8]) -> Result<(), Stop> {
    sample_done(library::cmt_sample_check(depth, number, record, sample))
}

/// Checks a fault proof against the record and the table: accepted, the volume with this record was not coded as
/// this table says. Where a hash does not lead to the root, layer and position are told.
pub fn check_proof(depth: u64, record: &[u8], table: &[u8], proof: &[u8]) -> Result<(), Stop> {
    done(library::cmt_proof_check(depth, record, table, proof))
}

/// Repairs a tree and its marks.
pub fn repair(
    depth: u64,
    record: &[u8],
    table: &[u8],
    tree: &mut [u8],
    marks: &mut [u8],
) -> Result<Repaired, Stop> {
    let mut output = room(depth, Depth::output_bytes);
    let result = library::cmt_repair(depth, record, table, tree, marks, &mut output);
    done(result)?;
    ended(result, Record::read(record)?.kind, output)
}

/// Recodes a volume of one kind as one of the other. A repair must call the tree whole, and store nothing; neither it
/// nor the marks are changed.
pub fn recode(
    depth: u64,
    record: &[u8],
    table: &[u8],
    tree: &[u8],
    marks: &[u8],
) -> Result<Coded, Stop> {
    coded(depth, |new_tree, new_marks, new_record| {
        library::cmt_recode(depth, record, table, tree, marks, new_tree, new_marks, new_record)
    })
}
