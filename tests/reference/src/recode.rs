//! Recoding, written from CR 7 of 02 by its words: what a repair of copies says of the tree, then
//! what reading back and the writer do.

use crate::record::{Head, RECORD};
use crate::repair::{output_len, repair, End, Repaired};
use crate::stop::Stop;
use crate::table::{byte_length, layers_of};
use crate::tree::{block_len, exactly, read_block, tree_symbols, write, SYMBOL};

/// Turns a complete tree of either kind into the other.
#[allow(clippy::too_many_arguments)] // those of the call
pub fn recode(
    depth: u64,
    record: &[u8],
    table: &[u8],
    tree: &[u8],
    marks: &[u8],
    new_tree: &mut [u8],
    new_marks: &mut [u8],
    new_record: &mut [u8],
) -> Result<(), Stop> {
    let layers = layers_of(depth)?;
    byte_length(table)?;
    for (len, right) in [
        (record.len(), RECORD),
        (new_record.len(), RECORD),
        (tree.len(), SYMBOL * tree_symbols(layers)),
        (new_tree.len(), SYMBOL * tree_symbols(layers)),
        (marks.len(), tree_symbols(layers)),
        (new_marks.len(), tree_symbols(layers)),
    ] {
        exactly(len, right)?;
    }
    let (mut tree_copy, mut marks_copy) = (tree.to_vec(), marks.to_vec());
    let mut output = vec![0; output_len(layers)];
    // What stops this stops the recoder.
    let end = repair(depth, record, table, &mut tree_copy, &mut marks_copy, &mut output)?;
    if end != (Repaired { end: End::Whole, stored: 0 }) {
        return Err(Stop::NotWhole);
    }
    let head = Head::read(layers, record)?;
    let mut block = vec![0; block_len(layers)];
    read_block(depth, record, tree, marks, &mut block)?;
    let other = head.kind.other() as u64;
    write(depth, other, table, &block[..head.length], new_tree, new_marks, new_record)
}

#[cfg(test)]
mod tests;
