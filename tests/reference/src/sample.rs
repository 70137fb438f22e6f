//! Samples, written from the sections "Sample and fault proof" and "What stops
//! a call" of 01 and from CRs 4, 5 and 7 of 02.

use crate::kind::Kind;
use crate::path::unbroken;
use crate::record::{self, RECORD};
use crate::stop::Stop;
use crate::table::{data_symbols, layers_of};
use crate::tree::{committed, exactly, marks_in_form, place, symbol_at, symbols, tree_symbols};
use crate::tree::{Committed, HASH, SYMBOL};

/// The bytes of a sample of a depth.
pub fn sample_len(depth: usize) -> usize {
    SYMBOL * (2 * depth - 1)
}

/// The layer and the number of each symbol of a sample, in its order.
pub fn members(depth: usize, number: usize) -> Vec<(usize, usize)> {
    let mut members = vec![(depth - 1, number)];
    for layer in (0..depth - 1).rev() {
        let k = data_symbols(layer);
        members.push((layer, number % k));
        members.push((layer, k + number % (3 * k)));
    }
    members
}

/// The index in a sample of the data symbol of a layer above the base.
pub fn data_index(depth: usize, layer: usize) -> usize {
    1 + 2 * (depth - 2 - layer)
}

/// Copies a sample out of a tree.
pub fn take(
    depth: u64,
    number: u64,
    tree: &[u8],
    marks: &[u8],
    sample: &mut [u8],
) -> Result<(), Stop> {
    let layers = layers_of(depth)?;
    exactly(tree.len(), SYMBOL * tree_symbols(layers))?;
    exactly(marks.len(), tree_symbols(layers))?;
    exactly(sample.len(), sample_len(layers))?;
    marks_in_form(marks)?;
    let number = base_number(layers, number)?;
    let members = members(layers, number);
    let held = |&(layer, symbol): &(usize, usize)| marks[place(layer, symbol)] == 1;
    if let Some(absent) = members.iter().position(|member| !held(member)) {
        return Err(Stop::Absent(absent));
    }
    for (part, (layer, symbol)) in sample.chunks_mut(SYMBOL).zip(members) {
        part.copy_from_slice(symbol_at(tree, place(layer, symbol)));
    }
    Ok(())
}

/// Whether every hash of a sample leads to the root inside a record.
pub fn check(depth: u64, number: u64, record: &[u8], sample: &[u8]) -> Result<(), Stop> {
    let layers = layers_of(depth)?;
    exactly(record.len(), RECORD)?;
    exactly(sample.len(), sample_len(layers))?;
    let head = record::Head::read(layers, record)?;
    let number = base_number(layers, number)?;
    judge(head.kind, layers, number, record::root(record), sample)
}

/// Whether every hash of a sample of the right length leads to a root of a kind.
pub fn judge(
    kind: Kind,
    layers: usize,
    number: usize,
    root: &[u8],
    sample: &[u8],
) -> Result<(), Stop> {
    let members = members(layers, number).into_iter().enumerate();
    let broken = members.filter(|&(index, (layer, symbol))| {
        let (holder, at) = match committed(layer, symbol) {
            Committed::Root { at } => (root, at),
            Committed::Above { at, .. } => (symbol_at(sample, data_index(layers, layer - 1)), at),
        };
        kind.hash(layer, symbol, symbol_at(sample, index)) != holder[at..at + HASH]
    });
    unbroken(broken.map(|(_, (layer, _))| (None, layer)))
}

fn base_number(layers: usize, number: u64) -> Result<usize, Stop> {
    if number < symbols(layers - 1) as u64 {
        Ok(number as usize)
    } else {
        Err(Stop::Number)
    }
}

#[cfg(test)]
mod tests;
