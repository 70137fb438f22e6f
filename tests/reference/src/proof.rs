//! Fault proofs, written from the sections "Sample and fault proof" and "What
//! stops a call" of 01 and from CRs 4, 5 and 7 of 02.

use crate::kind::Kind;
use crate::path::unbroken;
use crate::record::{self, RECORD};
use crate::stop::Stop;
use crate::table::{self, byte_length, data_symbols, layers_of, word, Layers};
use crate::table::{END, EQUATION, LAYER};
use crate::tree::{committed, exactly, exclusive_or, place, symbol_at};
use crate::tree::{Committed, HASH, SYMBOL};

/// The bytes of a head: three words.
pub const HEAD: usize = 12;

/// What a head names.
#[derive(Clone, Copy, Debug, PartialEq, Eq)]
pub struct Head {
    pub layer: usize,
    pub equation: usize,
    pub withheld: usize,
}

impl Head {
    /// The head of a proof of at least twelve bytes, where it is in form for
    /// these equations.
    pub fn read(equations: &Layers, proof: &[u8]) -> Result<Head, Stop> {
        let layer = value(proof, 0, LAYER)?;
        let equation = value(proof, 1, EQUATION)?;
        let withheld = value(proof, 2, END)?;
        let members = equations.get(layer).and_then(|layer| layer.get(equation));
        match members {
            Some(members) if members.contains(&withheld) => Ok(Head { layer, equation, withheld }),
            _ => Err(Stop::Head),
        }
    }

    pub fn bytes(self) -> Vec<u8> {
        table::to_bytes(&[
            word(LAYER, self.layer),
            word(EQUATION, self.equation),
            word(END, self.withheld),
        ])
    }

    /// The layer and the number of each symbol of the proof, in its order. The
    /// hash of each stands in the one after it, or, in layer 0, in the root.
    pub fn symbols(self, members: &[usize]) -> Vec<(usize, usize)> {
        let mut symbols = Vec::new();
        for &member in members.iter().filter(|&&member| member != self.withheld) {
            symbols.push((self.layer, member));
            symbols.extend(path(self.layer, member));
        }
        symbols.extend(path(self.layer, self.withheld));
        symbols
    }
}

/// The value of a word of the head, which must have this kind.
fn value(proof: &[u8], index: usize, kind: u32) -> Result<usize, Stop> {
    let b = &proof[4 * index..4 * index + 4];
    let word = u32::from_be_bytes([b[0], b[1], b[2], b[3]]);
    if word >> 30 == kind {
        Ok((word & 0x3fff_ffff) as usize)
    } else {
        Err(Stop::Head)
    }
}

/// The data symbols above a symbol, from its own layer's next to layer 0.
fn path(layer: usize, symbol: usize) -> Vec<(usize, usize)> {
    (0..layer).rev().map(|above| (above, symbol % data_symbols(above))).collect()
}

/// The bytes of a proof at a layer, of an equation of so many members.
pub fn proof_len(layer: usize, members: usize) -> usize {
    HEAD + SYMBOL * ((members - 1) * (layer + 1) + layer)
}

/// The proof that a tree gives for a head.
pub fn write(head: Head, members: &[usize], tree: &[u8]) -> Vec<u8> {
    let mut proof = head.bytes();
    for (layer, symbol) in head.symbols(members) {
        proof.extend_from_slice(symbol_at(tree, place(layer, symbol)));
    }
    proof
}

/// Whether a proof shows a fault.
pub fn check(depth: u64, record: &[u8], table: &[u8], proof: &[u8]) -> Result<(), Stop> {
    let layers = layers_of(depth)?;
    exactly(record.len(), RECORD)?;
    byte_length(table)?;
    if proof.len() < HEAD {
        return Err(Stop::Length);
    }
    let head = record::Head::read(layers, record)?;
    let equations = table::equations(depth, table)?;
    head.names(table)?;
    judge(head.kind, &equations, record::root(record), proof)
}

/// Whether a proof of at least twelve bytes shows a fault by these equations, for a root of a kind.
pub fn judge(kind: Kind, equations: &Layers, root: &[u8], proof: &[u8]) -> Result<(), Stop> {
    let head = Head::read(equations, proof)?;
    let members = &equations[head.layer][head.equation];
    exactly(proof.len(), proof_len(head.layer, members.len()))?;
    let given = &proof[HEAD..];
    // The symbols of a given member. Those of the withheld one are last, and one fewer.
    let height = head.layer + 1;
    let symbols = head.symbols(members).into_iter().enumerate();
    let broken = symbols.filter(|&(index, (layer, symbol))| {
        kind.hash(layer, symbol, symbol_at(given, index))
            != hash_for(root, given, layer, symbol, index + 1)
    });
    unbroken(broken.map(|(index, (layer, _))| (Some(index / height), layer)))?;
    let others = (0..members.len() - 1).map(|other| symbol_at(given, other * height));
    let withheld_path = (members.len() - 1) * height;
    if kind.hash(head.layer, head.withheld, &exclusive_or(others))
        == hash_for(root, given, head.layer, head.withheld, withheld_path)
    {
        return Err(Stop::NoFault);
    }
    Ok(())
}

/// The hash for a symbol: in the root, or in the given symbol of this index.
pub fn hash_for<'a>(
    root: &'a [u8],
    given: &'a [u8],
    layer: usize,
    symbol: usize,
    above: usize,
) -> &'a [u8] {
    match committed(layer, symbol) {
        Committed::Root { at } => &root[at..at + HASH],
        Committed::Above { at, .. } => &symbol_at(given, above)[at..at + HASH],
    }
}

#[cfg(test)]
mod tests;
