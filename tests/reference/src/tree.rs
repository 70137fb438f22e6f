//! The coded Merkle tree, written from the sections "Layers", "Parity table"
//! and "What stops a call" of 01 and from CRs 5 and 7 of 02.

use crate::kind::Kind;
use crate::record::{Head, RECORD};
use crate::stop::Stop;
use crate::table::{self, byte_length, data_symbols, layers_of, Layers};

/// The bytes of a symbol, of a hash and of a root.
pub const SYMBOL: usize = 256;
pub const HASH: usize = 32;
pub const ROOT: usize = 512;

pub type Symbol = [u8; SYMBOL];

/// The symbols of a layer.
pub fn symbols(layer: usize) -> usize {
    4 * data_symbols(layer)
}

/// The symbols of a tree.
pub fn tree_symbols(depth: usize) -> usize {
    16 * ((1 << depth) - 1)
}

/// The place of a symbol: its index in the tree and in the marks.
pub fn place(layer: usize, symbol: usize) -> usize {
    tree_symbols(layer) + symbol
}

/// The bytes of a tree, or of a sample, that hold the symbol of an index.
pub fn symbol_at(bytes: &[u8], index: usize) -> &[u8] {
    &bytes[SYMBOL * index..SYMBOL * (index + 1)]
}

/// The bytes of the longest block of a depth.
pub fn block_len(depth: usize) -> usize {
    SYMBOL * data_symbols(depth - 1)
}

/// Where the hash of a symbol stands.
#[derive(Debug, PartialEq, Eq)]
pub enum Committed {
    /// In the root, from this byte on.
    Root { at: usize },
    /// In this data symbol of the layer above, from this byte on.
    Above { symbol: usize, at: usize },
}

/// Where the hash of a symbol of a layer stands.
pub fn committed(layer: usize, symbol: usize) -> Committed {
    if layer == 0 {
        return Committed::Root { at: HASH * symbol };
    }
    let s = symbols(layer) / 8;
    Committed::Above { symbol: symbol % s, at: HASH * (symbol / s) }
}

/// The hash that a root and a tree have for a symbol of a layer.
pub fn committed_hash<'a>(root: &'a [u8], tree: &'a [u8], layer: usize, symbol: usize) -> &'a [u8] {
    match committed(layer, symbol) {
        Committed::Root { at } => &root[at..at + HASH],
        Committed::Above { symbol, at } => {
            &symbol_at(tree, place(layer - 1, symbol))[at..at + HASH]
        }
    }
}

/// Codes a block as a volume of a kind: fills the tree, its marks and its record.
pub fn write(
    depth: u64,
    kind: u64,
    table: &[u8],
    block: &[u8],
    tree: &mut [u8],
    marks: &mut [u8],
    record: &mut [u8],
) -> Result<(), Stop> {
    let layers = layers_of(depth)?;
    byte_length(table)?;
    if block.len() > block_len(layers) {
        return Err(Stop::Length);
    }
    exactly(tree.len(), SYMBOL * tree_symbols(layers))?;
    exactly(marks.len(), tree_symbols(layers))?;
    exactly(record.len(), RECORD)?;
    let kind = Kind::told(kind)?;
    let equations = table::equations(depth, table)?;
    let (coded, root) = code_tree(kind, &equations, &filled(layers, block), |_, _| ());
    tree.copy_from_slice(&coded);
    record.copy_from_slice(&Head::of(kind, layers, block.len(), table).before(&root));
    marks.fill(1);
    Ok(())
}

/// A block with zeros after it, up to the bytes of the longest.
pub fn filled(depth: usize, block: &[u8]) -> Vec<u8> {
    let mut filled = block.to_vec();
    filled.resize(block_len(depth), 0);
    filled
}

/// The tree and the root of a block that is filled up. The symbols of each layer, which are
/// coded from the base up, go through `alter` before they are hashed.
pub fn code_tree(
    kind: Kind,
    equations: &Layers,
    block: &[u8],
    mut alter: impl FnMut(usize, &mut [Symbol]),
) -> (Vec<u8>, Vec<u8>) {
    let mut tree = vec![0; SYMBOL * tree_symbols(equations.len())];
    let mut root = Vec::new();
    let mut data: Vec<Symbol> = block.chunks(SYMBOL).map(symbol_of).collect();
    for (layer, equations) in equations.iter().enumerate().rev() {
        let mut coded = code(&data, equations);
        alter(layer, &mut coded);
        let start = SYMBOL * place(layer, 0);
        tree[start..start + SYMBOL * coded.len()].copy_from_slice(&coded.concat());
        if layer > 0 {
            data = hashes_above(kind, layer, &coded);
        } else {
            root = hashes(kind, &coded);
        }
    }
    (tree, root)
}

/// Copies the block out of a tree, as many bytes as the record says.
pub fn read_block(
    depth: u64,
    record: &[u8],
    tree: &[u8],
    marks: &[u8],
    block: &mut [u8],
) -> Result<(), Stop> {
    let layers = layers_of(depth)?;
    exactly(record.len(), RECORD)?;
    exactly(tree.len(), SYMBOL * tree_symbols(layers))?;
    exactly(marks.len(), tree_symbols(layers))?;
    exactly(block.len(), block_len(layers))?;
    let head = Head::read(layers, record)?;
    marks_in_form(marks)?;
    let base = layers - 1;
    if let Some(absent) = (0..data_symbols(base)).find(|&i| marks[place(base, i)] == 0) {
        return Err(Stop::Absent(absent));
    }
    block[..head.length].copy_from_slice(&base_data(layers, tree)[..head.length]);
    Ok(())
}

/// The bytes of the base's data symbols in order: the block, and what fills it up.
pub fn base_data(depth: usize, tree: &[u8]) -> &[u8] {
    &tree[SYMBOL * place(depth - 1, 0)..][..block_len(depth)]
}

/// A length is the one that it must be.
pub fn exactly(len: usize, right: usize) -> Result<(), Stop> {
    if len == right {
        Ok(())
    } else {
        Err(Stop::Length)
    }
}

/// Every mark is 0 or 1.
pub fn marks_in_form(marks: &[u8]) -> Result<(), Stop> {
    match marks.iter().position(|&mark| mark > 1) {
        Some(lowest) => Err(Stop::Mark(lowest)),
        None => Ok(()),
    }
}

fn symbol_of(bytes: &[u8]) -> Symbol {
    let mut symbol = [0; SYMBOL];
    symbol.copy_from_slice(bytes);
    symbol
}

/// The symbols of a layer: its data, and the parity that makes each equation
/// hold. The last member of an equation is the one that it gives.
fn code(data: &[Symbol], equations: &[Vec<usize>]) -> Vec<Symbol> {
    let mut coded = data.to_vec();
    for members in equations {
        let others = &members[..members.len() - 1];
        coded.push(exclusive_or(others.iter().map(|&member| &coded[member][..])));
    }
    coded
}

/// The exclusive-or of symbols.
pub fn exclusive_or<'a>(symbols: impl Iterator<Item = &'a [u8]>) -> Symbol {
    let mut sum = [0; SYMBOL];
    for symbol in symbols {
        for (byte, other) in sum.iter_mut().zip(symbol) {
            *byte ^= other;
        }
    }
    sum
}

/// The hashes of the symbols of layer 0, in order.
fn hashes(kind: Kind, coded: &[Symbol]) -> Vec<u8> {
    coded.iter().enumerate().flat_map(|(i, symbol)| kind.hash(0, i, symbol)).collect()
}

/// The data symbols above a layer: the hashes of its symbols.
fn hashes_above(kind: Kind, layer: usize, coded: &[Symbol]) -> Vec<Symbol> {
    let mut above = vec![[0; SYMBOL]; data_symbols(layer - 1)];
    for (i, bytes) in coded.iter().enumerate() {
        if let Committed::Above { symbol, at } = committed(layer, i) {
            above[symbol][at..at + HASH].copy_from_slice(&kind.hash(layer, i, bytes));
        }
    }
    above
}

#[cfg(test)]
mod tests;
