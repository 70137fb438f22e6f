//! Coded trees of both kinds with their tables, covered or not: such as are correctly coded,
//! and such as are not though their hashes fit.

use crate::random::Random;
use crate::tables::lists::some_table;
use reference::kind::{Kind, KINDS};
use reference::proof::{self, Head};
use reference::record;
use reference::table::{self, data_symbols, to_bytes, Layers};
use reference::tree::{block_len, code_tree, committed, filled, place, symbol_at, symbols};
use reference::tree::{Committed, Symbol, HASH, SYMBOL};

#[derive(Clone)]
pub struct Volume {
    pub kind: Kind,
    pub depth: usize,
    pub table: Vec<u8>,
    pub equations: Layers,
    pub tree: Vec<u8>,
    pub record: Vec<u8>,
}

/// One of the two kinds.
pub fn some_kind(random: &mut Random) -> Kind {
    KINDS[random.below(KINDS.len())]
}

/// A depth, the smaller ones more often.
pub fn some_depth(random: &mut Random) -> usize {
    match random.below(32) {
        0..=17 => 1,
        18..=24 => 2,
        25..=28 => 3,
        29..=30 => 4,
        _ => 5,
    }
}

/// A random parity symbol of a layer.
pub fn some_parity(layer: usize, random: &mut Random) -> usize {
    data_symbols(layer) + random.below(3 * data_symbols(layer))
}

/// The equation whose last member a parity symbol is.
pub fn equation_of(layer: usize, parity: usize) -> usize {
    parity - data_symbols(layer)
}

/// A random symbol of a layer.
pub fn some_symbol(layer: usize, random: &mut Random) -> usize {
    random.below(symbols(layer))
}

/// The bytes of a block of a depth: any number, the most, or one beside the ends of a symbol.
pub fn some_length(depth: usize, random: &mut Random) -> usize {
    let most = block_len(depth);
    match random.below(8) {
        0 | 1 => most,
        2 => lengths(depth)[random.below(LENGTHS)],
        _ => random.below(most + 1),
    }
}

/// So many bytes: random ones, or, one time in eight, equal pages, blank or not.
fn some_block(length: usize, random: &mut Random) -> Vec<u8> {
    match random.below(16) {
        0 => vec![0; length],
        1 => random.bytes(SYMBOL).into_iter().cycle().take(length).collect(),
        _ => random.bytes(length),
    }
}

const LENGTHS: usize = 7;

/// The bytes of blocks of a depth: none, beside the ends of a symbol, and the most.
pub fn lengths(depth: usize) -> [usize; LENGTHS] {
    [0, 1, SYMBOL - 1, SYMBOL, SYMBOL + 1, block_len(depth) - 1, block_len(depth)]
}

impl Volume {
    /// The correctly coded tree of a random block, of either kind.
    pub fn new(depth: usize, words: &[u32], random: &mut Random) -> Volume {
        Volume::miscoded(depth, words, &[], random)
    }

    /// The tree of a random block, in which these symbols, each by its layer
    /// and its number, were replaced before they were hashed: by others, or by one bit.
    pub fn miscoded(
        depth: usize,
        words: &[u32],
        replaced: &[(usize, usize)],
        random: &mut Random,
    ) -> Volume {
        Volume::miscoded_of(some_kind(random), depth, words, replaced, random)
    }

    /// The same of a kind.
    pub fn miscoded_of(
        kind: Kind,
        depth: usize,
        words: &[u32],
        replaced: &[(usize, usize)],
        random: &mut Random,
    ) -> Volume {
        let length = some_length(depth, random);
        let block = filled(depth, &some_block(length, random));
        Volume::of_block(kind, depth, words, &block, length, |layer, symbols| {
            for &(_, symbol) in replaced.iter().filter(|replaced| replaced.0 == layer) {
                match random.below(2) {
                    0 => symbols[symbol].copy_from_slice(&random.bytes(SYMBOL)),
                    _ => symbols[symbol][random.below(SYMBOL)] ^= 1 << random.below(8),
                }
            }
        })
    }

    /// The correctly coded tree of a random block that is filled up with these bytes.
    pub fn filled_with(
        kind: Kind,
        depth: usize,
        words: &[u32],
        filling: &[u8],
        random: &mut Random,
    ) -> Volume {
        let length = block_len(depth) - filling.len();
        let block = [&random.bytes(length), filling].concat();
        Volume::of_block(kind, depth, words, &block, length, |_, _| ())
    }

    /// The correctly coded tree of a block.
    pub fn of(kind: Kind, depth: usize, words: &[u32], block: &[u8]) -> Volume {
        Volume::of_block(kind, depth, words, &filled(depth, block), block.len(), |_, _| ())
    }

    /// The tree of a block that is filled up, whose record says that it has so many bytes.
    fn of_block(
        kind: Kind,
        depth: usize,
        words: &[u32],
        block: &[u8],
        length: usize,
        alter: impl FnMut(usize, &mut [Symbol]),
    ) -> Volume {
        let table = to_bytes(words);
        let equations = table::listed(depth as u64, words).expect("a table");
        let (tree, root) = code_tree(kind, &equations, block, alter);
        let record = record::Head::of(kind, depth, length, &table).before(&root);
        Volume { kind, depth, table, equations, tree, record }
    }

    /// A tree of a random table in which one parity symbol of a layer was
    /// replaced, and that symbol's number.
    pub fn with_fault(depth: usize, layer: usize, random: &mut Random) -> (Volume, usize) {
        let words = some_table(depth, random);
        let parity = some_parity(layer, random);
        (Volume::miscoded(depth, &words, &[(layer, parity)], random), parity)
    }

    fn root_mut(&mut self) -> &mut [u8] {
        &mut self.record[record::HEAD..]
    }

    /// The words of the table.
    pub fn words(&self) -> Vec<u32> {
        table::write(&self.equations)
    }

    /// The members of the equation that a head names.
    pub fn members(&self, head: Head) -> &[usize] {
        &self.equations[head.layer][head.equation]
    }

    /// The proof that the tree gives for a head.
    pub fn proof(&self, head: Head) -> Vec<u8> {
        proof::write(head, self.members(head), &self.tree)
    }

    /// A random head.
    pub fn some_head(&self, layer: usize, random: &mut Random) -> Head {
        let equation = random.below(self.equations[layer].len());
        self.withholding(layer, equation, random)
    }

    /// The head for an equation, and a random member withheld.
    pub fn withholding(&self, layer: usize, equation: usize, random: &mut Random) -> Head {
        let members = &self.equations[layer][equation];
        Head { layer, equation, withheld: members[random.below(members.len())] }
    }

    /// Changes a byte of the hash that stands for a symbol, and makes every
    /// hash above fit that change: no other hash is wrong.
    pub fn break_hash(&mut self, layer: usize, symbol: usize, byte: usize) {
        match committed(layer, symbol) {
            Committed::Root { at } => self.root_mut()[at + byte] ^= 1,
            Committed::Above { symbol: above, at } => {
                self.tree[SYMBOL * place(layer - 1, above) + at + byte] ^= 1;
                self.rehash(layer - 1, above);
            }
        }
    }

    /// Makes the hash of a symbol fit, and every hash above.
    fn rehash(&mut self, layer: usize, symbol: usize) {
        let bytes = symbol_at(&self.tree, place(layer, symbol));
        let hash = self.kind.hash(layer, symbol, bytes);
        match committed(layer, symbol) {
            Committed::Root { at } => self.root_mut()[at..at + HASH].copy_from_slice(&hash),
            Committed::Above { symbol: above, at } => {
                let start = SYMBOL * place(layer - 1, above) + at;
                self.tree[start..start + HASH].copy_from_slice(&hash);
                self.rehash(layer - 1, above);
            }
        }
    }

    /// The symbols of all layers, each by its layer and its number.
    pub fn all_symbols(&self) -> Vec<(usize, usize)> {
        let layers = 0..self.depth;
        layers.flat_map(|layer| (0..symbols(layer)).map(move |symbol| (layer, symbol))).collect()
    }
}
