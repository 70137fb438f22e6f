//! Sizes.

use crate::{STACK_BYTES, STACK_BYTES_DEEP, SYMBOL_BYTES};
use std::ops::Range;

/// A depth that a tree can have.
#[derive(Clone, Copy, Debug, PartialEq, Eq, PartialOrd, Ord)]
pub struct Depth(usize);

impl Depth {
    pub const MAX: Depth = Depth(9);

    /// The depth of this number, where there is one.
    pub fn new(depth: u64) -> Option<Depth> {
        (1..=Depth::MAX.0 as u64).contains(&depth).then_some(Depth(depth as usize))
    }

    /// The least depth whose block holds this many bytes, where there is one.
    pub fn least(bytes: usize) -> Option<Depth> {
        (1..=Depth::MAX.0).map(Depth).find(|depth| bytes <= depth.block_bytes())
    }

    /// The number of layers: 0, the top one, to the base.
    pub fn layers(self) -> usize {
        self.0
    }

    /// The places of a layer in the tree.
    pub fn places(self, layer: usize) -> Range<usize> {
        let end = |layers: usize| 16 * ((1 << layers) - 1);
        end(layer)..end(layer + 1)
    }

    /// The symbols of a tree, and the bytes of its marks.
    pub fn symbols(self) -> usize {
        self.places(self.0 - 1).end
    }

    /// The data symbols of a layer, numbers 0 and on.
    pub fn data(self, layer: usize) -> usize {
        4 << layer
    }

    pub fn tree_bytes(self) -> usize {
        SYMBOL_BYTES * self.symbols()
    }

    /// The bytes of the longest block.
    pub fn block_bytes(self) -> usize {
        SYMBOL_BYTES * self.data(self.0 - 1)
    }

    pub fn house_table_bytes(self) -> usize {
        4 * (60 * ((1 << self.0) - 1) + 1)
    }

    /// The symbols of a sample.
    pub fn sampled(self) -> usize {
        2 * self.0 - 1
    }

    pub fn sample_bytes(self) -> usize {
        SYMBOL_BYTES * self.sampled()
    }

    /// The place of symbol `index` of a sample of base symbol `number`: the base symbol, then of each layer
    /// above, going up, a data symbol and a parity symbol.
    pub fn sampled_place(self, number: usize, index: usize) -> usize {
        if index == 0 {
            return self.places(self.0 - 1).start + number;
        }
        let layer = self.0 - 2 - (index - 1) / 2;
        let k = self.data(layer);
        let inside = if index % 2 == 1 { number % k } else { k + number % (3 * k) };
        self.places(layer).start + inside
    }

    /// The bytes of the longest fault proof, and of the output of a repair.
    pub fn output_bytes(self) -> usize {
        crate::PROOF_HEAD_BYTES + SYMBOL_BYTES * (8 * self.0 - 1)
    }

    /// The most stack that a call of this depth uses, in bytes.
    pub const fn stack_bytes(self) -> usize {
        if self.0 > 5 {
            STACK_BYTES_DEEP
        } else {
            STACK_BYTES
        }
    }
}
