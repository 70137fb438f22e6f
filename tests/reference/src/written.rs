//! Trees to test with.

use crate::kind::Kind;
use crate::record::{self, Head, RECORD};
use crate::table::{equations, house, listed, to_bytes, write as write_table, Layers};
use crate::tree::{block_len, code_tree, filled, tree_symbols, write, Symbol, SYMBOL};

/// A written tree with the buffers that hold it.
#[derive(Clone, PartialEq)]
pub struct Written {
    pub depth: u64,
    pub table: Vec<u8>,
    pub tree: Vec<u8>,
    pub marks: Vec<u8>,
    pub record: Vec<u8>,
}

impl Written {
    /// Buffers of the right lengths, of other bytes.
    pub fn lent(depth: usize, words: &[u32]) -> Written {
        Written {
            depth: depth as u64,
            table: to_bytes(words),
            tree: vec![0xaa; SYMBOL * tree_symbols(depth)],
            marks: vec![0xbb; tree_symbols(depth)],
            record: vec![0xcc; RECORD],
        }
    }

    pub fn new(kind: Kind, depth: usize, words: &[u32], block: &[u8]) -> Written {
        let mut w = Written::lent(depth, words);
        let Written { table, tree, marks, record, .. } = &mut w;
        write(depth as u64, kind as u64, table, block, tree, marks, record).unwrap();
        w
    }

    /// A tree in which layers are altered before they are hashed.
    pub fn altered(
        kind: Kind,
        depth: usize,
        words: &[u32],
        block: &[u8],
        alter: impl FnMut(usize, &mut [Symbol]),
    ) -> Written {
        let mut w = Written::new(kind, depth, words, block);
        let (tree, root) = code_tree(kind, &w.equations(), &filled(depth, block), alter);
        w.tree = tree;
        w.record = Head::of(kind, depth, block.len(), &w.table).before(&root);
        w
    }

    pub fn root(&self) -> &[u8] {
        record::root(&self.record)
    }

    /// What the head says.
    pub fn head(&self) -> Head {
        Head::read(self.depth as usize, &self.record).unwrap()
    }

    /// Gives the record another head, and leaves its root.
    pub fn put(&mut self, head: Head) {
        self.record = head.before(self.root());
    }

    pub fn equations(&self) -> Layers {
        equations(self.depth, &self.table).unwrap()
    }
}

/// The house table with another data symbol in the place of one of a layer,
/// wherever that is a member, or none where the other is a member too.
pub fn without(depth: usize, layer: usize, symbol: usize) -> Vec<u32> {
    let mut layers = listed(depth as u64, &house(depth)).unwrap();
    for members in &mut layers[layer] {
        if let Some(at) = members.iter().position(|&member| member == symbol) {
            members[at] = symbol ^ 1;
            members.sort_unstable();
            members.dedup();
        }
    }
    write_table(&layers)
}

pub fn block_of(depth: usize) -> Vec<u8> {
    (0..block_len(depth)).map(|i| (i * i / 7 + i / 256) as u8).collect()
}

/// The block of 01's cases.
pub fn cases_block() -> Vec<u8> {
    [1, 2, 4, 8].iter().flat_map(|&byte| [byte; SYMBOL]).collect()
}
