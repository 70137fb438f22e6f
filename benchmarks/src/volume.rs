//! Trees of the house table, of the table with the longest equations, and of the worst tables, of both kinds.

use linear::worst::{self, Chain};
use reference::record::{hash_of, root, Head};
use reference::table::{to_bytes, write, Layers};
use reference::tree::{self, SYMBOL};

pub use linear::volume::{house, Volume};

/// The kinds of volume, as a writer is told them. Where nothing else is said, a volume is plain: an earlier revision has no
/// other.
pub const PLACED: u64 = 0;
pub const PLAIN: u64 = 1;

/// The library's writing.
pub fn code(kind: u64, volume: &mut Volume) {
    let Volume { depth, table, block, tree, marks, record, .. } = volume;
    let result = cedunmi_sys::cmt_tree_write(*depth, kind, table, block, tree, marks, record);
    assert_eq!(result, 0);
}

/// The reference's writing.
pub fn write_plainly(volume: &mut Volume) {
    let Volume { depth, table, block, tree, marks, record, .. } = volume;
    forget_hash();
    assert!(tree::write(*depth, PLAIN, table, block, tree, marks, record).is_ok());
}

/// The tree of a block.
pub fn coded(kind: u64, layers: &Layers) -> Volume {
    let mut volume = Volume::new(layers);
    code(kind, &mut volume);
    volume
}

/// The same tree of a kind, with the same marks.
pub fn of_kind(kind: u64, mut volume: Volume) -> Volume {
    let marks = volume.marks.clone();
    code(kind, &mut volume);
    volume.marks = marks;
    volume
}

/// Lets the reference hash the table of its next call: it keeps the hash of the last one.
pub fn forget_hash() {
    hash_of(&[]);
}

/// A tree with another table, which its record then names.
pub fn with_table(mut volume: Volume, layers: &Layers) -> Volume {
    volume.table = to_bytes(&write(layers));
    let said = Head::read(layers.len(), &volume.record).expect("a head");
    let (words, hash) = (volume.table.len() / 4, hash_of(&volume.table));
    volume.record = Head { words, hash, ..said }.before(root(&volume.record));
    volume
}

/// A table whose members are scattered, eight in nearly every equation.
pub fn long(depth: usize) -> Layers {
    worst::layers(depth, Chain::Up, 470)
}

/// A table with these members and the last one in its last equation.
pub fn with_end(mut layers: Layers, members: &[usize]) -> Layers {
    let last = layers.last_mut().and_then(|equations| equations.last_mut()).expect("an equation");
    *last = [members, &last[last.len() - 1..]].concat();
    layers
}

/// Hashes some symbols of a tree, and does nothing else.
pub fn hash(tree: &[u8], symbols: usize) {
    let mut digest = [0; 32];
    for symbol in tree.chunks_exact(SYMBOL).cycle().take(symbols) {
        assert_eq!(cedunmi_sys::cmt_sha256(symbol, &mut digest), 0);
    }
}

/// Hashes a table, and does nothing else.
pub fn hash_table(table: &[u8]) {
    assert_eq!(cedunmi_sys::cmt_sha256(table, &mut [0; 32]), 0);
}
