//! Trees of a table.

use reference::kind::Kind;
use reference::record::RECORD;
use reference::table::{data_symbols, house_equation, to_bytes, write, Layers};
use reference::tree::{block_len, tree_symbols, SYMBOL};

/// The buffers of a tree.
pub struct Volume {
    pub depth: u64,
    pub table: Vec<u8>,
    pub block: Vec<u8>,
    pub tree: Vec<u8>,
    pub marks: Vec<u8>,
    pub record: Vec<u8>,
}

impl Volume {
    /// A block, and buffers for its tree.
    pub fn new(layers: &Layers) -> Volume {
        let depth = layers.len();
        let bytes = block_len(depth) as u32;
        Volume {
            depth: depth as u64,
            table: to_bytes(&write(layers)),
            block: (0..bytes).map(|i| (i.wrapping_mul(2_654_435_761) >> 13) as u8).collect(),
            tree: vec![0; SYMBOL * tree_symbols(depth)],
            marks: vec![0; tree_symbols(depth)],
            record: vec![0; RECORD],
        }
    }

    /// The tree of a block, as a volume of a kind.
    pub fn written(kind: Kind, layers: &Layers) -> Volume {
        let mut volume = Volume::new(layers);
        let Volume { depth, table, block, tree, marks, record } = &mut volume;
        let kind = kind as u64;
        let result = cedunmi_sys::cmt_tree_write(*depth, kind, table, block, tree, marks, record);
        assert_eq!(result, 0);
        volume
    }
}

/// The house table.
pub fn house(depth: usize) -> Layers {
    let equations = |k: usize| (0..3 * k).map(|e| house_equation(k, e)).collect();
    (0..depth).map(data_symbols).map(equations).collect()
}
