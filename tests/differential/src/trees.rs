//! `cmt_tree_write` and `cmt_block_read` beside the reference.

pub mod reading;
pub mod writing;

use crate::call::Length;
use reference::tree::{self, tree_symbols, SYMBOL};

/// The lengths of a tree's buffers.
pub const BLOCK_LEN: Length = Length::Of(block_len);
pub const TREE_LEN: Length = Length::Of(tree_len);
pub const MARKS_LEN: Length = Length::Of(tree_symbols);

/// The bytes of the longest block of a depth, of a depth 0 too.
pub fn block_len(depth: usize) -> usize {
    tree::block_len(depth.max(1))
}

pub fn tree_len(depth: usize) -> usize {
    SYMBOL * tree_symbols(depth)
}
