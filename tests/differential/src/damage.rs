//! Damage to a symbol, by which a path breaks there and not below.

use crate::random::Random;
use reference::tree::{HASH, SYMBOL};

/// Changes a bit of a symbol, but none of the hashes in it that begin at these bytes.
pub fn damage(symbol: &mut [u8], but: &[usize], random: &mut Random) {
    let others: Vec<usize> = (0..SYMBOL).step_by(HASH).filter(|at| !but.contains(at)).collect();
    let at = others[random.below(others.len())] + random.below(HASH);
    symbol[at] ^= 1 << random.below(8);
}

/// Changes a bit of a hash of a root.
pub fn damage_root(root: &mut [u8], hash: usize, random: &mut Random) {
    root[HASH * hash + random.below(HASH)] ^= 1 << random.below(8);
}
