//! The bytes of a sample and of a fault proof by source document 003, at 01's parameters.

use reference::table::data_symbols;
use reference::tree::{HASH, ROOT, SYMBOL};

/// q: the hashes of a symbol.
const Q: usize = SYMBOL / HASH;

/// 1/r: the symbols for each data symbol.
const RATE: usize = 4;

/// log_qr (k/(rt)), where t is the hashes of the root: the layers above the base.
fn layers(depth: usize) -> usize {
    let (k, t) = (data_symbols(depth - 1), ROOT / HASH);
    (0..).find(|&layers| (Q / RATE).pow(layers) == k * RATE / t).expect("a power of 2") as usize
}

/// (2): b/k + [y(q - 1) + yq(1 - r)] log_qr (k/(rt)).
pub fn sample(depth: usize) -> usize {
    SYMBOL + (HASH * (Q - 1) + HASH * (Q - Q / RATE)) * layers(depth)
}

/// (4): (d - 1)b/k + dy(q - 1) log_qr (k/(rt)).
pub fn proof(depth: usize, members: usize) -> usize {
    (members - 1) * SYMBOL + members * HASH * (Q - 1) * layers(depth)
}

#[cfg(test)]
mod tests {
    use super::*;
    use reference::proof::proof_len;
    use reference::sample::sample_len;

    /// Where ours has more: whole symbols above, a parity symbol of each layer always, and a head.
    #[test]
    fn beside_ours() {
        for depth in 1..=9 {
            let above = depth - 1;
            assert_eq!(layers(depth), above);
            assert_eq!(sample_len(depth) - sample(depth), (HASH + SYMBOL / RATE) * above);
            for d in 2..=8 {
                assert_eq!(proof_len(above, d) - proof(depth, d), 12 + d * HASH * above);
            }
        }
    }
}
