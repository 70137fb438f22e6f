//! Proofs with damage to their members and paths, or of another length.

use super::{each_fault, of, of_fault};
use crate::comparisons::Comparisons;
use crate::difference::Compared;
use crate::records::root_mut;
use crate::stops::{sparse, DEEP};
use reference::proof::HEAD;
use reference::tree::{HASH, ROOT, SYMBOL};

/// Each byte, or, of the longer proofs, some of each symbol: one bit of it
/// changed.
pub fn bytes(c: &mut Comparisons) -> Compared {
    each_fault(c, |c, right, volume, _| {
        let one_in = if volume.depth < DEEP { 12 } else { 300 };
        for at in HEAD..right["proof"].len() {
            if volume.depth > 2 && c.random.below(one_in) > 0 {
                continue;
            }
            let mut input = right.clone();
            input["proof"][at] ^= 1 << c.random.below(8);
            c.make("a damaged byte", &input)?;
        }
        Ok(())
    })
}

pub fn root_bytes(c: &mut Comparisons) -> Compared {
    for &depth in c.sizes {
        let layer = c.random.below(depth);
        let (right, ..) = of_fault(depth, layer, &mut c.random);
        for at in (0..ROOT).step_by(if depth < DEEP { 1 } else { 31 }) {
            let mut input = right.clone();
            root_mut(&mut input)[at] ^= 1 << c.random.below(8);
            c.make("a damaged root", &input)?;
        }
    }
    Ok(())
}

/// The hash for each symbol of the proof, the only one that is wrong, in
/// one byte.
pub fn hashes(c: &mut Comparisons) -> Compared {
    each_fault(c, |c, _, volume, head| {
        let symbols = head.symbols(volume.members(head));
        for (layer, symbol) in sparse(volume.depth, symbols.len()).into_iter().map(|at| symbols[at])
        {
            let bytes = [0, c.random.below(HASH), HASH - 1].into_iter();
            for byte in bytes.skip(if volume.depth < DEEP { 0 } else { 2 }) {
                let mut broken = volume.clone();
                broken.break_hash(layer, symbol, byte);
                let input = of(&broken, broken.proof(head));
                c.make("one wrong hash", &input)?;
            }
        }
        Ok(())
    })
}

/// Cut and extended: to every length at depth 1, else near those that end
/// a part.
pub fn lengths_of_proofs(c: &mut Comparisons) -> Compared {
    each_fault(c, |c, right, volume, _| {
        let len = right["proof"].len();
        let deep = volume.depth >= DEEP;
        let far = |other: usize| other % 2048 > 300 && other + 300 < len && deep;
        for other in (0..len + 300).filter(|&other| !far(other)) {
            let edge = (other + SYMBOL - HEAD) % SYMBOL;
            if volume.depth == 1 || other < 40 || !(3..SYMBOL - 2).contains(&edge) {
                let mut input = right.clone();
                input["proof"].resize(other, 0);
                c.make("a length of the proof", &input)?;
            }
        }
        Ok(())
    })
}

/// Two symbols of the proof in each other's place.
pub fn swapped_symbols(c: &mut Comparisons) -> Compared {
    each_fault(c, |c, right, volume, _| {
        let symbols = (right["proof"].len() - HEAD) / SYMBOL;
        let pairs = (0..symbols).flat_map(|one| (0..one).map(move |other| (one, other)));
        let pairs: Vec<(usize, usize)> = pairs.collect();
        for (one, other) in sparse(volume.depth, pairs.len()).into_iter().map(|at| pairs[at]) {
            let mut input = right.clone();
            let (low, high) = input["proof"].split_at_mut(HEAD + SYMBOL * one);
            low[HEAD + SYMBOL * other..][..SYMBOL].swap_with_slice(&mut high[..SYMBOL]);
            c.make("two symbols swapped", &input)?;
        }
        Ok(())
    })
}
