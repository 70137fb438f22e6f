//! Losses, orders of peeling and proofs that there are at each depth, the deep ones above all.

use super::losses::ends;
use super::{lose, lose_some, of, spoil};
use crate::comparisons::Comparisons;
use crate::difference::Compared;
use crate::results::{ended, repaired};
use crate::stops::{turns, DEEP};
use crate::tables::lists::{chained, paired, random_table, some_table, table_of, LINKS};
use crate::tables::uses::MOST;
use crate::volumes::Volume;
use reference::proof::proof_len;
use reference::repair::{output_len, End, Repaired};
use reference::table::{data_symbols, house};
use reference::tree::{symbols, tree_symbols};

/// Parts of 1000 that are lost.
const LOST: [usize; 4] = [0, 124, 250, 470];

/// So many parts of each layer, of the house table's trees and of a random table's.
pub fn losses(c: &mut Comparisons) -> Compared {
    for &depth in c.sizes {
        for (turn, parts) in LOST.into_iter().enumerate() {
            let words = match turn % 2 {
                0 => house(depth),
                _ => random_table(depth, &mut c.random),
            };
            let volume = Volume::new(depth, &words, &mut c.random);
            let mut input = of(&volume, &mut c.random);
            for (layer, symbol) in volume.all_symbols() {
                if c.random.below(1000) < parts {
                    lose(&mut input, layer, symbol, &mut c.random);
                }
            }
            let result = c.make("a share lost", &input)?;
            assert!(parts > 0 || ended(result) == Some(Repaired { end: End::Whole, stored: 0 }));
        }
    }
    Ok(())
}

/// Only the parity of the links is held, the rest absent or bad copies, and one order alone in
/// which the data come back: each link is needed. And the same with parity symbols replaced
/// that the order comes to late.
pub fn chains(c: &mut Comparisons) -> Compared {
    for &depth in c.sizes {
        for (turn, links) in LINKS.into_iter().enumerate() {
            let words = chained(depth, links);
            let volume = Volume::new(depth, &words, &mut c.random);
            let mut input = of(&volume, &mut c.random);
            for (layer, symbol) in volume.all_symbols() {
                let k = data_symbols(layer);
                if !(0..k).any(|i| k + links.1(k, i) == symbol) {
                    match turn % 2 {
                        0 => lose(&mut input, layer, symbol, &mut c.random),
                        _ => spoil(&mut input, layer, symbol, &mut c.random),
                    }
                }
            }
            let expected = Repaired { end: End::Whole, stored: 3 * tree_symbols(depth) / 4 };
            let result = c.make(links.0, &input)?;
            assert_eq!(result, repaired(Ok(expected)), "{}, depth {depth}", links.0);
            c.met.outcomes.count("a chain");
            if depth < DEEP || turn == depth % 4 {
                broken_chain(c, depth, &words, links.1)?;
            }
        }
    }
    Ok(())
}

/// A replaced parity symbol of the base in a late link, and one in an equation that waits.
fn broken_chain(
    c: &mut Comparisons,
    depth: usize,
    words: &[u32],
    link: fn(usize, usize) -> usize,
) -> Compared {
    let (base, k) = (depth - 1, data_symbols(depth - 1));
    let late = link(k, k - 1 - c.random.below(3));
    let faults = [(base, k + late), (base, 4 * k - 1 - c.random.below(k))];
    let volume = Volume::miscoded(depth, words, &faults, &mut c.random);
    let mut input = of(&volume, &mut c.random);
    (0..k).for_each(|data| lose(&mut input, base, data, &mut c.random));
    c.make("a chain with a fault", &input)?;
    Ok(())
}

/// Much of the base lost, and a fault in its last equations: how much is stored before it shows
/// tells whether the search came back to each lower equation first.
pub fn far_faults(c: &mut Comparisons) -> Compared {
    for &depth in c.sizes {
        let (base, n) = (depth - 1, symbols(depth - 1));
        for parts in [30, 50, 70] {
            let words = some_table(depth, &mut c.random);
            let late = n - 1 - c.random.below(n / 16);
            let volume = Volume::miscoded(depth, &words, &[(base, late)], &mut c.random);
            let mut input = of(&volume, &mut c.random);
            let others = (0..n).filter(|&symbol| symbol != late).map(|symbol| (base, symbol));
            lose_some(&mut input, &others.collect::<Vec<_>>(), parts, &mut c.random);
            c.make("a far fault", &input)?;
        }
    }
    Ok(())
}

/// A data symbol of the base, lost with the parity of the first two of its three equations: the
/// third gives it, and then the others, which are far below, the parity, before the last equation,
/// which fails.
pub fn far_back(c: &mut Comparisons) -> Compared {
    for &depth in c.sizes {
        let (base, k, words) = (depth - 1, data_symbols(depth - 1), paired(depth));
        let volume = Volume::miscoded(depth, &words, &[(base, 4 * k - 1)], &mut c.random);
        for _ in 0..turns(depth, 16) {
            let data = 1 + c.random.below(k - 2);
            let mut input = of(&volume, &mut c.random);
            for symbol in [data, k + data, 2 * k + data - 1] {
                lose(&mut input, base, symbol, &mut c.random);
            }
            let end = End::Fault(proof_len(base, 2));
            ends(c, "a far fault after far stores", &input, end, 3)?;
        }
    }
    Ok(())
}

/// The last equation of the base has eight members, and is the one that fails: the proof
/// fills the output. Few are lost above it, so that all is stored before.
pub fn longest_proofs(c: &mut Comparisons) -> Compared {
    for &depth in c.sizes {
        let base = depth - 1;
        let last = symbols(base) - 1;
        let words = table_of(depth, MOST);
        let volume = Volume::miscoded(depth, &words, &[(base, last)], &mut c.random);
        for lost in [None, Some(last), Some(volume.equations[base][3 * data_symbols(base) - 1][0])]
        {
            let mut input = of(&volume, &mut c.random);
            let above: Vec<_> = volume.all_symbols().into_iter().filter(|s| s.0 < base).collect();
            lose_some(&mut input, &above, 4, &mut c.random);
            lost.into_iter().for_each(|symbol| lose(&mut input, base, symbol, &mut c.random));
            let result = ended(c.make("the longest proof", &input)?);
            if let Some(Repaired { end: End::Fault(len), .. }) = result {
                if len == output_len(depth) {
                    c.met.outcomes.count(&format!("the longest proof of {len} bytes"));
                }
            }
        }
    }
    Ok(())
}
