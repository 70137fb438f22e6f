//! Samples that break in known layers.

use super::{hash_of, hashed};
use crate::call::Sorts;
use crate::comparisons::Comparisons;
use crate::damage::{damage, damage_root};
use crate::difference::Compared;
use crate::input::Input;
use crate::random::Random;
use crate::records::{root, root_mut};
use crate::stops::DEEP;
use reference::sample::{data_index, members};
use reference::stop::Stop;
use reference::tree::{symbol_at, symbols, HASH, SYMBOL};

/// By the layer, and by which of its symbols have another hash than the committed one.
pub const SORTS: Sorts = Sorts {
    all: |depth| {
        let whose = |layer| if layer == depth - 1 { &WHOSE[..1] } else { &WHOSE[1..] };
        let sorts = (0..depth).flat_map(|layer| whose(layer).iter().map(move |w| (layer, w)));
        sorts.map(|(layer, whose)| sort(depth, layer, whose)).collect()
    },
    of: |i, [layer, _]| {
        let depth = i.number("depth") as usize;
        let whose = match depth - 1 - layer {
            0 => WHOSE[0],
            _ => {
                let data = data_index(depth, layer);
                WHOSE[usize::from(broken(i, data)) + 2 * usize::from(broken(i, data + 1))]
            }
        };
        Some(sort(depth, layer, whose))
    },
};

const WHOSE: [&str; 4] = ["the base symbol", "data", "parity", "both"];

fn sort(depth: usize, layer: usize, whose: &str) -> String {
    format!("a break in layer {layer} at depth {depth}: {whose}")
}

/// Whether the symbol of an index has another hash than the one that stands for it.
fn broken(input: &Input, index: usize) -> bool {
    let hash = match hash_of(input, index) {
        (None, at) => &root(input)[at..at + HASH],
        (Some(above), at) => &symbol_at(&input["sample"], above)[at..at + HASH],
    };
    hashed(input, index) != hash
}

/// The layer and the number of each symbol of the sample.
fn symbols_of(input: &Input) -> Vec<(usize, usize)> {
    members(input.number("depth") as usize, input.number("number") as usize)
}

/// What a sample comes to whose first broken layer this is.
pub fn breaks_in(layer: Option<usize>) -> Result<(), Stop> {
    layer.map_or(Ok(()), |layer| Err(Stop::Hash { layer, position: None }))
}

/// Damages the symbol of an index, but no hash in it for a symbol of the sample.
fn damage_at(input: &mut Input, index: usize, random: &mut Random) {
    let holds = |&(holder, _): &(Option<usize>, usize)| holder == Some(index);
    let hashes = (0..symbols_of(input).len()).map(|below| hash_of(input, below)).filter(holds);
    let hashes: Vec<usize> = hashes.map(|(_, at)| at).collect();
    damage(&mut input["sample"][SYMBOL * index..][..SYMBOL], &hashes, random);
}

/// Each set of the sample's symbols damaged, or, of a deep depth, each symbol alone, with the
/// next, and with some after it: it breaks at the first of them.
pub fn damaged_sets(c: &mut Comparisons) -> Compared {
    for &depth in c.sizes {
        let mut good = c.good(depth);
        let sets: Vec<u64> = match depth < DEEP {
            true => (0..1 << (2 * depth - 1)).collect(),
            false => (0..2 * depth - 1)
                .flat_map(|i| {
                    let some = [0; 8].map(|_| c.random.next() << (i + 1) | 1 << i);
                    [1 << i, 3 << i].into_iter().chain(some)
                })
                .collect(),
        };
        for set in sets {
            if depth < DEEP && set > 0 {
                good = c.good(depth);
            }
            let mut input = good.clone();
            let symbols = symbols_of(&input).into_iter().enumerate();
            let damaged: Vec<_> = symbols.filter(|(index, _)| set >> index & 1 == 1).collect();
            for &(index, _) in &damaged {
                damage_at(&mut input, index, &mut c.random);
            }
            let first = damaged.first().map(|&(_, (layer, _))| layer);
            c.make_so("some symbols damaged", &input, breaks_in(first))?;
        }
    }
    Ok(())
}

/// Each hash of the root, whether the sample has that symbol of layer 0 or not.
pub fn damaged_roots(c: &mut Comparisons) -> Compared {
    for &depth in c.sizes {
        let mut good = c.good(depth);
        for (turn, hash) in (0..symbols(0)).cycle().take(5 * symbols(0)).enumerate() {
            if depth < DEEP && turn > 0 {
                good = c.good(depth);
            }
            let mut input = good.clone();
            damage_root(root_mut(&mut input), hash, &mut c.random);
            let has = symbols_of(&input).contains(&(0, hash));
            c.make_so("a hash of the root", &input, breaks_in(has.then_some(0)))?;
        }
    }
    Ok(())
}
