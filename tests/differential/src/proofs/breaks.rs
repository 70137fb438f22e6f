//! Proofs that break in known layers, at known positions.

use super::{named, of};
use crate::call::Sorts;
use crate::comparisons::Comparisons;
use crate::damage::{damage, damage_root};
use crate::difference::Compared;
use crate::input::Input;
use crate::records::root_mut;
use crate::stops::sparse;
use crate::tables::lists::table_of;
use crate::tables::uses::MOST;
use crate::volumes::Volume;
use reference::proof::{Head, HEAD};
use reference::stop::Stop;
use reference::table::data_symbols;
use reference::tree::{committed, symbols, Committed, SYMBOL};

/// By the proof's layer, the layer of the break, and the position of the member, given or
/// withheld.
pub const SORTS: Sorts = Sorts {
    all: |depth| {
        let layers = (0..depth).flat_map(|of| (0..=of).map(move |layer| (of, layer)));
        let sorts = layers.flat_map(|(of, layer)| {
            let given = (0..MOST - 1).map(|position| (position, GIVEN));
            let withheld = (1..MOST).filter(move |_| layer < of).map(|given| (given, WITHHELD));
            given.chain(withheld).map(move |member| sort([depth, of, layer], member))
        });
        sorts.collect()
    },
    of: |i, [layer, position]| {
        let (head, members) = named(i)?;
        let whose = if position < members - 1 { GIVEN } else { WITHHELD };
        Some(sort([i.number("depth") as usize, head.layer, layer], (position, whose)))
    },
};

const GIVEN: &str = "given";
const WITHHELD: &str = "withheld";

fn sort([depth, of, layer]: [usize; 3], (position, whose): (usize, &str)) -> String {
    format!(
        "a break in layer {layer} at position {position}, {whose}, of layer {of} at depth {depth}"
    )
}

/// A proof of a fault, and the layer and the number of each of its symbols.
struct Proof {
    input: Input,
    head: Head,
    given: Vec<usize>,
    symbols: Vec<(usize, usize)>,
}

impl Proof {
    fn new(volume: &Volume, head: Head) -> Proof {
        let members = volume.members(head);
        Proof {
            input: of(volume, volume.proof(head)),
            head,
            given: members.iter().copied().filter(|&member| member != head.withheld).collect(),
            symbols: head.symbols(members),
        }
    }

    /// Where the proof breaks when only this symbol is damaged, of each in order.
    fn breaks(&self) -> Vec<Stop> {
        let given = (0..self.given.len()).map(|position| (position, self.head.layer + 1));
        let paths = given.chain([(self.given.len(), self.head.layer)]);
        let breaks = |(position, layers): (usize, usize)| {
            (0..layers).rev().map(move |layer| Stop::Hash { layer, position: Some(position) })
        };
        paths.flat_map(breaks).collect()
    }

    /// Damages the symbols of these indices, ascending: the proof breaks at the first.
    fn make(&self, c: &mut Comparisons, what: &str, damaged: &[usize]) -> Compared {
        let mut input = self.input.clone();
        for &index in damaged {
            // The hash of the symbol before it, where that is one of the same path.
            let below = index.checked_sub(1).map(|below| self.symbols[below]);
            let hash = match below.map(|(layer, symbol)| committed(layer, symbol)) {
                Some(Committed::Above { at, .. }) => vec![at],
                _ => vec![],
            };
            let symbol = &mut input["proof"][HEAD + SYMBOL * index..][..SYMBOL];
            damage(symbol, &hash, &mut c.random);
        }
        let first = damaged.first().map_or(Ok(()), |&first| Err(self.breaks()[first]));
        c.make_so(what, &input, first)
    }

    /// Whether the symbol of an index is given more than once.
    fn has_copies(&self, index: usize) -> bool {
        self.symbols.iter().filter(|&&other| other == self.symbols[index]).count() > 1
    }

    /// The position of the first member whose path ends at a symbol of layer 0.
    fn position_under(&self, top: usize) -> Option<usize> {
        let end = |member: usize| match self.head.layer {
            0 => member,
            _ => member % data_symbols(0),
        };
        let withheld = Some(&self.head.withheld).filter(|_| self.head.layer > 0);
        self.given.iter().chain(withheld).position(|&member| end(member) == top)
    }
}

/// Compares with proofs of equations of these sizes, the withheld member first, in the
/// middle and last among the members, in each layer of each depth.
fn each_proof(
    c: &mut Comparisons,
    sizes: impl IntoIterator<Item = usize>,
    compare: impl Fn(&mut Comparisons, &Proof) -> Compared,
) -> Compared {
    if c.is_deep() {
        return each_deep_proof(c, sizes, compare);
    }
    for size in sizes {
        for (depth, layer) in c.sizes.iter().flat_map(|&depth| (0..depth).map(move |l| (depth, l)))
        {
            // The first equations of layer 0 have room for fewer members.
            let equation = 3 + c.random.below(3 * data_symbols(layer) - 3);
            let last = data_symbols(layer) + equation;
            let words = table_of(depth, size);
            let volume = Volume::miscoded(depth, &words, &[(layer, last)], &mut c.random);
            let members = &volume.equations[layer][equation];
            assert_eq!(members.len(), size);
            for withheld in [0, size / 2, size - 1].map(|place| members[place]) {
                compare(c, &Proof::new(&volume, Head { layer, equation, withheld }))?;
            }
        }
    }
    Ok(())
}

/// The same of deep depths: one tree for a size, with a fault in each layer, and one of the
/// withheld members.
fn each_deep_proof(
    c: &mut Comparisons,
    sizes: impl IntoIterator<Item = usize>,
    compare: impl Fn(&mut Comparisons, &Proof) -> Compared,
) -> Compared {
    for size in sizes {
        for &depth in c.sizes {
            let some = |layer| 3 + c.random.below(3 * data_symbols(layer) - 3);
            let equations: Vec<usize> = (0..depth).map(some).collect();
            let lasts = equations.iter().enumerate().map(|(l, e)| (l, data_symbols(l) + e));
            let lasts: Vec<(usize, usize)> = lasts.collect();
            let volume = Volume::miscoded(depth, &table_of(depth, size), &lasts, &mut c.random);
            for (layer, equation) in equations.into_iter().enumerate() {
                let members = &volume.equations[layer][equation];
                assert_eq!(members.len(), size);
                let withheld = members[[0, size / 2, size - 1][(layer + depth) % 3]];
                compare(c, &Proof::new(&volume, Head { layer, equation, withheld }))?;
            }
        }
    }
    Ok(())
}

/// None, and each symbol. Of fewer than eight members at a deep depth, those of the withheld
/// one's path.
pub fn damaged_symbols(c: &mut Comparisons) -> Compared {
    each_proof(c, 2..=MOST, |c, proof| {
        proof.make(c, "nothing damaged", &[])?;
        let all = proof.symbols.len();
        let path = all - proof.head.layer..all;
        let some = c.is_deep() && proof.given.len() + 1 < MOST;
        for index in if some { path } else { 0..all } {
            proof.make(c, "a symbol damaged", &[index])?;
            if proof.has_copies(index) {
                c.met.outcomes.count("one of some copies");
            }
        }
        Ok(())
    })
}

/// Each symbol with one before it: of the same path, and of another.
pub fn damaged_pairs(c: &mut Comparisons) -> Compared {
    let sizes = if c.is_deep() { vec![MOST] } else { vec![4, MOST] };
    each_proof(c, sizes, |c, proof| {
        let depth = proof.input.number("depth") as usize;
        for index in sparse(depth, proof.symbols.len()) {
            let start = index - index % (proof.head.layer + 1);
            for before in [0..start, start..index].into_iter().filter(|before| !before.is_empty()) {
                let first = before.start + c.random.below(before.len());
                proof.make(c, "two symbols damaged", &[first, index])?;
            }
        }
        Ok(())
    })
}

/// One symbol in four.
pub fn damaged_sets(c: &mut Comparisons) -> Compared {
    each_proof(c, [3, MOST], |c, proof| {
        for _ in 0..if c.is_deep() { 1 } else { 8 } {
            let all = 0..proof.symbols.len();
            let some: Vec<usize> = all.filter(|_| c.random.below(4) == 0).collect();
            proof.make(c, "some symbols damaged", &some)?;
        }
        Ok(())
    })
}

/// Each hash of the root, whether a path ends there or not.
pub fn damaged_roots(c: &mut Comparisons) -> Compared {
    let sizes = if c.is_deep() { vec![MOST] } else { vec![2, MOST] };
    each_proof(c, sizes, |c, proof| {
        // Of a deep depth each second hash.
        let step = if c.is_deep() { 2 } else { 1 };
        let first = proof.head.layer % step;
        for hash in (first..symbols(0)).step_by(step) {
            let mut input = proof.input.clone();
            damage_root(root_mut(&mut input), hash, &mut c.random);
            let position = proof.position_under(hash);
            let stop = Stop::Hash { layer: 0, position };
            c.make_so("a hash of the root", &input, position.map_or(Ok(()), |_| Err(stop)))?;
        }
        Ok(())
    })
}
