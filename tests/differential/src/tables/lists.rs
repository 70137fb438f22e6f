//! Lists of words: random tables, and tables that are damaged.

use super::uses::{cover, uncover};
use crate::random::Random;
use reference::cover::covered;
use reference::table::{data_symbols, house, listed, word, write, Layers};
use reference::table::{END, EQUATION, LAYER, MEMBER};

pub const WORD_KINDS: [u32; 4] = [MEMBER, LAYER, EQUATION, END];

const VALUE: u32 = (1 << 30) - 1;

/// So many symbols that a shuffle of all takes long.
const MANY: usize = 256;

/// So many different numbers below a limit that is far larger.
fn some_below(limit: usize, number: usize, random: &mut Random) -> Vec<usize> {
    let mut some = Vec::new();
    while some.len() < number {
        let one = random.below(limit);
        if !some.contains(&one) {
            some.push(one);
        }
    }
    some
}

/// A table that is taken, each equation of 2 to 8 members.
pub fn random_table(depth: usize, random: &mut Random) -> Vec<u32> {
    let mut layers = layers_by(depth, |_, last| {
        let others = 1 + random.below(7.min(last));
        if last >= MANY {
            return some_below(last, others, random);
        }
        let mut members: Vec<usize> = (0..last).collect();
        // The first `others` of a shuffle.
        for i in 0..others {
            let j = i + random.below(last - i);
            members.swap(i, j);
        }
        members.truncate(others);
        members
    });
    cover(&mut layers, random);
    write(&layers)
}

/// The house table or a random one, which are taken.
pub fn some_table(depth: usize, random: &mut Random) -> Vec<u32> {
    match random.below(2) {
        0 => house(depth),
        _ => random_table(depth, random),
    }
}

/// The equations of such a table.
pub fn some_equations(depth: usize, random: &mut Random) -> Layers {
    listed(depth as u64, &some_table(depth, random)).expect("a table")
}

/// Such a table, or, one time in eight, one that is not covered.
pub fn any_table(depth: usize, random: &mut Random) -> Vec<u32> {
    let words = some_table(depth, random);
    perhaps_uncovered(depth, words, random)
}

/// A table of a depth, or, one time in eight, the same with a data symbol in too
/// few equations.
pub fn perhaps_uncovered(depth: usize, words: Vec<u32>, random: &mut Random) -> Vec<u32> {
    match random.below(8) {
        0 => {
            let mut layers = listed(depth as u64, &words).expect("a table");
            uncover(&mut layers, random);
            write(&layers)
        }
        _ => words,
    }
}

/// Another table that is taken, of as many words: one member is another.
pub fn another_of_as_many_words(depth: usize, words: &[u32], random: &mut Random) -> Vec<u32> {
    let layers = listed(depth as u64, words).expect("a table");
    loop {
        let (mut other, layer) = (layers.clone(), random.below(depth));
        let equation = random.below(layers[layer].len());
        let members = &mut other[layer][equation];
        let last = members.len() - 1;
        let (at, member) = (random.below(last), random.below(members[last]));
        if !members.contains(&member) {
            members[at] = member;
            members.sort_unstable();
            if covered(&other).is_ok() {
                return write(&other);
            }
        }
    }
}

/// A table in which each equation has `size` members, or as many as there can
/// be, from one of the data symbols on, each in turn: taken where that is 2 to 8.
pub fn table_of(depth: usize, size: usize) -> Vec<u32> {
    write(&layers_by(depth, |k, last| {
        (0..last.min(size - 1)).map(|more| (last % k + more) % last).collect()
    }))
}

/// A table in which each data symbol is in three equations of two members, the last more than k
/// above the one before.
pub fn paired(depth: usize) -> Vec<u32> {
    write(&layers_by(depth, |k, last| match last / k {
        2 => vec![(last + 1) % k],
        _ => vec![last % k],
    }))
}

/// An order of equations by its name: the equation of each link of a layer of k data symbols.
pub type Links = (&'static str, fn(usize, usize) -> usize);

/// Each link makes the next one takeable: a lower equation, a far one above it or below it in
/// turn, a higher one behind equations that wait for the last.
pub const LINKS: [Links; 4] = [
    ("each lower", |k, i| k - 1 - i),
    ("each lower from the far end", |k, i| 3 * k - 1 - i),
    ("far ones in turn", |k, i| if i % 2 == 0 { i / 2 } else { 3 * k - 1 - i / 2 }),
    ("each higher at the far end", |k, i| 2 * k + i),
];

/// A table whose data symbols, where all are absent and all parity is held, can be formed in
/// one order alone: the first by its own link, each other by the link that it shares with the
/// one before it. All other equations wait for the last three.
pub fn chained(depth: usize, (_, link): Links) -> Vec<u32> {
    let layers = (0..depth).map(|layer| {
        let k = data_symbols(layer);
        let mut equations: Vec<Vec<usize>> =
            (0..3 * k).map(|e| vec![k - 3, k - 2, k - 1, k + e]).collect();
        for i in 0..k {
            let e = link(k, i);
            equations[e] = (i.saturating_sub(1)..=i).chain([k + e]).collect();
        }
        equations
    });
    write(&layers.collect::<Layers>())
}

/// The equations with the members that `others` gives for the layer's k and the
/// last member, and the last one.
fn layers_by(depth: usize, mut others: impl FnMut(usize, usize) -> Vec<usize>) -> Layers {
    let mut layers = Vec::new();
    for layer in 0..depth {
        let k = data_symbols(layer);
        let mut equations = Vec::new();
        for e in 0..3 * k {
            let mut members = others(k, k + e);
            members.push(k + e);
            members.sort_unstable();
            equations.push(members);
        }
        layers.push(equations);
    }
    layers
}

/// The list with the word at a place altered in each way, with its name.
pub fn alterations(words: &[u32], at: usize) -> Vec<(&'static str, Vec<u32>)> {
    let here = words[at];
    let (kind, value) = (here >> 30, here & VALUE);
    let mut altered = Vec::new();
    for other in WORD_KINDS {
        altered.push(("another kind", with(words, at, word(other, value as usize))));
    }
    for other in [value.wrapping_sub(1) & VALUE, (value + 1) & VALUE, 0, VALUE] {
        altered.push(("another value", with(words, at, word(kind, other as usize))));
    }
    for bit in [8, 16, 29] {
        altered.push(("a bit of the value", with(words, at, here ^ 1 << bit)));
    }
    altered.push(("a word left out", [&words[..at], &words[at + 1..]].concat()));
    altered.push(("a word doubled", [&words[..at], &[here], &words[at..]].concat()));
    if at + 1 < words.len() {
        let mut swapped = words.to_vec();
        swapped.swap(at, at + 1);
        altered.push(("two words swapped", swapped));
    }
    altered
}

fn with(words: &[u32], at: usize, by: u32) -> Vec<u32> {
    let mut altered = words.to_vec();
    altered[at] = by;
    altered
}

/// The list with several random alterations, one after the other.
pub fn random_damage(words: &[u32], damages: usize, random: &mut Random) -> Vec<u32> {
    let mut damaged = words.to_vec();
    for _ in 0..damages {
        let at = random.below(damaged.len());
        let mut ways = alterations(&damaged, at);
        let way = random.below(ways.len() + 1);
        damaged = match way.checked_sub(1) {
            Some(way) => ways.swap_remove(way).1,
            None => with(&damaged, at, random.next() as u32),
        };
    }
    damaged
}

#[cfg(test)]
mod tests {
    use super::*;
    use crate::stops::{turns, DEEP, DEPTHS};
    use reference::stop::Stop;
    use reference::table::{check_bytes, to_bytes};
    use std::collections::BTreeSet;

    fn taken(depth: usize, words: &[u32]) -> Result<(), Stop> {
        check_bytes(depth as u64, &to_bytes(words))
    }

    #[test]
    fn tables_are_taken() {
        for depth in DEPTHS {
            for size in 2..=8 {
                assert_eq!(taken(depth, &table_of(depth, size)), Ok(()), "{size} members");
            }
            for seed in 0..turns(depth, 256) {
                let words = random_table(depth, &mut Random::new(seed as u64));
                assert_eq!(taken(depth, &words), Ok(()));
            }
            for links in LINKS {
                assert_eq!(taken(depth, &chained(depth, links)), Ok(()), "{}", links.0);
            }
            assert_eq!(taken(depth, &paired(depth)), Ok(()));
        }
    }

    #[test]
    fn tables_of_as_many_words() {
        let mut random = Random::new(61);
        for depth in DEPTHS {
            for words in [house(depth), table_of(depth, 2), random_table(depth, &mut random)] {
                let other = another_of_as_many_words(depth, &words, &mut random);
                assert_eq!((other.len(), taken(depth, &other)), (words.len(), Ok(())));
                assert_ne!(other, words);
            }
        }
    }

    /// Each layer's chain has a link for each data symbol, in an equation of its own.
    #[test]
    fn links_are_different_equations() {
        for k in DEPTHS.map(|depth| data_symbols(depth - 1)) {
            for (name, link) in LINKS {
                let links: BTreeSet<usize> = (0..k).map(|i| link(k, i)).collect();
                assert!(links.len() == k && links.iter().all(|&e| e < 3 * k), "{name}, {k}");
            }
        }
    }

    #[test]
    fn one_table_in_eight_is_not_covered() {
        let mut random = Random::new(6);
        let uncovered = |depth: usize| {
            let result = taken(depth, &any_table(depth, &mut random));
            assert!(matches!(result, Ok(()) | Err(Stop::Uncovered { .. })));
            result.is_err()
        };
        let uncovered = (1..DEEP).cycle().take(800).map(uncovered).filter(|&uncovered| uncovered);
        assert!((70..130).contains(&uncovered.count()));
    }
}
