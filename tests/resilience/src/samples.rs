//! Samples: which of them show that a symbol is withheld, and how many are needed to see it.

use crate::layer::Layer;
use crate::set::Set;
use reference::sample::members;
use reference::tree::symbols;

/// How sure a sampler wants to be.
const CONFIDENCE: f64 = 0.99;

/// For each symbol of a layer, the base symbols whose samples have it.
pub fn showing(depth: usize, layer: usize) -> Vec<Set> {
    let mut showing = vec![Set::default(); Layer::house(layer).symbols];
    for number in 0..symbols(depth - 1) {
        for (_, symbol) in members(depth, number).into_iter().filter(|&(at, _)| at == layer) {
            showing[symbol] = showing[symbol].with(number);
        }
    }
    showing
}

/// The samples that show a withheld set with the wanted confidence, where each shows it with this chance: source document 003, with replacement.
pub fn needed(chance: f64) -> i32 {
    (0..).find(|&taken| (1.0 - chance).powi(taken) <= 1.0 - CONFIDENCE).expect("a number")
}

/// The same for different samples, where so many of `all` show it.
pub fn needed_different(show: usize, all: usize) -> usize {
    let mut unseen = 1.0;
    for taken in 0..=all - show {
        if unseen <= 1.0 - CONFIDENCE {
            return taken;
        }
        unseen *= (all - show - taken) as f64 / (all - taken) as f64;
    }
    all - show + 1
}

#[cfg(test)]
mod tests {
    use super::*;

    /// Section 6 of 003: 35 samples where 12.4 % are withheld, 8 where 47 % are.
    #[test]
    fn as_in_003() {
        assert_eq!((needed(0.124), needed(0.47)), (35, 8));
    }

    #[test]
    fn different_samples() {
        // One of four: each must be looked at. Two of four: three.
        assert_eq!((needed_different(1, 4), needed_different(2, 4)), (4, 3));
        assert_eq!(needed_different(4, 4), 1);
        assert!(needed_different(7, 256) < needed(7.0 / 256.0) as usize);
    }

    #[test]
    fn a_base_symbol_is_in_its_own_sample_only() {
        for depth in 1..=5 {
            let showing = showing(depth, depth - 1);
            assert!(showing
                .iter()
                .enumerate()
                .all(|(number, &set)| set == Set::default().with(number)));
        }
    }
}
