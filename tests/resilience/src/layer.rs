//! One layer of the house table: its equations, and what peeling leaves of a loss.

use crate::set::Set;
use reference::table::{data_symbols, house_equation};

pub struct Layer {
    pub symbols: usize,
    /// The members of each equation.
    pub equations: Vec<Vec<usize>>,
    /// The equations of each symbol.
    pub of_symbol: Vec<Vec<usize>>,
}

impl Layer {
    pub fn house(layer: usize) -> Layer {
        let k = data_symbols(layer);
        let equations: Vec<_> = (0..3 * k).map(|e| house_equation(k, e)).collect();
        let mut of_symbol = vec![Vec::new(); 4 * k];
        for (e, members) in equations.iter().enumerate() {
            members.iter().for_each(|&member| of_symbol[member].push(e));
        }
        Layer { symbols: 4 * k, equations, of_symbol }
    }

    /// The members of an equation that are in a set.
    pub fn within(&self, equation: usize, set: Set) -> usize {
        self.equations[equation].iter().filter(|&&member| set.has(member)).count()
    }

    /// What is still lost when every equation that lacks one member has given it: the largest stopping set in the loss.
    pub fn left(&self, lost: Set) -> Set {
        let mut left = lost;
        let mut waiting: Vec<usize> = (0..self.equations.len()).collect();
        while let Some(equation) = waiting.pop() {
            if self.within(equation, left) != 1 {
                continue;
            }
            let members = &self.equations[equation];
            let given = members.iter().copied().find(|&member| left.has(member)).expect("a member");
            left = left.without(given);
            waiting.extend(&self.of_symbol[given]);
        }
        left
    }
}

#[cfg(test)]
mod tests {
    use super::*;

    /// Each symbol as the set of data symbols whose exclusive-or it is, a bit for each.
    fn sums(layer: usize) -> Vec<u64> {
        let k = data_symbols(layer);
        let mut sums: Vec<u64> = (0..k).map(|data| 1 << data).collect();
        for members in Layer::house(layer).equations {
            let others = members.iter().filter(|&&member| member < sums.len());
            sums.push(others.fold(0, |sum, &member| sum ^ sums[member]));
        }
        sums
    }

    #[test]
    fn three_parity_symbols_are_always_zero() {
        for layer in 0..5 {
            let k = data_symbols(layer);
            let sums = sums(layer);
            let zero: Vec<usize> = (0..4 * k).filter(|&symbol| sums[symbol] == 0).collect();
            assert_eq!(zero, [2 * k - 1, 3 * k - 1, 4 * k - 1]);
        }
    }
}
