//! The cheapest stopping set of a layer, found exactly: a set of symbols of which no equation has just one.

use crate::layer::Layer;
use crate::set::Set;

/// A stopping set that is not empty, for which `cost` gives the fewest numbers. `cost` has numbers for each symbol; a set costs those of its
/// symbols, each once.
pub fn cheapest(layer: &Layer, cost: &[Set]) -> (Set, usize) {
    let mut search = Search { layer, cost, best: (Set::default(), usize::MAX) };
    let mut barred = Set::default();
    for symbol in 0..layer.symbols {
        search.from(Set::default().with(symbol), cost[symbol], barred);
        barred = barred.with(symbol);
    }
    search.best
}

/// The smallest stopping set.
pub fn smallest(layer: &Layer) -> (Set, usize) {
    let each: Vec<Set> = (0..layer.symbols).map(|symbol| Set::default().with(symbol)).collect();
    cheapest(layer, &each)
}

struct Search<'a> {
    layer: &'a Layer,
    cost: &'a [Set],
    best: (Set, usize),
}

impl Search<'_> {
    /// Looks at every stopping set that has the chosen symbols and none of the barred ones. An equation with just one chosen member needs
    /// another: each is tried, and then barred, so that no set is looked at twice.
    fn from(&mut self, chosen: Set, cost: Set, mut barred: Set) {
        if cost.len() >= self.best.1 {
            return;
        }
        let needs = |&equation: &usize| self.layer.within(equation, chosen) == 1;
        let equation = match (0..self.layer.equations.len()).find(needs) {
            Some(equation) => equation,
            None => {
                self.best = (chosen, cost.len());
                return;
            }
        };
        for &member in &self.layer.equations[equation] {
            if !chosen.has(member) && !barred.has(member) {
                self.from(chosen.with(member), cost.or(self.cost[member]), barred);
                barred = barred.with(member);
            }
        }
    }
}

#[cfg(test)]
mod tests {
    use super::*;

    fn stops(layer: &Layer, set: Set) -> bool {
        (0..layer.equations.len()).all(|equation| layer.within(equation, set) != 1)
    }

    /// Every set of symbols of the top layer.
    fn sets() -> impl Iterator<Item = Set> {
        (0..1usize << 16).map(|bits| (0..16).filter(|number| bits >> number & 1 == 1).collect())
    }

    #[test]
    fn smallest_of_all_sets() {
        let layer = Layer::house(0);
        let stopping = sets().skip(1).filter(|&set| stops(&layer, set));
        assert_eq!(smallest(&layer).1, stopping.map(Set::len).min().unwrap());
    }

    #[test]
    fn what_is_found_stops() {
        for number in 0..5 {
            let layer = Layer::house(number);
            let (set, size) = smallest(&layer);
            assert_eq!((set.len(), layer.left(set)), (size, set));
            assert!(stops(&layer, set));
        }
    }

    #[test]
    fn peeling_leaves_the_largest_stopping_set() {
        let layer = Layer::house(0);
        let mut largest = vec![Set::default(); 1 << 16];
        for (bits, set) in sets().enumerate() {
            let smaller = set.numbers().map(|number| largest[bits & !(1 << number)]);
            largest[bits] =
                if stops(&layer, set) { set } else { smaller.fold(Set::default(), Set::or) };
            assert_eq!(layer.left(set), largest[bits]);
        }
    }
    /// A data symbol, and the parity symbols between the two equations that it has in each third of a layer.
    #[test]
    fn seven_symbols_stop_each_layer_below_the_top() {
        for number in 1..5 {
            let layer = Layer::house(number);
            let k = layer.symbols / 4;
            for d in 3..k {
                let ends = [k + d, 2 * k + d, 3 * k + d];
                let runs = ends.iter().zip(1..).flat_map(|(&end, run)| end - run..end);
                let set: Set = runs.chain([d]).collect();
                assert_eq!((set.len(), stops(&layer, set)), (7, true));
            }
        }
    }
}
