//! What docs/FORMAT.md says of the symbols of a layer that is coded by the
//! house table, whatever its data is.

use reference::table::{data_symbols, house_equation, MAX_DEPTH};
use std::collections::{BTreeMap, BTreeSet};

/// For each symbol of a layer the set of data symbols that it is the
/// exclusive-or of.
fn sums(k: usize) -> Vec<BTreeSet<usize>> {
    let mut sums: Vec<BTreeSet<usize>> = (0..k).map(|data| BTreeSet::from([data])).collect();
    for e in 0..3 * k {
        let members = house_equation(k, e);
        let others = members[..members.len() - 1].iter();
        sums.push(others.fold(BTreeSet::new(), |sum, &member| &sum ^ &sums[member]));
    }
    sums
}

#[test]
fn zero_symbols_and_equal_ones() {
    for k in (0..MAX_DEPTH as usize).map(data_symbols) {
        let mut alike: BTreeMap<BTreeSet<usize>, Vec<usize>> = BTreeMap::new();
        for (symbol, sum) in sums(k).into_iter().enumerate() {
            alike.entry(sum).or_default().push(symbol);
        }
        assert_eq!(alike[&BTreeSet::new()], [2 * k - 1, 3 * k - 1, 4 * k - 1]);
        let mut pairs: Vec<&Vec<usize>> = alike.values().filter(|pair| pair.len() == 2).collect();
        pairs.sort();
        assert_eq!(pairs, [&[k + 1, 2 * k], &[k + 2, 3 * k], &[2 * k + 2, 3 * k + 1]]);
        assert_eq!(alike.values().filter(|symbols| symbols.len() > 2).count(), 1);
    }
}
