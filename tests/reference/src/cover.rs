//! Data symbols that too few equations mention, written from CR 1 of 02.

use crate::stop::Stop;
use crate::table::data_symbols;
use std::collections::BTreeSet;

/// The equations of its layer that each data symbol must be a member of.
const LEAST: usize = 2;

/// Every data symbol of each of these layers, the top first, is a member of at
/// least two equations of its layer.
pub fn covered(layers: &[Vec<Vec<usize>>]) -> Result<(), Stop> {
    for (layer, equations) in layers.iter().enumerate() {
        let mentions = mentions(data_symbols(layer), equations);
        if let Some(symbol) = mentions.iter().position(|those| those.len() < LEAST) {
            return Err(Stop::Uncovered { layer, symbol });
        }
    }
    Ok(())
}

/// For each of the first `k` symbols of a layer, the equations that it is a
/// member of.
fn mentions(k: usize, equations: &[Vec<usize>]) -> Vec<BTreeSet<usize>> {
    let mut mentions = vec![BTreeSet::new(); k];
    for (equation, members) in equations.iter().enumerate() {
        for &data in members.iter().filter(|&&member| member < k) {
            mentions[data].insert(equation);
        }
    }
    mentions
}

#[cfg(test)]
mod tests;
