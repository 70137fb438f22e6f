//! Tables that make a search long, each for a loss: that of the first symbols of each layer, all its data symbols first.
//!
//! As many of the last equations of a layer as symbols are lost are a chain: each gives one of them, and has the one that the equation before
//! it in the chain gives. So they can be taken one after the other only: upwards, the last equation last, or downwards, the last equation
//! first. The two symbols that the chain gives last are data symbols, and every other equation has both: none of these can be taken before,
//! and then equation 0 gives the very last symbol. The first k/5 equations have all data symbols, so that the first equation of what the
//! chain gives is far from the one that can be taken next. Every equation has eight members, or all that there are for it; where that leaves
//! a choice, they are far from each other: in the chain what it has given before, then held symbols, elsewhere data symbols.

use crate::random::mixed;
use crate::search::given;
use reference::table::{data_symbols, Layers};

/// Which equation of the chain is taken first.
#[derive(Clone, Copy, Debug)]
pub enum Chain {
    Up,
    Down,
}

impl Chain {
    /// The equation that is taken as number i of a chain of so many, where a layer has so many equations.
    fn equation(self, equations: usize, lost: usize, i: usize) -> usize {
        match self {
            Chain::Up => equations - lost + i,
            Chain::Down => equations - 1 - i,
        }
    }
}

/// The most members of an equation.
const MEMBERS: usize = 8;

/// How many symbols of a layer are lost, of so many in a thousand.
pub fn lost(layer: usize, thousandths: usize) -> usize {
    4 * data_symbols(layer) * thousandths / 1000
}

/// The table of a depth for a loss of so many in a thousand.
pub fn layers(depth: usize, chain: Chain, thousandths: usize) -> Layers {
    let equations = |layer| equations(data_symbols(layer), chain, lost(layer, thousandths));
    (0..depth).map(equations).collect()
}

/// The equations of a layer of k data symbols that loses its first symbols, so many.
fn equations(k: usize, chain: Chain, lost: usize) -> Vec<Vec<usize>> {
    let order = order(k, lost);
    let keys = &order[lost.saturating_sub(2)..];
    let data: Vec<usize> = (0..k).filter(|symbol| !keys.contains(symbol)).collect();
    let data: Vec<usize> = scattered(data.len(), 0).map(|at| data[at]).collect();
    let mut equations = vec![Vec::new(); 3 * k];
    for (e, members) in equations.iter_mut().enumerate().take(3 * k - lost) {
        let new = MEMBERS - 1 - keys.len();
        let others = (new * e..new * (e + 1)).map(|at| data[at % data.len()]);
        let below = scattered(k + e, e);
        *members = filled(k + e, keys.iter().copied().chain(others).chain(below));
    }
    for i in 0..lost {
        let e = chain.equation(3 * k, lost, i);
        let before = order[i.saturating_sub(1)..=i].iter().copied();
        let earlier = scattered(i, e).map(|at| order[at]);
        let held = scattered(k + e - lost, e).map(|at| lost + at);
        equations[e] = filled(k + e, before.chain(earlier).chain(held));
    }
    equations
}

/// The lost symbols in the order in which the chain gives them.
fn order(k: usize, lost: usize) -> Vec<usize> {
    let keys = k.min(lost).saturating_sub(2)..k.min(lost);
    let others: Vec<usize> = (0..lost).filter(|symbol| !keys.contains(symbol)).collect();
    scattered(others.len(), 0).map(|at| others[at]).chain(keys).collect()
}

/// The first different ones of some members, with the last one as many as an equation may have, ascending.
fn filled(last: usize, mut some: impl Iterator<Item = usize>) -> Vec<usize> {
    let mut members = vec![last];
    while members.len() < MEMBERS {
        match some.next() {
            Some(member) if members.contains(&member) => (),
            Some(member) => members.push(member),
            None => break,
        }
    }
    members.sort_unstable();
    members
}

/// The numbers below n, each once, neighbours far from each other: by steps of the golden section, from a start by a seed.
fn scattered(n: usize, seed: usize) -> impl Iterator<Item = usize> {
    let step = (n * 618 / 1000..).find(|&step| common_divisor(n, step) == 1).unwrap_or(1);
    let start = mixed(seed as u64) as usize % n.max(1);
    (0..n).map(move |at| (start + at * step) % n)
}

fn common_divisor(a: usize, b: usize) -> usize {
    if b == 0 {
        a
    } else {
        common_divisor(b, a % b)
    }
}

/// Fails unless the tables are what is said of them above.
pub fn check() -> Result<(), String> {
    for layer in 0..9 {
        for thousandths in [124, 250, 470] {
            for chain in [Chain::Up, Chain::Down] {
                let (k, lost) = (data_symbols(layer), lost(layer, thousandths));
                if !peels_as_said(k, chain, lost) {
                    return Err(format!("{chain:?}, layer {layer}, {lost} lost: no such chain"));
                }
            }
        }
    }
    Ok(())
}

fn peels_as_said(k: usize, chain: Chain, lost: usize) -> bool {
    let (equations, order) = (equations(k, chain, lost), order(k, lost));
    let absent: Vec<bool> = (0..4 * k).map(|symbol| symbol < lost).collect();
    let given = given(&equations, &absent);
    let by_chain = (0..lost - 1).map(|i| (chain.equation(3 * k, lost, i), order[i]));
    let in_order = by_chain.chain([(0, order[lost - 1])]);
    let as_given = given.iter().map(|given| (given.equation, given.symbol));
    // The one before the last opens all that are not of the chain.
    let one_by_one = given.iter().take(lost.saturating_sub(2)).all(|given| given.opened == 1);
    let low = &equations[..(k + 4) / 5];
    let low_data = (0..k).all(|symbol| low.iter().any(|members| members.contains(&symbol)));
    let full = |e: usize, below: usize| equations[e].len() == MEMBERS.min(below + 1);
    // In the chain, what it has given so far, what it gives, and what is held.
    let in_chain = |i: usize| (chain.equation(3 * k, lost, i), i + 1);
    let full_chain = (0..lost).map(in_chain).all(|(e, given)| full(e, given + k + e - lost));
    let full_others = (0..3 * k - lost).all(|e| full(e, k + e));
    as_given.eq(in_order) && one_by_one && low_data && full_chain && full_others
}
