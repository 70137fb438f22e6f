//! What a repair takes in a layer, by its equations and its gaps alone: without symbols, hashes and a clock.

use std::cmp::Reverse;
use std::collections::BinaryHeap;

/// The members of each equation of a layer.
pub type Equations = [Vec<usize>];

/// A layer with gaps.
struct Gaps<'a> {
    equations: &'a Equations,
    /// Which symbols are absent.
    absent: Vec<bool>,
    /// The equations of each symbol, ascending.
    of_symbol: Vec<Vec<usize>>,
    /// How many members of each equation are absent.
    lacks: Vec<usize>,
}

impl Gaps<'_> {
    fn new<'a>(equations: &'a Equations, absent: &[bool]) -> Gaps<'a> {
        let mut of_symbol = vec![Vec::new(); absent.len()];
        let mut lacks = vec![0; equations.len()];
        for (e, members) in equations.iter().enumerate() {
            for &member in members {
                of_symbol[member].push(e);
                lacks[e] += usize::from(absent[member]);
            }
        }
        Gaps { equations, absent: absent.to_vec(), of_symbol, lacks }
    }

    /// What an equation that lacks at most one member gives.
    fn gives(&self, e: usize) -> Option<usize> {
        self.equations[e].iter().copied().find(|&member| self.absent[member])
    }

    /// Stores a symbol, and gives the equations that can be taken by that.
    fn store(&mut self, symbol: usize) -> Vec<usize> {
        self.absent[symbol] = false;
        let Gaps { of_symbol, lacks, .. } = self;
        of_symbol[symbol].iter().for_each(|&e| lacks[e] -= 1);
        of_symbol[symbol].iter().copied().filter(|&e| lacks[e] == 1).collect()
    }
}

/// An equation that gives a symbol, and how many others can be taken by that.
#[derive(Debug, PartialEq, Eq)]
pub struct Given {
    pub equation: usize,
    pub symbol: usize,
    pub opened: usize,
}

/// The equations that give a symbol, in the order of 01's step (b).
pub fn given(equations: &Equations, absent: &[bool]) -> Vec<Given> {
    let mut gaps = Gaps::new(equations, absent);
    let ready = (0..equations.len()).filter(|&e| gaps.lacks[e] <= 1);
    let mut ready: BinaryHeap<_> = ready.map(Reverse).collect();
    let mut given = Vec::new();
    while let Some(Reverse(equation)) = ready.pop() {
        if let Some(symbol) = gaps.gives(equation) {
            let open = gaps.store(symbol);
            given.push(Given { equation, symbol, opened: open.len() });
            ready.extend(open.into_iter().map(Reverse));
        }
    }
    given
}

/// The equations that a search looks at, some of them often, that goes on after a store at the first equation with the stored symbol.
pub fn looked_at(equations: &Equations, absent: &[bool]) -> usize {
    let mut gaps = Gaps::new(equations, absent);
    let mut used = vec![false; equations.len()];
    let (mut e, mut looked_at) = (0, 0);
    while e < equations.len() {
        looked_at += 1;
        if !used[e] && gaps.lacks[e] <= 1 {
            used[e] = true;
            if let Some(symbol) = gaps.gives(e) {
                gaps.store(symbol);
                e = gaps.of_symbol[symbol][0];
                continue;
            }
        }
        e += 1;
    }
    looked_at
}
