//! Repair, written from the sections "Repair" and "What stops a call" of 01 and
//! from CRs 5 and 7 of 02.

use crate::kind::Kind;
use crate::proof::{self, Head, HEAD};
use crate::record::{self, RECORD};
use crate::stop::Stop;
use crate::table::{self, byte_length, layers_of, Layers};
use crate::tree::{base_data, committed_hash, exactly, exclusive_or, marks_in_form, place};
use crate::tree::{symbol_at, symbols, tree_symbols, Symbol, HASH, SYMBOL};
use std::collections::BTreeSet;

/// How a repair ends.
#[derive(Clone, Copy, Debug, PartialEq, Eq)]
pub enum End {
    Whole,
    /// With the bytes of the proof.
    Fault(usize),
    /// With the layer.
    Unavailable(usize),
    /// With the layer and the number of the place, where the hash covers that.
    Twins(Option<(usize, usize)>),
    /// As whole, but what fills up the block is not zero.
    Misfilled,
}

/// An end, with the number of symbols that were stored.
#[derive(Clone, Copy, Debug, PartialEq, Eq)]
pub struct Repaired {
    pub end: End,
    pub stored: usize,
}

/// The bytes of the output buffer of a depth.
pub fn output_len(depth: usize) -> usize {
    HEAD + SYMBOL * (8 * depth - 1)
}

/// Repairs a tree as far as it can be.
pub fn repair(
    depth: u64,
    record: &[u8],
    table: &[u8],
    tree: &mut [u8],
    marks: &mut [u8],
    output: &mut [u8],
) -> Result<Repaired, Stop> {
    let layers = layers_of(depth)?;
    exactly(record.len(), RECORD)?;
    byte_length(table)?;
    exactly(tree.len(), SYMBOL * tree_symbols(layers))?;
    exactly(marks.len(), tree_symbols(layers))?;
    exactly(output.len(), output_len(layers))?;
    let head = record::Head::read(layers, record)?;
    let equations = table::equations(depth, table)?;
    head.names(table)?;
    marks_in_form(marks)?;

    let root = record::root(record);
    let (kind, hash) = (head.kind, Kind::hash);
    let mut repair = Repair { kind, hash, root, tree, marks, output, stored: 0 };
    let end = repair.ended(&equations, head.length);
    Ok(Repaired { end, stored: repair.stored })
}

fn zero(bytes: &[u8]) -> bool {
    bytes.iter().all(|&byte| byte == 0)
}

/// For each of so many symbols the equations that it is a member of.
fn equations_with(symbols: usize, equations: &[Vec<usize>]) -> Vec<Vec<usize>> {
    let mut with = vec![Vec::new(); symbols];
    for (equation, members) in equations.iter().enumerate() {
        members.iter().for_each(|&member| with[member].push(equation));
    }
    with
}

struct Repair<'a> {
    kind: Kind,
    /// The hash of a symbol, given its layer and its number. Only a test has another than that of
    /// the kind.
    hash: fn(Kind, usize, usize, &[u8]) -> [u8; HASH],
    root: &'a [u8],
    tree: &'a mut [u8],
    marks: &'a mut [u8],
    output: &'a mut [u8],
    stored: usize,
}

impl Repair<'_> {
    /// The end, where the block has so many bytes.
    fn ended(&mut self, equations: &Layers, length: usize) -> End {
        match self.run(equations) {
            End::Whole if !zero(&base_data(equations.len(), self.tree)[length..]) => End::Misfilled,
            end => end,
        }
    }

    /// Layers from the top.
    fn run(&mut self, equations: &Layers) -> End {
        for (layer, equations) in equations.iter().enumerate() {
            self.sweep(layer);
            if let Some(end) = self.peel(layer, equations) {
                return end;
            }
        }
        End::Whole
    }

    /// Step (a).
    fn sweep(&mut self, layer: usize) {
        for symbol in 0..symbols(layer) {
            if self.held(layer, symbol) && !self.fits(layer, symbol, self.symbol(layer, symbol)) {
                self.marks[place(layer, symbol)] = 0;
            }
            if !self.held(layer, symbol) {
                self.symbol_mut(layer, symbol).fill(0);
            }
        }
    }

    /// Steps (b) and (c): how the repair ends in this layer, if it does. The equations that
    /// can be taken are kept in a set, whose lowest is taken. Only an equation with a symbol
    /// that was just stored can come into it; none leaves it untaken.
    fn peel(&mut self, layer: usize, equations: &[Vec<usize>]) -> Option<End> {
        let with = equations_with(symbols(layer), equations);
        let mut used = vec![false; equations.len()];
        let all = 0..equations.len();
        let mut takeable: BTreeSet<usize> =
            all.filter(|&e| self.takeable(layer, &equations[e])).collect();
        while let Some(&equation) = takeable.iter().next() {
            takeable.remove(&equation);
            used[equation] = true;
            let members = &equations[equation];
            let absent = self.absent(layer, members);
            if let Some(end) = self.take(layer, equation, members) {
                return Some(end);
            }
            let changed = absent.iter().flat_map(|&stored| with[stored].iter().copied());
            takeable.extend(changed.filter(|&e| !used[e] && self.takeable(layer, &equations[e])));
        }
        let gaps = (0..symbols(layer)).any(|symbol| !self.held(layer, symbol));
        gaps.then_some(End::Unavailable(layer))
    }

    /// Whether at most one of these members is absent.
    fn takeable(&self, layer: usize, members: &[usize]) -> bool {
        self.absent(layer, members).len() <= 1
    }

    /// Takes an equation: how the repair ends with it, if it does.
    fn take(&mut self, layer: usize, equation: usize, members: &[usize]) -> Option<End> {
        if let Some(&absent) = self.absent(layer, members).first() {
            let formed = self.others(layer, members, absent);
            if !self.fits(layer, absent, &formed) {
                return Some(self.fault(Head { layer, equation, withheld: absent }, members));
            }
            self.symbol_mut(layer, absent).copy_from_slice(&formed);
            self.marks[place(layer, absent)] = 1;
            self.stored += 1;
            return None;
        }
        let last = members[members.len() - 1];
        let others = self.others(layer, members, last);
        if others == self.symbol(layer, last) {
            None
        } else if self.fits(layer, last, &others) {
            Some(self.twins(layer, last, &others))
        } else {
            Some(self.fault(Head { layer, equation, withheld: last }, members))
        }
    }

    fn fault(&mut self, head: Head, members: &[usize]) -> End {
        let proof = proof::write(head, members, self.tree);
        self.output[..proof.len()].copy_from_slice(&proof);
        End::Fault(proof.len())
    }

    fn twins(&mut self, layer: usize, held: usize, others: &Symbol) -> End {
        let twins = [self.symbol(layer, held), others].concat();
        self.output[..twins.len()].copy_from_slice(&twins);
        End::Twins((self.kind == Kind::Placed).then_some((layer, held)))
    }

    /// The members that are absent.
    fn absent(&self, layer: usize, members: &[usize]) -> Vec<usize> {
        members.iter().copied().filter(|&member| !self.held(layer, member)).collect()
    }

    /// The exclusive-or of the members but one.
    fn others(&self, layer: usize, members: &[usize], but: usize) -> Symbol {
        let others = members.iter().filter(|&&member| member != but);
        exclusive_or(others.map(|&member| self.symbol(layer, member)))
    }

    /// Whether bytes have the hash that is committed for a symbol.
    fn fits(&self, layer: usize, symbol: usize, bytes: &[u8]) -> bool {
        (self.hash)(self.kind, layer, symbol, bytes)
            == committed_hash(self.root, self.tree, layer, symbol)
    }

    fn held(&self, layer: usize, symbol: usize) -> bool {
        self.marks[place(layer, symbol)] == 1
    }

    fn symbol(&self, layer: usize, symbol: usize) -> &[u8] {
        symbol_at(self.tree, place(layer, symbol))
    }

    fn symbol_mut(&mut self, layer: usize, symbol: usize) -> &mut [u8] {
        let start = SYMBOL * place(layer, symbol);
        &mut self.tree[start..start + SYMBOL]
    }
}

#[cfg(test)]
mod tests;
