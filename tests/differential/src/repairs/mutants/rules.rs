//! A repairer by rules that can be others than 01's.

use crate::input::Input;
use crate::library::stopped;
use crate::mutants::hashes::{self, Place, SymbolHash};
use crate::records::{head, kind};
use crate::results::repaired;
use reference::kind::Kind;
use reference::proof::{self, Head};
use reference::record;
use reference::repair::{End, Repaired};
use reference::table::{data_symbols, equations, Layers};
use reference::tree::{base_data, committed_hash, exclusive_or, place, symbol_at, symbols};
use reference::tree::{Symbol, SYMBOL};

/// Which bytes of absent symbols become zero.
#[derive(Clone, Copy, PartialEq)]
pub enum Zeroed {
    /// All those of the layer.
    All,
    None,
    /// Those that were lent absent.
    Lent,
    /// All those of the layer, and those that were lent absent below.
    Below,
}

/// What an equation can be when it is looked for.
#[derive(Clone, Copy, PartialEq)]
pub enum Taken {
    Both,
    OneAbsent,
    /// Complete ones only where no other can be taken.
    CompleteLast,
    /// Others only where no complete one can be taken.
    CompleteFirst,
}

pub struct Rules {
    /// The hash of a symbol that is held, and of one that is formed.
    pub hash: SymbolHash,
    pub formed_hash: SymbolHash,
    /// The layers that are worked through; those below are only marked.
    pub layers: usize,
    pub zeroed: Zeroed,
    /// Whether a held symbol becomes absent where its hash is wrong.
    pub bad_copies_absent: bool,
    /// Whether a symbol under mark 0 is held where its hash is right.
    pub right_bytes_held: bool,
    /// Whether gaps end the repair before any equation is taken.
    pub gaps_first: bool,
    pub taken: Taken,
    /// Whether the search goes on after the equation that stored a symbol, and
    /// comes back to equation 0 when it finds none.
    pub goes_on: bool,
    /// Whether the highest equation is taken.
    pub highest: bool,
    /// Whether a formed symbol's hash is tested.
    pub formed_tested: bool,
    /// Whether a fault's formed symbol is stored.
    pub fault_stored: bool,
    /// The member that a complete equation withholds.
    pub withheld: fn(&[usize]) -> usize,
    /// Whether the layers below an unavailable one are repaired too.
    pub past_unavailable: bool,
    /// Whether the committed hashes are those that were lent.
    pub lent_hashes: bool,
    /// How far below the equation that was taken the search begins again, and ends where it
    /// finds none; 0 is the least.
    pub back: usize,
    /// Whether it then comes back to equation 0.
    pub comes_back: bool,
    /// Whether the count of an equation's absent members, in a layer of k data symbols, is
    /// lowered when its member of this position is stored.
    pub lowered: fn(k: usize, equation: usize, position: usize) -> bool,
    /// Whether an equation of a layer of k data symbols is passed over, where so many of the
    /// layer's symbols are held when it is entered.
    pub passed_over: fn(k: usize, equation: usize, held: usize) -> bool,
    /// The bytes of the record before the root.
    pub head: usize,
    /// The bytes of the base's data that must be zero, where the block has so many bytes.
    pub filling: fn(data: &[u8], length: usize) -> &[u8],
}

pub const RULES: Rules = Rules {
    hash: hashes::RIGHT,
    formed_hash: hashes::RIGHT,
    layers: usize::MAX,
    zeroed: Zeroed::All,
    bad_copies_absent: true,
    right_bytes_held: false,
    gaps_first: false,
    taken: Taken::Both,
    goes_on: false,
    highest: false,
    formed_tested: true,
    fault_stored: false,
    withheld: |members| members[members.len() - 1],
    past_unavailable: false,
    lent_hashes: false,
    back: usize::MAX,
    comes_back: false,
    lowered: |_, _, _| true,
    passed_over: |_, _, _| false,
    head: record::HEAD,
    filling: |data, length| &data[length..],
};

/// Repairs by these rules what is not refused.
pub fn repair_by(rules: &Rules, i: &mut Input) -> u64 {
    if let Some(result) = stopped(i, i.call.tests) {
        return result;
    }
    let equations = equations(i.number("depth"), &i["table"]).expect("a table");
    let lent = i["tree"].clone();
    let (kind, length) = (kind(i).expect("a kind"), head(i).expect("a head").length);
    let [record, _, tree, marks, output] = i.all();
    let root = &record[rules.head..];
    let depth = equations.len();
    let mut work = Work { rules, kind, depth, root, lent, tree, marks, output, stored: 0 };
    let mut end = work.all_layers(&equations);
    let filling = (rules.filling)(base_data(equations.len(), work.tree), length);
    if end == End::Whole && filling.iter().any(|&byte| byte != 0) {
        end = End::Misfilled;
    }
    repaired(Ok(Repaired { end, stored: work.stored }))
}

struct Work<'a> {
    rules: &'a Rules,
    kind: Kind,
    depth: usize,
    root: &'a [u8],
    lent: Vec<u8>,
    tree: &'a mut [u8],
    marks: &'a mut [u8],
    output: &'a mut [u8],
    stored: usize,
}

impl Work<'_> {
    fn all_layers(&mut self, equations: &Layers) -> End {
        if self.rules.zeroed == Zeroed::Below {
            self.zero_lent_absent(0..self.marks.len());
        }
        let mut end = End::Whole;
        for (layer, equations) in equations.iter().enumerate() {
            if layer >= self.rules.layers {
                self.marks[place(layer, 0)..place(layer + 1, 0)].fill(1);
                continue;
            }
            self.sweep(layer);
            match self.peel(layer, equations) {
                Some(found) if end == End::Whole => end = found,
                _ => {}
            }
            let goes_past = matches!(end, End::Unavailable(_)) && self.rules.past_unavailable;
            if end != End::Whole && !goes_past {
                break;
            }
        }
        end
    }

    fn sweep(&mut self, layer: usize) {
        if self.rules.zeroed == Zeroed::Lent {
            self.zero_lent_absent(place(layer, 0)..place(layer + 1, 0));
        }
        for symbol in 0..symbols(layer) {
            let bytes = self.symbol(layer, symbol);
            let fits = self.fits(self.rules.hash, layer, symbol, bytes);
            let mark = &mut self.marks[place(layer, symbol)];
            if *mark == 1 && !fits && self.rules.bad_copies_absent {
                *mark = 0;
            } else if *mark == 0 && fits && self.rules.right_bytes_held {
                *mark = 1;
            }
            let zeroed = matches!(self.rules.zeroed, Zeroed::All | Zeroed::Below);
            if *mark == 0 && zeroed {
                self.symbol_mut(layer, symbol).fill(0);
            }
        }
    }

    fn zero_lent_absent(&mut self, places: std::ops::Range<usize>) {
        for place in places.filter(|&place| self.marks[place] == 0) {
            self.tree[SYMBOL * place..SYMBOL * (place + 1)].fill(0);
        }
    }

    fn peel(&mut self, layer: usize, equations: &[Vec<usize>]) -> Option<End> {
        let gaps = |work: &Self| work.marks[place(layer, 0)..place(layer + 1, 0)].contains(&0);
        if self.rules.gaps_first && gaps(self) {
            return Some(End::Unavailable(layer));
        }
        let (k, held) = (data_symbols(layer), self.held(layer));
        let passed_over = |equation| (self.rules.passed_over)(k, equation, held);
        let mut used: Vec<bool> = (0..equations.len()).map(passed_over).collect();
        let counts = equations.iter().map(|members| self.absent(layer, members).len());
        let mut counts: Vec<usize> = counts.collect();
        let mut from = 0;
        while let Some(equation) = self.search(&counts, &used, from) {
            used[equation] = true;
            let before = self.absent(layer, &equations[equation]);
            if let Some(end) = self.take(layer, equation, &equations[equation]) {
                return Some(end);
            }
            before.iter().for_each(|&stored| self.lower(layer, equations, &mut counts, stored));
            from = match (self.rules.goes_on && !before.is_empty(), self.rules.back) {
                (true, _) => equation + 1,
                (false, back) => equation.saturating_sub(back),
            };
        }
        gaps(self).then_some(End::Unavailable(layer))
    }

    /// How many symbols of a layer are held.
    fn held(&self, layer: usize) -> usize {
        let marks = &self.marks[place(layer, 0)..place(layer + 1, 0)];
        marks.iter().filter(|&&mark| mark == 1).count()
    }

    /// Lowers the counts of the equations with a symbol that was stored.
    fn lower(&self, layer: usize, equations: &[Vec<usize>], counts: &mut [usize], stored: usize) {
        for (equation, members) in equations.iter().enumerate() {
            if let Ok(position) = members.binary_search(&stored) {
                if (self.rules.lowered)(data_symbols(layer), equation, position) {
                    counts[equation] -= 1;
                }
            }
        }
    }

    /// The equation to take next, looked for from one on, by these counts of absent members.
    fn search(&self, counts: &[usize], used: &[bool], from: usize) -> Option<usize> {
        let absent = |e: usize| counts[e];
        let comes_back = self.rules.goes_on || self.rules.comes_back;
        let begun_again = if comes_back { 0..from } else { 0..0 };
        let order = (from..counts.len()).chain(begun_again);
        let mut order = order.filter(|&e| !used[e] && absent(e) <= 1);
        if self.rules.taken == Taken::Both && !self.rules.highest {
            return order.next();
        }
        let mut order: Vec<usize> = order.collect();
        if self.rules.highest {
            order.reverse();
        }
        let find = |wanted: usize| order.iter().copied().find(|&e| absent(e) == wanted);
        match self.rules.taken {
            Taken::Both => order.first().copied(),
            Taken::OneAbsent => find(1),
            Taken::CompleteLast => find(1).or_else(|| find(0)),
            Taken::CompleteFirst => find(0).or_else(|| find(1)),
        }
    }

    fn take(&mut self, layer: usize, equation: usize, members: &[usize]) -> Option<End> {
        let absent = self.absent(layer, members);
        let withheld = match absent.first() {
            Some(&absent) => absent,
            None => (self.rules.withheld)(members),
        };
        let formed = self.others(layer, members, withheld);
        let right = match absent.first() {
            Some(_) => {
                let hash = self.rules.formed_hash;
                !self.rules.formed_tested || self.fits(hash, layer, withheld, &formed)
            }
            None => formed == self.symbol(layer, withheld),
        };
        let head = Head { layer, equation, withheld };
        let proof = (!right).then(|| proof::write(head, members, self.tree));
        if !absent.is_empty() && (right || self.rules.fault_stored) {
            self.symbol_mut(layer, withheld).copy_from_slice(&formed);
            self.marks[place(layer, withheld)] = 1;
            self.stored += 1;
        }
        let proof = proof?;
        self.output[..proof.len()].copy_from_slice(&proof);
        Some(End::Fault(proof.len()))
    }

    fn absent(&self, layer: usize, members: &[usize]) -> Vec<usize> {
        let held = |member: usize| self.marks[place(layer, member)] == 1;
        members.iter().copied().filter(|&member| !held(member)).collect()
    }

    fn others(&self, layer: usize, members: &[usize], but: usize) -> Symbol {
        let others = members.iter().filter(|&&member| member != but);
        exclusive_or(others.map(|&member| self.symbol(layer, member)))
    }

    fn fits(&self, hash: SymbolHash, layer: usize, symbol: usize, bytes: &[u8]) -> bool {
        let place = Place { depth: self.depth, layer, number: symbol };
        let tree = if self.rules.lent_hashes { &self.lent } else { &*self.tree };
        hash(self.kind, place, bytes) == committed_hash(self.root, tree, layer, symbol)
    }

    fn symbol(&self, layer: usize, symbol: usize) -> &[u8] {
        symbol_at(self.tree, place(layer, symbol))
    }

    fn symbol_mut(&mut self, layer: usize, symbol: usize) -> &mut [u8] {
        let start = SYMBOL * place(layer, symbol);
        &mut self.tree[start..start + SYMBOL]
    }
}
