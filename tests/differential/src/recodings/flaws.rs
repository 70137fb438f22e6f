//! Test 14, that a repair of the tree would end whole with nothing stored: asked of the buffers
//! themselves, without the steps of a repair.

use super::of;
use crate::call::{Sorts, Test, TEST};
use crate::input::Input;
use crate::random::Random;
use crate::records::{self, head, put_kind, DEPTH};
use crate::tables::equations;
use crate::trees::tree_len;
use crate::volumes::{some_symbol, Volume};
use reference::kind::Kind;
use reference::record::{HEAD, RECORD};
use reference::stop::Stop;
use reference::table::{to_words, Layers};
use reference::tree::{base_data, block_len, committed_hash, exclusive_or};
use reference::tree::{place, symbol_at, symbols, tree_symbols};
use std::rc::Rc;

pub const NOT_WHOLE: Test = Test {
    number: 14,
    ask: |i| match Look::at(i).and_then(|look| look.flaws().next()) {
        Some(_) => Err(Stop::NotWhole),
        None => Ok(()),
    },
    spoil,
    sorts: Sorts {
        all: |depth| {
            let in_layers = (0..depth).flat_map(|layer| {
                [Flaw::Absent(layer, 0), Flaw::BadCopy(layer, 0), Flaw::Equation(layer, 0)]
            });
            let sorts = in_layers.chain([Flaw::Filling]).map(|flaw| sort(depth, flaw));
            sorts.chain([other_kind(depth)]).collect()
        },
        of: |i, _| {
            let look = Look::at(i)?;
            let first = look.flaws().next()?;
            Some(match first {
                Flaw::BadCopy(0, _) if look.is_of_other_kind() => other_kind(look.depth),
                flaw => sort(look.depth, flaw),
            })
        },
    },
    #[cfg(test)]
    wrong: super::mutants::LOOKS,
    ..TEST
};

/// What keeps a tree from being recoded, by its layer and its number there.
#[derive(Clone, Copy, Debug, PartialEq, Eq)]
pub enum Flaw {
    Absent(usize, usize),
    /// A symbol of another hash than the committed one.
    BadCopy(usize, usize),
    /// An equation that does not hold.
    Equation(usize, usize),
    Filling,
}

/// By the first flaw.
fn sort(depth: usize, flaw: Flaw) -> String {
    let flaw = match flaw {
        Flaw::Absent(layer, _) => format!("a symbol of layer {layer} is absent"),
        Flaw::BadCopy(layer, _) => format!("a symbol of layer {layer} is a bad copy"),
        Flaw::Equation(layer, _) => format!("an equation of layer {layer} fails"),
        Flaw::Filling => "other bytes than zeros fill up the block".to_string(),
    };
    format!("not whole at depth {depth}: {flaw}")
}

fn other_kind(depth: usize) -> String {
    format!("not whole at depth {depth}: its hashes are of the other kind")
}

/// A tree that is looked at.
pub struct Look<'a> {
    pub depth: usize,
    pub kind: Kind,
    length: usize,
    root: &'a [u8],
    tree: &'a [u8],
    marks: &'a [u8],
    /// None where the table is none.
    equations: Option<Rc<Layers>>,
}

impl Look<'_> {
    /// The tree that a call is lent, where nothing of it is too short and its record says a kind.
    pub fn at(input: &Input) -> Option<Look<'_>> {
        let (depth, kind) = (input.size()?, records::kind(input)?);
        let length = head(input)?.length.min(block_len(depth));
        let root = input["record"].get(HEAD..RECORD)?;
        let tree = input["tree"].get(..tree_len(depth))?;
        let marks = input["marks"].get(..tree_symbols(depth))?;
        Some(Look { depth, kind, length, root, tree, marks, equations: equations(input) })
    }

    /// All that keeps the tree from being recoded, layers from the top: absent symbols, bad copies,
    /// equations that do not hold, where there is a table; then the filling.
    pub fn flaws(&self) -> impl Iterator<Item = Flaw> + '_ {
        let in_layers = (0..self.depth).flat_map(move |layer| {
            let absent = move |symbol: &usize| self.marks[place(layer, *symbol)] == 0;
            let all = 0..symbols(layer);
            let absent = all.clone().filter(absent).map(move |symbol| Flaw::Absent(layer, symbol));
            let bad = all.filter(move |&symbol| !self.fits(self.kind, layer, symbol));
            let bad = bad.map(move |symbol| Flaw::BadCopy(layer, symbol));
            let equations = self.equations.iter().flat_map(move |layers| layers[layer].iter());
            let failing = equations.enumerate().filter(move |(_, members)| {
                let symbols = members.iter().map(|&member| self.symbol(layer, member));
                exclusive_or(symbols).iter().any(|&byte| byte != 0)
            });
            let failing = failing.map(move |(equation, _)| Flaw::Equation(layer, equation));
            absent.chain(bad).chain(failing)
        });
        let filling = base_data(self.depth, self.tree)[self.length..].iter();
        let other = filling.filter(|&&byte| byte != 0).take(1);
        in_layers.chain(other.map(|_| Flaw::Filling))
    }

    /// Whether the hashes of layer 0 are those of the other kind.
    pub fn is_of_other_kind(&self) -> bool {
        (0..symbols(0)).all(|symbol| self.fits(self.kind.other(), 0, symbol))
    }

    /// Whether a symbol has the committed hash by a kind.
    pub fn fits(&self, kind: Kind, layer: usize, symbol: usize) -> bool {
        kind.hash(layer, symbol, self.symbol(layer, symbol))
            == committed_hash(self.root, self.tree, layer, symbol)
    }

    fn symbol(&self, layer: usize, symbol: usize) -> &[u8] {
        symbol_at(self.tree, place(layer, symbol))
    }
}

/// Takes a symbol away, or changes a bit of one, or of the hashes; or lends a miscoded tree.
fn spoil(input: &mut Input, random: &mut Random) {
    let (depth, kind) = (input.number("depth") as usize, records::kind(input).expect("a kind"));
    match random.below(4) {
        0 => {
            let at = random.below(input["marks"].len());
            input["marks"][at] = 0;
        }
        1 => {
            let at = random.below(input["tree"].len());
            input["tree"][at] ^= 1 << random.below(8);
        }
        2 => put_kind(input, DEPTH, kind.other() as u32),
        _ => {
            let layer = random.below(depth);
            let fault = [(layer, some_symbol(layer, random))];
            let words = to_words(&input["table"]);
            *input = of(&Volume::miscoded_of(kind, depth, &words, &fault, random), random);
        }
    }
}
