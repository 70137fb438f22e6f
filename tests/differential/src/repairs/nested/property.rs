//! What repairs promise whose held symbols are all of one correctly coded tree that agrees with
//! the record: CR 12. It is asked of what calls were lent and left, of each and of each two.

use crate::input::Input;
use crate::records::head;
use crate::repairs::promises::largest_stopping_set;
use crate::results::ended;
use crate::volumes::Volume;
use reference::repair::{End, Repaired};
use reference::table::Layers;
use reference::tree::{base_data, place, symbol_at};

/// A repair: what it was lent, what it left, and its result.
pub struct Made {
    pub before: Input,
    pub after: Input,
    pub result: u64,
}

/// A promise that was not kept.
#[derive(Clone, Copy, Debug, PartialEq, Eq, PartialOrd, Ord)]
pub enum Broken {
    /// It ends whole, misfilled or unavailable.
    End,
    /// What is then held is the tree's.
    Symbol,
    /// It is unavailable in the layer that the lent marks say, or in none.
    Layer,
    /// What is then marked, and so what is missing, is as the lent marks say.
    Marks,
    /// As many are stored as the lent marks say.
    Stored,
    /// It ends misfilled, and not whole, just where what fills up the tree's block is not zero.
    Filling,
    /// What the first of two then holds the second then holds.
    Held,
    /// If the first ends whole, or misfilled, so does the second.
    Complete,
    /// Both then have one tree.
    Tree,
    /// The second does not stop in a layer nearer the root.
    Nearer,
    /// Where both stop in one layer, what the second misses the first misses.
    Missing,
    /// Two that hold the same end alike, with as many stored, and leave the same marks.
    Alike,
    /// One in turns ends as one of all at once, and leaves the same marks.
    Turns,
}

/// What lent marks and a table's equations alone say of a repair.
pub struct Foretold {
    /// The first layer that can't be completed, if there is one.
    pub layer: Option<usize>,
    /// The marks that are left.
    pub marks: Vec<u8>,
    pub stored: usize,
}

/// A layer is completed but for the largest set within its gaps that no equation meets exactly
/// once. Where that is not empty the repair stops, and leaves the layers below as they were.
pub fn foretold(equations: &Layers, lent: &[u8]) -> Foretold {
    let (mut marks, mut layer) = (lent.to_vec(), None);
    for (entered, equations) in equations.iter().enumerate() {
        let of_layer = &mut marks[places(entered)];
        let gaps = of_layer.iter().map(|&mark| mark == 0).collect();
        let missing = largest_stopping_set(equations, gaps);
        of_layer.iter_mut().zip(&missing).for_each(|(mark, &missing)| *mark = u8::from(!missing));
        if missing.contains(&true) {
            layer = Some(entered);
            break;
        }
    }
    let stored = lent.iter().zip(&marks).filter(|(before, after)| before < after).count();
    Foretold { layer, marks, stored }
}

impl Foretold {
    /// The places that are missing in the layer where the repair stops.
    pub fn missing(&self) -> Vec<usize> {
        let of_layer = self.layer.into_iter().flat_map(places);
        of_layer.filter(|&place| self.marks[place] == 0).collect()
    }
}

/// The places of a layer.
pub fn places(layer: usize) -> std::ops::Range<usize> {
    place(layer, 0)..place(layer + 1, 0)
}

/// Whether each symbol that is marked is that of a tree.
pub fn is_of(tree: &[u8], input: &Input) -> bool {
    let (marks, found) = (&input["marks"], &input["tree"]);
    let mut held = (0..marks.len()).filter(|&place| marks[place] == 1);
    held.all(|place| symbol_at(found, place) == symbol_at(tree, place))
}

/// Whether what the first of two sets of marks holds the second holds.
pub fn is_within(first: &[u8], second: &[u8]) -> bool {
    first.len() == second.len() && first.iter().zip(second).all(|(first, second)| first <= second)
}

/// Whether what fills up the tree's block is not zero.
fn is_misfilled(volume: &Volume, lent: &Input) -> bool {
    let length = head(lent).expect("a head").length;
    base_data(volume.depth, &volume.tree)[length..].iter().any(|&byte| byte != 0)
}

/// The promises that are not kept of those asked.
fn not_kept<const N: usize>(promises: [(Broken, bool); N]) -> Vec<Broken> {
    promises.into_iter().filter(|(_, kept)| !kept).map(|(promise, _)| promise).collect()
}

/// What a repair of a volume does not keep.
pub fn alone(volume: &Volume, made: &Made) -> Vec<Broken> {
    let Repaired { end, stored } = match ended(made.result) {
        Some(repaired) => repaired,
        None => return vec![Broken::End],
    };
    let layer = match end {
        End::Whole | End::Misfilled => None,
        End::Unavailable(layer) => Some(layer),
        End::Fault(_) | End::Twins(_) => return vec![Broken::End],
    };
    let foretold = foretold(&volume.equations, &made.before["marks"]);
    let misfilled = layer.is_none() && is_misfilled(volume, &made.before);
    not_kept([
        (Broken::Symbol, is_of(&volume.tree, &made.after)),
        (Broken::Layer, layer == foretold.layer),
        (Broken::Marks, made.after["marks"] == foretold.marks),
        (Broken::Stored, stored == foretold.stored),
        (Broken::Filling, (end == End::Misfilled) == misfilled),
    ])
}

impl Made {
    /// How it ended, if no test stopped it.
    pub fn end(&self) -> Option<End> {
        ended(self.result).map(|repaired| repaired.end)
    }

    /// The marks that it left in a layer, of which there may be none.
    pub fn left(&self, layer: usize) -> &[u8] {
        self.after["marks"].get(places(layer)).unwrap_or(&[])
    }
}

/// What two repairs with one record and table do not keep, of which the second holds everything
/// that the first does.
pub fn of_two(first: &Made, second: &Made) -> Vec<Broken> {
    let ends = (first.end(), second.end());
    let complete = |end| matches!(end, Some(End::Whole | End::Misfilled));
    let (nearer, among) = match ends {
        (Some(End::Unavailable(one)), Some(End::Unavailable(other))) => {
            (other < one, other != one || is_within(first.left(one), second.left(one)))
        }
        _ => (false, true),
    };
    let same = |made: fn(&Made) -> &Input| made(first)["marks"] == made(second)["marks"];
    let alike = first.result == second.result && same(|made| &made.after);
    let both = complete(ends.0) && complete(ends.1);
    not_kept([
        (Broken::Held, is_within(&first.after["marks"], &second.after["marks"])),
        (Broken::Complete, !complete(ends.0) || ends.0 == ends.1),
        (Broken::Tree, !both || first.after["tree"] == second.after["tree"]),
        (Broken::Nearer, !nearer),
        (Broken::Missing, among),
        (Broken::Alike, alike || !same(|made| &made.before)),
    ])
}

/// What a repair in turns does not keep, of one that was lent all at once.
pub fn of_turns(at_once: &Made, in_turns: &Made) -> Vec<Broken> {
    let same = at_once.after["marks"] == in_turns.after["marks"];
    not_kept([(Broken::Turns, same && at_once.end() == in_turns.end())])
}

#[cfg(test)]
mod tests {
    use super::*;
    use crate::random::Random;
    use crate::tables::lists::some_equations;
    use reference::table::{house, listed};

    /// What is foretold at depth 1 by the house table, where these are lost: the layer and what is
    /// missing, and how many are stored.
    fn without(lost: &[usize]) -> (Option<usize>, Vec<usize>, usize) {
        let equations = listed(1, &house(1)).expect("a table");
        let marks: Vec<u8> = (0..16).map(|place| u8::from(!lost.contains(&place))).collect();
        let foretold = foretold(&equations, &marks);
        (foretold.layer, foretold.missing(), foretold.stored)
    }

    /// Cases 4, 5 and 6.
    #[test]
    fn cases_of_01() {
        assert_eq!(without(&[0, 1]), (None, vec![], 2));
        let missing = vec![0, 4, 5, 6, 8, 9, 12];
        assert_eq!(without(&[0, 4, 5, 6, 8, 9, 12, 15]), (Some(0), missing, 1));
        let all: Vec<usize> = (0..16).collect();
        assert_eq!(without(&all), (Some(0), all.clone(), 0));
    }

    /// All sets within gaps that no equation meets exactly once, together.
    fn all_stopping_sets(equations: &[Vec<usize>], gaps: u32) -> u32 {
        let equations: Vec<u32> = equations
            .iter()
            .map(|members| members.iter().map(|member| 1 << member).sum())
            .collect();
        let stops = |set: &u32| equations.iter().all(|members| (members & set).count_ones() != 1);
        (0..1 << 16).filter(|set| set & !gaps == 0).filter(stops).fold(0, |all, set| all | set)
    }

    #[test]
    fn largest_sets_are_all_together() {
        let mut random = Random::new(16);
        for _ in 0..200 {
            let equations = some_equations(1, &mut random);
            let gaps: u32 = (0..16).filter(|_| random.below(8) < 5).map(|place| 1 << place).sum();
            let lent: Vec<u8> = (0..16).map(|place| u8::from(gaps >> place & 1 == 0)).collect();
            let missing = foretold(&equations, &lent).missing();
            let missing = missing.into_iter().map(|place| 1 << place).sum::<u32>();
            assert_eq!(missing, all_stopping_sets(&equations[0], gaps));
        }
    }
}
