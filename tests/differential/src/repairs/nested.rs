//! Repairs of one volume, all that they hold taken from its tree, of which each holds what the one
//! before does, and more: CR 12.

pub mod property;
mod sets;

use super::{lose, of};
use crate::comparisons::{of_kind, Comparisons};
use crate::difference::{Compared, Failure};
use crate::input::Input;
use crate::random::Random;
use crate::tables::lists::{chained, random_table, Links, LINKS};
use crate::volumes::Volume;
use property::{alone, is_of, is_within, of_turns, of_two, Broken, Made};
use reference::kind::KINDS;
use reference::repair::End;
use reference::table::house;
use reference::tree::{block_len, place, symbol_at, SYMBOL};

/// What can come of two repairs, and the first depth at which it can.
const CASES: [(&str, usize); 8] = [
    ("more held, then whole", 1),
    ("more held, then misfilled", 1),
    ("more held, then deeper", 2),
    ("more held, fewer missing", 1),
    ("more held, the same missing", 1),
    ("more held, still whole", 1),
    ("more held, still misfilled", 1),
    ("the same held", 1),
];

/// Series of repairs at each depth, each asked for what it promises. All that can come of two
/// must come at each depth and of each kind.
pub fn more_held(c: &mut Comparisons) -> Compared {
    for &depth in c.sizes {
        for turn in 0..series_at(depth) {
            let mut random = Random::new(c.random.next());
            let make = |input: &Input| c.make_at("more and more held", input, |_| None);
            let series = Series::made(depth, turn, &mut random, make)?;
            assert_eq!(series.broken(), [], "turn {turn} at depth {depth}");
            series.pairs().for_each(|(first, second)| c.count(case(first, second), &first.before));
        }
        for (case, _) in CASES.into_iter().filter(|&(_, from)| depth >= from) {
            for kind in KINDS {
                c.met.at_sizes.demand(&of_kind(case, depth, kind), 1);
            }
        }
    }
    Ok(())
}

/// How many series there are at a depth: one for each kind and filling, or, of a shallow depth,
/// more.
pub fn series_at(depth: usize) -> usize {
    4 * (64 >> depth).max(1)
}

/// Repairs of a volume, in their order; and repairs in turns, each of what the one before left and
/// of what the repair in its place was lent.
pub struct Series {
    volume: Volume,
    repairs: Vec<Made>,
    in_turns: Vec<Made>,
}

impl Series {
    /// Those by a repairer, which gives what it left and its result. The kinds, fillings, tables
    /// and ways to hold more come in turn.
    pub fn made(
        depth: usize,
        turn: usize,
        random: &mut Random,
        mut repairer: impl FnMut(&Input) -> Result<(Input, u64), Failure>,
    ) -> Result<Series, Failure> {
        let (words, links) = table(depth, turn, random);
        let volume = filled(depth, turn, &words, random);
        let sets = sets::nested(&volume, links, turn / 4, random);
        assert!(sets.windows(2).all(|two| is_within(&two[0], &two[1])));
        let mut made = |before: Input| -> Result<Made, Failure> {
            let (after, result) = repairer(&before)?;
            Ok(Made { before, after, result })
        };
        let (mut repairs, mut in_turns) = (Vec::new(), Vec::new());
        for marks in sets {
            let before = lent(&volume, &marks, random);
            assert!(before["marks"] == marks && is_of(&volume.tree, &before));
            repairs.push(made(before)?);
            let left = in_turns.last().unwrap_or(&repairs[0]);
            in_turns.push(made(brought(&volume, &marks, left))?);
        }
        Ok(Series { volume, repairs, in_turns })
    }

    /// The promises that they don't keep.
    pub fn broken(&self) -> Vec<Broken> {
        let all = self.repairs.iter().chain(&self.in_turns);
        let alone = all.flat_map(|made| alone(&self.volume, made));
        let of_two = self.pairs().flat_map(|(first, second)| of_two(first, second));
        let in_turns = self.repairs.iter().zip(&self.in_turns);
        let in_turns = in_turns.flat_map(|(at_once, in_turns)| of_turns(at_once, in_turns));
        alone.chain(of_two).chain(in_turns).collect()
    }

    /// Each two, the one that holds less first.
    fn pairs(&self) -> impl Iterator<Item = (&Made, &Made)> {
        let all = self.repairs.iter().enumerate();
        all.flat_map(move |(at, first)| self.repairs[at + 1..].iter().map(move |s| (first, s)))
    }
}

/// The house table, a random one, or one of links.
fn table(depth: usize, turn: usize, random: &mut Random) -> (Vec<u32>, Option<Links>) {
    match (turn + depth) % 3 {
        0 => (house(depth), None),
        1 => (random_table(depth, random), None),
        _ => {
            let links = LINKS[random.below(LINKS.len())];
            (chained(depth, links), Some(links))
        }
    }
}

/// A volume that is filled up with zeros, or with another byte among them. Of one in eight that
/// is all.
fn filled(depth: usize, turn: usize, words: &[u32], random: &mut Random) -> Volume {
    let mut filling = match random.below(8) {
        0 => vec![0; block_len(depth)],
        _ => vec![0; 1 + random.below(block_len(depth))],
    };
    if turn / 2 % 2 == 1 {
        let other = random.below(filling.len());
        filling[other] = 1 + random.below(255) as u8;
    }
    Volume::filled_with(KINDS[turn % 2], depth, words, &filling, random)
}

/// What a repair is lent that holds these. At the other places stands anything.
fn lent(volume: &Volume, marks: &[u8], random: &mut Random) -> Input {
    let mut input = of(volume, random);
    for (layer, symbol) in volume.all_symbols() {
        if marks[place(layer, symbol)] == 0 {
            lose(&mut input, layer, symbol, random);
        }
    }
    input
}

/// What a repair left, with these brought besides.
fn brought(volume: &Volume, marks: &[u8], left: &Made) -> Input {
    let mut input = left.after.clone();
    for place in (0..marks.len()).filter(|&place| marks[place] == 1) {
        input["marks"][place] = 1;
        let bytes = &mut input["tree"][SYMBOL * place..SYMBOL * (place + 1)];
        bytes.copy_from_slice(symbol_at(&volume.tree, place));
    }
    input
}

/// What came of two repairs.
fn case(first: &Made, second: &Made) -> &'static str {
    use End::{Misfilled, Unavailable, Whole};
    let ends = [first, second].map(|made| made.end().expect("an end"));
    match ends {
        _ if first.before["marks"] == second.before["marks"] => "the same held",
        [Unavailable(_), Whole] => "more held, then whole",
        [Unavailable(_), Misfilled] => "more held, then misfilled",
        [Unavailable(one), Unavailable(other)] if one < other => "more held, then deeper",
        [Unavailable(one), _] if first.left(one) == second.left(one) => {
            "more held, the same missing"
        }
        [Unavailable(_), _] => "more held, fewer missing",
        [Whole, _] => "more held, still whole",
        [Misfilled, _] => "more held, still misfilled",
        ends => panic!("{ends:?} can't come"),
    }
}
