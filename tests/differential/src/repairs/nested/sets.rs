//! Sets of held symbols, as marks, each within the next: from few to all.

use super::property::{foretold, places};
use crate::random::Random;
use crate::repairs::promises::largest_stopping_set;
use crate::stops::DEEP;
use crate::tables::lists::Links;
use crate::volumes::Volume;
use reference::table::{data_symbols, Layers};
use Step::{All, Beside, Enough, Fewer, Layer, Missing, Nothing, One, Share};

/// What a set holds beside those of the one before.
#[derive(Clone, Copy)]
enum Step {
    Nothing,
    /// One symbol, but none that is missing where a repair stops.
    Beside,
    /// One of those that are missing there.
    Missing,
    /// One of those, after which others are still missing.
    Fewer,
    /// That whole layer.
    Layer,
    /// Half of what is missing there, again and again, until a repair stops nowhere.
    Enough,
    /// Any one.
    One,
    /// Half of the others.
    Share,
    All,
}

const BY_LAYERS: &[Step] =
    &[Nothing, Beside, Fewer, Layer, Beside, Missing, Share, Enough, One, Share, All];
const BY_PAGES: &[Step] =
    &[Beside, Missing, Nothing, Beside, Missing, Missing, Enough, Nothing, One, Share, Share, All];
const DEEP_STEPS: &[Step] = &[Nothing, Beside, Fewer, Layer, Missing, Enough, Share, All];

/// Parts of 256 that are lost of most layers, of the two in which a repair stops, and of links.
const LITTLE: usize = 12;
const MUCH: [usize; 4] = [100, 140, 180, 256];
const SOME_LINKS: usize = 64;

/// How many missing symbols are tried, to find one that leaves others missing.
const TRIES: usize = 16;

/// The sets of a volume, in whose table there may be links. Both ways come in turn.
pub fn nested(
    volume: &Volume,
    links: Option<Links>,
    turn: usize,
    random: &mut Random,
) -> Vec<Vec<u8>> {
    let steps = match turn % 2 {
        _ if volume.depth >= DEEP => DEEP_STEPS,
        0 => BY_LAYERS,
        _ => BY_PAGES,
    };
    let mut sets = vec![few(volume, links, random)];
    for &step in steps {
        let mut marks = sets[sets.len() - 1].clone();
        if marks.contains(&0) {
            hold_more(step, &volume.equations, &mut marks, random);
            sets.push(marks);
        }
    }
    sets
}

/// Much is lost of two layers, or of the one that there is, so that a repair stops in each; of
/// links some, and all beside them. Of the other layers little is lost.
fn few(volume: &Volume, links: Option<Links>, random: &mut Random) -> Vec<u8> {
    let lower = volume.depth - 1 - random.below((volume.depth / 2).max(1));
    let stopping = [random.below(lower.max(1)), lower];
    let much = MUCH[random.below(MUCH.len())];
    let held = |(layer, symbol)| {
        let lost = match links {
            _ if !stopping.contains(&layer) => LITTLE,
            Some(links) if is_link(links, layer, symbol) => SOME_LINKS,
            Some(_) => 256,
            None => much,
        };
        u8::from(random.below(256) >= lost)
    };
    let mut marks: Vec<u8> = volume.all_symbols().into_iter().map(held).collect();
    for layer in stopping {
        lose_until_it_stops(&volume.equations[layer], &mut marks[places(layer)], random);
    }
    marks
}

/// Whether a symbol is the parity of a link.
fn is_link((_, link): Links, layer: usize, symbol: usize) -> bool {
    let k = data_symbols(layer);
    (0..k).any(|i| k + link(k, i) == symbol)
}

/// Takes away an eighth of what is held of a layer, again and again, until it can't be completed.
fn lose_until_it_stops(equations: &[Vec<usize>], marks: &mut [u8], random: &mut Random) {
    let completes = |marks: &[u8]| {
        let gaps = marks.iter().map(|&mark| mark == 0).collect();
        !largest_stopping_set(equations, gaps).contains(&true)
    };
    while completes(marks) {
        marks.iter_mut().filter(|_| random.below(8) == 0).for_each(|mark| *mark = 0);
    }
}

/// Marks what a step holds beside these, where there is such.
fn hold_more(step: Step, equations: &Layers, marks: &mut [u8], random: &mut Random) {
    let foretold = foretold(equations, marks);
    let missing = foretold.missing();
    let absent = (0..marks.len()).filter(|&place| marks[place] == 0);
    let beside = |place: &usize| missing.binary_search(place).is_err();
    let one = |one: Option<usize>| one.into_iter().collect();
    let more: Vec<usize> = match step {
        Nothing => vec![],
        Beside => one(one_of(absent.filter(beside), random)),
        Missing => one(one_of(missing.iter().copied(), random)),
        Fewer => one(fewer(equations, marks, &missing, random)),
        Layer => foretold.layer.into_iter().flat_map(places).collect(),
        Enough => enough(equations, marks, random),
        One => one(one_of(absent, random)),
        Share => absent.filter(|_| random.below(2) == 0).collect(),
        All => absent.collect(),
    };
    more.into_iter().for_each(|place| marks[place] = 1);
}

/// One of the missing places, after which others are still missing, if one is found.
fn fewer(
    equations: &Layers,
    marks: &[u8],
    missing: &[usize],
    random: &mut Random,
) -> Option<usize> {
    let mut tries = (0..TRIES).filter_map(|_| one_of(missing.iter().copied(), random));
    tries.find(|&one| {
        let mut marks = marks.to_vec();
        marks[one] = 1;
        let still = foretold(equations, &marks).missing();
        still.iter().any(|place| missing.binary_search(place).is_ok())
    })
}

/// Places by which a repair that holds them too stops nowhere.
fn enough(equations: &Layers, marks: &[u8], random: &mut Random) -> Vec<usize> {
    let (mut marks, mut more) = (marks.to_vec(), vec![]);
    loop {
        let missing = foretold(equations, &marks).missing();
        if missing.is_empty() {
            return more;
        }
        for place in missing.into_iter().filter(|_| random.below(2) == 0) {
            marks[place] = 1;
            more.push(place);
        }
    }
}

/// One of those given, if there are any.
fn one_of(some: impl Iterator<Item = usize>, random: &mut Random) -> Option<usize> {
    let some: Vec<usize> = some.collect();
    (!some.is_empty()).then(|| some[random.below(some.len())])
}

#[cfg(test)]
mod tests {
    use super::*;
    use crate::repairs::nested::property::is_within;
    use crate::tables::lists::{chained, random_table, LINKS};
    use reference::table::house;

    /// Each set is within the next. The first stops in a layer, and below it in another, where
    /// there is one; the last is all.
    #[test]
    fn sets_from_few_to_all() {
        let mut random = Random::new(7);
        for (depth, turn) in (1..=DEEP).flat_map(|depth| (0..12).map(move |turn| (depth, turn))) {
            let links = Some(LINKS[turn % 4]).filter(|_| turn % 3 == 0);
            let words = match links {
                Some(links) => chained(depth, links),
                None if turn % 3 == 1 => house(depth),
                None => random_table(depth, &mut random),
            };
            let volume = Volume::new(depth, &words, &mut random);
            let sets = nested(&volume, links, turn, &mut random);
            assert!(sets.windows(2).all(|two| is_within(&two[0], &two[1])));
            assert!(sets[sets.len() - 1].iter().all(|&mark| mark == 1));
            let mut marks = sets[0].clone();
            let upper = foretold(&volume.equations, &marks).layer.expect("a layer");
            hold_more(Layer, &volume.equations, &mut marks, &mut random);
            let lower = foretold(&volume.equations, &marks).layer;
            assert_eq!(lower.is_some(), depth > 1, "below layer {upper} of {depth}");
        }
    }
}
