//! Recipes reach every number and end of a call but twins, and a function that
//! is wrong only there is found; and they reach every sort of stopped calls.

use crate::calls::repairs::PROOF_CHECK;
use crate::calls::samples::SAMPLE_CHECK;
use crate::calls::{Target, TARGETS};
use crate::recipe::Recipe;
use differential::call::Call;
use differential::input::Input;
use differential::library::{by, right, Library};
use differential::random::Random;
use differential::recodings::NOT_WHOLE;
use differential::records::heads::RECORD;
use differential::records::named::NAMED;
use differential::results::{outcome, values};
use differential::tables::cover::COVER;
use differential::CALLS;
use reference::kind::KINDS;
use reference::table::{data_symbols, MAX_DEPTH};
use reference::tree::place;
use std::collections::BTreeSet;
use std::thread;

/// The recipes to begin with.
const SEEDS: &str = include_str!("../seeds.txt");

/// Recipes to try, at the most.
const TRIED: usize = 20_000;

/// What a description says that the call comes to.
fn outcomes(call: &Call) -> BTreeSet<String> {
    let ends = call.least.iter().filter(|(what, _)| what.starts_with("end"));
    let ends = ends.map(|(what, _)| what.to_string()).chain([outcome(0)]);
    ends.chain(call.tests.iter().map(|test| outcome(test.number))).collect()
}

/// Random recipes.
fn some(tried: usize) -> impl Iterator<Item = Vec<u8>> {
    let mut random = Random::new(8128);
    (0..tried).map(move |_| {
        let len = random.below(64);
        random.bytes(len)
    })
}

/// The recipes to begin with of a call.
fn seeds(call: &'static Call) -> impl Iterator<Item = Vec<u8>> {
    let digits = |seed: &str, at: usize| u8::from_str_radix(&seed[at..at + 2], 16).expect("a byte");
    let seeds = SEEDS.lines().filter_map(|line| line.strip_prefix(call.name)?.strip_prefix(' '));
    seeds.map(move |seed| (0..seed.len()).step_by(2).map(|at| digits(seed, at)).collect())
}

/// Whether one of the recipes shows a difference.
fn differs(target: &Target, library: &Library, mut recipes: impl Iterator<Item = Vec<u8>>) -> bool {
    recipes.any(|bytes| target.make(library, &mut Recipe::new(&bytes)).is_err())
}

/// What the call of each recipe is lent, and what it comes to.
fn called<'a>(
    target: &'a Target,
    recipes: impl Iterator<Item = Vec<u8>> + 'a,
) -> impl Iterator<Item = (Input, u64)> + 'a {
    recipes.map(|bytes| {
        // The first byte is for the comparison alone.
        let input = target.lent(&mut Recipe::new(&bytes[bytes.len().min(1)..]));
        let result = (target.call.reference)(&mut input.clone());
        (input, result)
    })
}

/// The library with a call whose result is wrong at an outcome.
fn wrong_at(call: &'static Call, wrong: String) -> Library {
    let function = by(call, move |i| match right(i) {
        result if outcome(result) == wrong => result ^ 1 << 63,
        result => result,
    });
    Library::right().with(call, function)
}

/// Does this with each of these targets, all at once.
fn with_each(targets: impl Iterator<Item = &'static Target>, does: fn(&'static Target)) {
    let threads: Vec<_> = targets.map(|target| thread::spawn(move || does(target))).collect();
    threads.into_iter().for_each(|thread| thread.join().expect("what it asserts"));
}

#[test]
fn every_outcome_is_reached() {
    with_each(TARGETS.iter().copied(), |target| {
        for outcome in outcomes(target.call) {
            let library = wrong_at(target.call, outcome.clone());
            assert!(differs(target, &library, some(TRIED)), "{}: {outcome}", target.call.name);
        }
    });
}

/// The recipes to begin with come to these for each call that has them: tables that are not
/// covered, wrong records and kinds, tables that a record does not name, trees that are not
/// recoded, and other bytes than zeros that fill up a block.
#[test]
fn seeds_reach_what_tables_and_records_stop() {
    let numbers = [(COVER.number, 5), (RECORD.number, 6), (NAMED.number, 3), (NOT_WHOLE.number, 1)];
    let numbers = numbers.into_iter().map(|(number, calls)| (outcome(number), calls));
    for (reached, calls) in numbers.chain([(outcome(13 << 8), 1)]) {
        let targets = TARGETS.iter().filter(|target| outcomes(target.call).contains(&reached));
        let targets: Vec<_> = targets.collect();
        assert_eq!(targets.len(), calls, "{reached}");
        for target in targets {
            let library = wrong_at(target.call, reached.clone());
            let name = target.call.name;
            assert!(differs(target, &library, seeds(target.call)), "{name}: {reached}");
        }
    }
}

#[test]
fn seeds_pass() {
    for target in TARGETS {
        let right = Library::right();
        assert!(!differs(target, &right, seeds(target.call)), "{}", target.call.name);
    }
}

/// The first and the second values of the results of a number.
fn values_of(number: u64, results: impl Iterator<Item = u64>) -> [BTreeSet<usize>; 2] {
    let values: Vec<_> = results.filter(|result| result % 256 == number).map(values).collect();
    [0, 1].map(|value| values.iter().map(|values| values[value]).collect())
}

/// The recipes to begin with break in each layer, and at each position.
#[test]
fn seeds_break_everywhere() {
    for (target, positions) in [(&SAMPLE_CHECK, 1), (&PROOF_CHECK, 8)] {
        let results = called(target, seeds(target.call)).map(|(_, result)| result);
        let expected = [(0..MAX_DEPTH as usize).collect(), (0..positions).collect()];
        assert_eq!(values_of(7, results), expected, "{}", target.call.name);
    }
}

/// The depths of the calls whose results are such.
fn depths_of(
    target: &Target,
    recipes: impl Iterator<Item = Vec<u8>>,
    such: fn(u64) -> bool,
) -> BTreeSet<usize> {
    let called = called(target, recipes).filter(|&(_, result)| such(result));
    called.filter_map(|(input, _)| input.size()).collect()
}

/// By random recipes, and by the recipes to begin with in calls that are done.
#[test]
fn every_depth_is_reached() {
    let depths: BTreeSet<usize> = (1..=MAX_DEPTH as usize).collect();
    for target in TARGETS.iter().filter(|target| target.call.sizes.len() > 1) {
        let random = depths_of(target, some(1000), |result| result != 1);
        let begun = depths_of(target, seeds(target.call), |result| result % 256 == 0);
        assert_eq!((&random, &begun), (&depths, &depths), "{}", target.call.name);
    }
}

/// By the recipes to begin with, in calls that are done, at each depth.
#[test]
fn every_kind_is_reached() {
    for target in TARGETS.iter().filter(|target| target.call.comes_by_kinds("end 0")) {
        let done = called(target, seeds(target.call)).filter(|(_, result)| result % 256 == 0);
        let of_kinds = done.filter_map(|(input, _)| Some((input.size()?, input.kind()? as u32)));
        let met: BTreeSet<(usize, u32)> = of_kinds.collect();
        let all = (1..=MAX_DEPTH as usize).flat_map(|depth| KINDS.map(|kind| (depth, kind as u32)));
        assert_eq!(met, all.collect(), "{}", target.call.name);
    }
}

/// Recipes at the deep depths for samples and proofs of the base that break in each layer, the
/// proofs on the way of the last given member and of the withheld one.
#[test]
fn every_layer_of_deep_depths_is_reached() {
    let plain = [(0xf0, 6), (0xf4, 7), (0xf6, 8), (0xf7, 9)];
    let placed = plain.map(|(byte, depth)| (byte | 8, depth));
    for (byte, depth) in plain.into_iter().chain(placed) {
        let all: BTreeSet<usize> = (0..depth).collect();
        let samples =
            (0..2 * depth as u8 - 1).map(|index| vec![0, byte, 0, 0, 0, 5, 0, 0, 3, 1, index, 128]);
        let base = depth as u8 - 1;
        let (last, end) = (6 * depth as u8, 8 * depth as u8 - 1);
        let proofs =
            (last..end).map(|index| vec![0, byte, 132, 0, 0, 0, base, 0, 0, 3, 0, 1, index, 128]);
        let [layers, _] = values_of(7, called(&SAMPLE_CHECK, samples).map(|(_, result)| result));
        assert_eq!(layers, all, "samples of depth {depth}");
        let results: Vec<u64> = called(&PROOF_CHECK, proofs).map(|(_, result)| result).collect();
        let [layers, positions] = values_of(7, results.into_iter());
        assert_eq!((layers, positions), (all, BTreeSet::from([6, 7])), "proofs of depth {depth}");
    }
}

/// The shallow depths, each with a byte that stands for it in a recipe.
const SHALLOW: [(u8, usize); 5] = [(0, 1), (3, 2), (5, 3), (6, 4), (7, 5)];

/// Recipes for proofs of equations of each size, in each layer of each shallow depth, one symbol
/// damaged, in a byte of no hash that a path has. Numbers too large begin again at 0.
fn damaged_proofs() -> impl Iterator<Item = Vec<u8>> {
    let sizes = SHALLOW.into_iter().flat_map(|(byte, _)| (128..135).map(move |size| [byte, size]));
    let layers = sizes.flat_map(|[depth, size]| (0..5).map(move |layer| [depth, size, layer]));
    layers.flat_map(|[depth, size, layer]| {
        let of = [0, depth, size, 0, 0, 0, layer, 0, 0, 3, 0];
        (0..39).map(move |index| [&of[..], &[1, index, 128]].concat())
    })
}

/// Recipes of each shallow depth that change the head of a record: its kinds, depth, length, count
/// and hash. What comes before that in a recipe is zeros, more or fewer for each call.
fn changed_records() -> impl Iterator<Item = Vec<u8>> {
    const CHANGES: [&[u8]; 12] = [
        &[200, 0, 0],
        &[200, 0, 2],
        &[200, 0, 3],
        &[200, 1, 0],
        &[200, 2, 0],
        &[200, 3, 0],
        &[200, 5, 0, 0, 0],
        &[200, 5, 255, 255, 255],
        &[232, 0, 2, 1, 0],
        &[200, 6, 0],
        &[200, 7, 0],
        &[200, 8],
    ];
    let zeros = SHALLOW.into_iter().flat_map(|(byte, _)| (0..12).map(move |zeros| (byte, zeros)));
    zeros.flat_map(|(byte, zeros)| {
        CHANGES.map(|change| [&[0, byte], &[0; 12][..zeros], change].concat())
    })
}

/// Recipes for trees to be recoded, of each shallow depth: a symbol of each layer that is absent,
/// that is a bad copy, or that fails an equation.
fn flawed_trees() -> impl Iterator<Item = Vec<u8>> {
    SHALLOW.into_iter().flat_map(|(byte, depth)| {
        let of = move |faults: &[u8], rest: &[u8]| [&[0, byte, 0], faults, &[0; 4], rest].concat();
        (0..depth).flat_map(move |layer| {
            let place = (place(layer, 3) as u32).to_be_bytes();
            let at = (256 * u32::from_be_bytes(place)).to_be_bytes();
            let parity = (data_symbols(layer) as u32).to_be_bytes();
            let absent = of(&[0], &[0, 1, 3, place[1], place[2], place[3], 0]);
            let bad = of(&[0], &[0, 2, 2, at[1], at[2], at[3], 1]);
            let replaced = of(&[1, layer as u8, parity[1], parity[2], parity[3]], &[]);
            [absent, bad, replaced]
        })
    })
}

/// Of the shallow depths: by the recipes to begin with, by those above, and by random ones until
/// each sort has come.
#[test]
fn every_sort_is_reached() {
    let have_sorts = TARGETS.iter().copied().filter(|target| target.call.sorts().count() > 0);
    with_each(have_sorts, |target| {
        let shallow = |recipe: &Vec<u8>| recipe.get(1).map_or(true, |&depth| depth < 240);
        let recipes = seeds(target.call).chain(changed_records()).chain(flawed_trees());
        let recipes = recipes.chain(damaged_proofs()).chain(some(TRIED)).filter(shallow);
        let mut missing: BTreeSet<String> = target.call.sorts_at(&[1, 2, 3, 4, 5]).collect();
        for (input, result) in called(target, recipes) {
            target.call.sort(&input, result).map(|sort| missing.remove(&sort));
            if missing.is_empty() {
                break;
            }
        }
        assert_eq!(missing.iter().next(), None, "{}", target.call.name);
    });
}

#[test]
fn the_library_passes() {
    for target in TARGETS {
        assert!(!differs(target, &Library::linked(), some(300)), "{}", target.call.name);
    }
}

#[test]
fn every_call_is_a_target() {
    let targets = TARGETS.iter().map(|target| target.call.name);
    assert!(targets.eq(CALLS.iter().map(|call| call.name)));
}
