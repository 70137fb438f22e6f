//! Test 10, that every data symbol is in two equations of its layer, and calls
//! with tables in which one is in two, or in fewer.

#[cfg(test)]
mod mutants;

use super::lists::some_equations;
use super::uses::{cover, uncover, use_only_in, use_times};
use crate::call::{Test, TEST};
use crate::comparisons::Comparisons;
use crate::difference::Compared;
use crate::input::Input;
use crate::random::Random;
use crate::records::put_table;
use crate::results::number;
use crate::stops::{sparse, turns, DEEP};
use reference::cover::covered;
use reference::stop::Stop;
use reference::table::Layers;
use reference::table::{data_symbols, house, listed, listed_so_far, to_bytes, to_words, write};

/// Of a list with a wrong word, the layers before it are asked.
pub const COVER: Test = Test {
    number: 10,
    ask: |i| covered(&whole_layers(i)),
    spoil: |i, random| {
        let mut layers = whole_layers(i);
        uncover(&mut layers, random);
        put_table(i, to_bytes(&write(&layers)));
    },
    own: &[few_equations, long_equations, several_symbols, wrong_words, later_tests],
    #[cfg(test)]
    wrong: mutants::WRONG,
    ..TEST
};

/// Times that each of the comparisons is made at a size.
const TURNS: usize = 4;

/// The layers of a table that are whole before its first wrong word.
fn whole_layers(input: &Input) -> Layers {
    let depth = input.size().unwrap_or(0);
    let layers = listed_so_far(depth, &to_words(&input["table"]));
    let whole = |(layer, equations): &(usize, Vec<_>)| equations.len() == 3 * data_symbols(*layer);
    layers.into_iter().enumerate().take_while(whole).map(|(_, equations)| equations).collect()
}

/// A call with these equations, which must stop with 10 and this layer and
/// symbol, or not with 10.
fn make_with(
    c: &mut Comparisons,
    what: &str,
    input: &mut Input,
    layers: &Layers,
    few: Option<(usize, usize)>,
) -> Compared {
    put_table(input, to_bytes(&write(layers)));
    let result = c.make(what, input)?;
    match few {
        Some((layer, symbol)) => {
            assert_eq!(result, number(Err(Stop::Uncovered { layer, symbol })), "{what}")
        }
        None => assert_ne!(result % 256, 10, "{what}"),
    }
    Ok(())
}

/// A data symbol of a layer: in no equation, in one, in two.
fn none_one_two(
    c: &mut Comparisons,
    name: &str,
    input: &mut Input,
    depth: usize,
    (layer, symbol): (usize, usize),
) -> Compared {
    for times in 0..=2 {
        let mut layers = some_equations(depth, &mut c.random);
        use_times(&mut layers[layer], &[symbol], times, &mut c.random);
        let few = (times < 2).then_some((layer, symbol));
        make_with(c, name, input, &layers, few)?;
    }
    Ok(())
}

/// The first, a middle and the last data symbol of each layer: in no equation, in
/// one, in two.
fn few_equations(c: &mut Comparisons, depth: usize) -> Compared {
    let mut input = c.good(depth);
    for turn in 0..turns(depth, TURNS) * depth {
        let layer = turn % depth;
        let k = data_symbols(layer);
        // One of them of each deep layer, all of the base.
        let symbols = [0, k / 2, k - 1].into_iter().enumerate();
        let chosen =
            symbols.filter(|(at, _)| depth < DEEP || layer == depth - 1 || layer % 3 == *at);
        for (_, symbol) in chosen {
            none_one_two(c, "a symbol in few equations", &mut input, depth, (layer, symbol))?;
        }
    }
    Ok(())
}

/// A data symbol in the last two equations of a layer alone, which have eight
/// members, or in the last alone: it is each of their first seven in turn.
fn long_equations(c: &mut Comparisons, depth: usize) -> Compared {
    let mut input = c.good(depth);
    for layer in if depth < DEEP { 0..depth } else { depth - 1..depth } {
        let k = data_symbols(layer);
        for symbol in (0..k.min(7)).step_by(if depth < DEEP { 1 } else { 3 }) {
            for first in [3 * k - 2, 3 * k - 1] {
                let chosen: Vec<usize> = (first..3 * k).collect();
                let mut layers = some_equations(depth, &mut c.random);
                for &e in &chosen {
                    layers[layer][e] = (0..7).chain([k + e]).collect();
                }
                cover(&mut layers, &mut c.random);
                use_only_in(&mut layers[layer], &[symbol], &chosen, &mut c.random);
                let few = (chosen.len() < 2).then_some((layer, symbol));
                make_with(c, "long equations", &mut input, &layers, few)?;
            }
        }
    }
    Ok(())
}

/// One to three symbols of a layer, and of layers below it: the first layer's
/// lowest is named.
fn several_symbols(c: &mut Comparisons, depth: usize) -> Compared {
    let mut input = c.good(depth);
    for turn in 0..turns(depth, 10 * TURNS) {
        let mut layers = some_equations(depth, &mut c.random);
        let first = c.random.below(depth);
        let mut few = None;
        for (layer, equations) in layers.iter_mut().enumerate().skip(first) {
            if layer == first || c.random.below(2) == 0 {
                let symbols = some_data(layer, 1 + turn % 3, &mut c.random);
                let times = c.random.below(2);
                use_times(equations, &symbols, times, &mut c.random);
                few = few.or(Some((layer, symbols[0])));
            }
        }
        make_with(c, "several symbols in few equations", &mut input, &layers, few)?;
    }
    Ok(())
}

/// So many data symbols of a layer, ascending.
fn some_data(layer: usize, number: usize, random: &mut Random) -> Vec<usize> {
    let mut symbols: Vec<usize> = (0..data_symbols(layer)).collect();
    while symbols.len() > number {
        symbols.remove(random.below(symbols.len()));
    }
    symbols
}

/// A wrong word beside, before or after the layer that is not covered: the word is
/// named.
fn wrong_words(c: &mut Comparisons, depth: usize) -> Compared {
    let mut input = c.good(depth);
    for turn in 0..turns(depth, 10 * TURNS) {
        let mut layers = some_equations(depth, &mut c.random);
        uncover(&mut layers, &mut c.random);
        let words = write(&layers);
        let end = words.len() - 1;
        let at = if turn % 4 == 0 { end } else { c.random.below(end) };
        let mut of_another_kind = words.clone();
        of_another_kind[at] ^= 3 << 30;
        let more = [&words[..], &[0]].concat();
        for (at, list) in [(at, &of_another_kind[..]), (at, &words[..at]), (end + 1, &more)] {
            put_table(&mut input, to_bytes(list));
            let result = c.make("a symbol in few equations, and a wrong word", &input)?;
            assert_eq!(result, number(Err(Stop::Word(at))));
        }
    }
    Ok(())
}

/// Each later test failed too: 10 comes before it.
fn later_tests(c: &mut Comparisons, depth: usize) -> Compared {
    let later = c.call.tests.iter().skip_while(|test| test.number != COVER.number).skip(1);
    for test in later {
        for _ in 0..turns(depth, TURNS) {
            let mut input = c.good(depth);
            (test.spoil)(&mut input, &mut c.random);
            let mut layers = whole_layers(&input);
            let few = uncover(&mut layers, &mut c.random);
            make_with(c, "a later cause too", &mut input, &layers, Some(few))?;
        }
    }
    Ok(())
}

/// Every data symbol of every layer, or some: in no equation, in one, in two.
pub fn every_symbol(c: &mut Comparisons) -> Compared {
    for &depth in c.sizes {
        let mut input = c.good(depth);
        for layer in if depth < DEEP { 0..depth } else { depth - 2..depth } {
            for symbol in sparse(depth, data_symbols(layer)) {
                none_one_two(
                    c,
                    "each symbol in few equations",
                    &mut input,
                    depth,
                    (layer, symbol),
                )?;
            }
        }
    }
    Ok(())
}

/// At depth 1, each data symbol in each two equations alone, and in each one.
pub fn every_two_equations(c: &mut Comparisons) -> Compared {
    if c.is_deep() {
        return Ok(());
    }
    let mut input = c.good(1);
    for symbol in 0..data_symbols(0) {
        for one in 0..3 * data_symbols(0) {
            for other in 0..=one {
                let mut layers = listed(1, &house(1)).expect("a table");
                use_only_in(&mut layers[0], &[symbol], &[one, other], &mut c.random);
                let few = (one == other).then_some((0, symbol));
                make_with(c, "two equations", &mut input, &layers, few)?;
            }
        }
    }
    Ok(())
}
