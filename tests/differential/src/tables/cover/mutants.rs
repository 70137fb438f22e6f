//! Wrong ways to ask test 10.

use super::{whole_layers, COVER};
use crate::call::Ask;
use crate::input::Input;
use crate::library::by_tests;
use crate::mutants::{asked, asking, passes, wrong_deep};
use crate::tables::TABLE_CHECK as CALL;
use reference::stop::Stop;
use reference::table::{data_symbols, Layers};
use reference::tree::place;
use std::ops::Range;

pub const WRONG: &[(&str, Ask)] = &[
    ("one equation is enough", |i| first(&Rules { least: 1, ..RULES }, i)),
    ("three equations are needed", |i| first(&Rules { least: 3, ..RULES }, i)),
    ("parity asked too", |i| first(&Rules { symbols: |k| 0..4 * k, ..RULES }, i)),
    ("the first symbol not asked", |i| first(&Rules { symbols: |k| 1..k, ..RULES }, i)),
    ("the last symbol not asked", |i| first(&Rules { symbols: |k| 0..k - 1, ..RULES }, i)),
    ("the first layer alone asked", |i| {
        first(&Rules { layers: |depth| 0..depth.min(1), ..RULES }, i)
    }),
    ("the first layer not asked", |i| first(&Rules { layers: |depth| 1..depth, ..RULES }, i)),
    ("the last layer not asked", |i| {
        first(&Rules { layers: |depth| 0..depth.saturating_sub(1), ..RULES }, i)
    }),
    ("counted over all layers", |i| first(&Rules { over: |_, depth| 0..depth, ..RULES }, i)),
    ("counted from the top on", |i| first(&Rules { over: |layer, _| 0..layer + 1, ..RULES }, i)),
    ("the first k equations counted", |i| first(&Rules { counted: |k| 0..k, ..RULES }, i)),
    ("the first equation not counted", |i| first(&Rules { counted: |k| 1..3 * k, ..RULES }, i)),
    ("the last equation not counted", |i| first(&Rules { counted: |k| 0..3 * k - 1, ..RULES }, i)),
    ("two members counted", |i| first(&Rules { members: 2, ..RULES }, i)),
    ("six members counted", |i| first(&Rules { members: 6, ..RULES }, i)),
    ("parity counted as data", |i| first(&Rules { number: |member, k| member % k, ..RULES }, i)),
    ("the highest symbol", |i| {
        let few = few(&RULES, i);
        let highest = few.iter().rfind(|symbol| symbol.0 == few[0].0);
        stop(highest)
    }),
    ("the last layer", |i| {
        let few = few(&RULES, i);
        let lowest = few.iter().find(|symbol| symbol.0 == few[few.len() - 1].0);
        stop(lowest)
    }),
    ("the last symbol of all", |i| stop(few(&RULES, i).last())),
    ("values exchanged", |i| named(i, |layer, symbol| (symbol, layer))),
    ("no layer", |i| named(i, |_, symbol| (0, symbol))),
    ("no symbol", |i| named(i, |layer, _| (layer, 0))),
    ("the place in the tree", |i| named(i, |layer, symbol| (layer, place(layer, symbol)))),
];

/// Rules of a cover, 02's or others.
struct Rules {
    /// The equations that a symbol must be a member of.
    least: usize,
    /// The layers of a depth that are asked, and the symbols of a layer.
    layers: fn(usize) -> Range<usize>,
    symbols: fn(usize) -> Range<usize>,
    /// The layers whose equations count for one of a depth.
    over: fn(usize, usize) -> Range<usize>,
    /// The equations of a layer that count.
    counted: fn(usize) -> Range<usize>,
    /// How many members of an equation count.
    members: usize,
    /// The symbol that a member counts for.
    number: fn(usize, usize) -> usize,
}

const RULES: Rules = Rules {
    least: 2,
    layers: |depth| 0..depth,
    symbols: |k| 0..k,
    over: |layer, _| layer..layer + 1,
    counted: |k| 0..3 * k,
    members: 8,
    number: |member, _| member,
};

/// The symbols that are in too few equations by these rules, each with its layer.
fn few(rules: &Rules, input: &Input) -> Vec<(usize, usize)> {
    let layers = whole_layers(input);
    let mut few = Vec::new();
    for layer in (rules.layers)(layers.len()) {
        for symbol in (rules.symbols)(data_symbols(layer)) {
            let over = (rules.over)(layer, layers.len());
            let times = over.map(|other| times(rules, &layers, other, symbol)).sum::<usize>();
            if times < rules.least {
                few.push((layer, symbol));
            }
        }
    }
    few
}

/// The equations of a layer that count for a symbol.
fn times(rules: &Rules, layers: &Layers, layer: usize, symbol: usize) -> usize {
    let k = data_symbols(layer);
    let uses = |members: &&Vec<usize>| {
        members.iter().take(rules.members).any(|&member| (rules.number)(member, k) == symbol)
    };
    layers[layer][(rules.counted)(k)].iter().filter(uses).count()
}

fn stop(few: Option<&(usize, usize)>) -> Result<(), Stop> {
    match few {
        Some(&(layer, symbol)) => Err(Stop::Uncovered { layer, symbol }),
        None => Ok(()),
    }
}

fn first(rules: &Rules, input: &Input) -> Result<(), Stop> {
    stop(few(rules, input).first())
}

/// What is right, with other values.
fn named(input: &Input, other: fn(usize, usize) -> (usize, usize)) -> Result<(), Stop> {
    (COVER.ask)(input).map_err(|stop| match stop {
        Stop::Uncovered { layer, symbol } => {
            let (layer, symbol) = other(layer, symbol);
            Stop::Uncovered { layer, symbol }
        }
        other => other,
    })
}

#[test]
fn right_rules_pass() {
    passes(&CALL, |i| by_tests(i, &asked(&CALL, 10, |i| first(&RULES, i))));
}

wrong_deep!(symbols_of_9_bits_counted, 0 => 10, |i| {
    asking(i, 10, |i| first(&Rules { number: |member, _| member & 0x1ff, ..RULES }, i))
});

wrong_deep!(equations_below_2048_counted, 0 => 10, |i| {
    asking(i, 10, |i| first(&Rules { counted: |k| 0..(3 * k).min(2048), ..RULES }, i))
});

wrong_deep!(eight_layers_asked, 10 => 0, |i| {
    asking(i, 10, |i| first(&Rules { layers: |depth| 0..depth.min(8), ..RULES }, i))
});
