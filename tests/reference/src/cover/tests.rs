use super::*;
use crate::table::{house, listed, Layers, MAX_DEPTH};
use crate::written::without;

fn uncovered(layer: usize, symbol: usize) -> Result<(), Stop> {
    Err(Stop::Uncovered { layer, symbol })
}

fn house_layers(depth: usize) -> Layers {
    listed(depth as u64, &house(depth)).unwrap()
}

/// The house table without one data symbol, which is then a member of these
/// equations alone.
fn alone_in(layer: usize, symbol: usize, equations: &[usize]) -> Layers {
    let mut layers = listed(3, &without(3, layer, symbol)).unwrap();
    for &equation in equations {
        layers[layer][equation].insert(0, symbol);
        layers[layer][equation].sort_unstable();
    }
    layers
}

#[test]
fn house_tables_are_covered() {
    for depth in 1..=MAX_DEPTH as usize {
        assert_eq!(covered(&house_layers(depth)), Ok(()));
    }
}

/// Whichever symbol of whichever layer it is, and whichever equations.
#[test]
fn in_none_in_one_in_two() {
    for layer in 0..3 {
        let k = data_symbols(layer);
        for symbol in 0..k {
            assert_eq!(covered(&alone_in(layer, symbol, &[])), uncovered(layer, symbol));
            for one in 0..3 * k {
                assert_eq!(covered(&alone_in(layer, symbol, &[one])), uncovered(layer, symbol));
                let another = (one + 1 + symbol) % (3 * k);
                assert_eq!(covered(&alone_in(layer, symbol, &[one, another])), Ok(()));
            }
        }
    }
}

#[test]
fn the_first_layer_and_its_lowest_symbol() {
    let mut layers = alone_in(2, 9, &[47]);
    let lower = alone_in(2, 4, &[]);
    layers[2].retain(|members| members.contains(&9));
    assert_eq!(covered(&layers), uncovered(2, 0));
    layers[1] = alone_in(1, 6, &[0])[1].clone();
    assert_eq!(covered(&layers), uncovered(1, 6));
    layers[1].iter_mut().for_each(|members| members.retain(|&member| member != 5));
    assert_eq!(covered(&layers), uncovered(1, 5));
    assert_eq!(covered(&lower), uncovered(2, 4));
    layers[0].clear();
    assert_eq!(covered(&layers), uncovered(0, 0));
}

/// Each parity symbol is a member of the equation that gives it, and of no other.
#[test]
fn parity_is_not_asked() {
    let equations: Vec<Vec<usize>> = (0..12).map(|e| vec![e % 4, 4 + e]).collect();
    assert_eq!(covered(&[equations]), Ok(()));
}
