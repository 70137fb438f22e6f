//! Random losses: how many symbols can go, one after the other, until a repair is not whole any more.

use crate::layer::Layer;
use crate::set::Set;
use differential::random::Random;

/// Orders of loss that are tried.
const TRIALS: usize = 10_000;

const SEED: u64 = 47;

/// The symbols of some layers: for each trial, the number of losses that a repair survives, ascending.
pub fn survived(layers: &[Layer]) -> Vec<usize> {
    let mut random = Random::new(SEED);
    let mut order: Vec<(usize, usize)> = Vec::new();
    for (number, layer) in layers.iter().enumerate() {
        order.extend((0..layer.symbols).map(|symbol| (number, symbol)));
    }
    let mut survived: Vec<usize> = (0..TRIALS)
        .map(|_| {
            shuffle(&mut order, &mut random);
            most(layers, &order)
        })
        .collect();
    survived.sort_unstable();
    survived
}

fn shuffle(order: &mut [(usize, usize)], random: &mut Random) {
    for last in (1..order.len()).rev() {
        order.swap(last, random.below(last + 1));
    }
}

/// The most losses from the start of this order that a repair survives. Where it survives a loss, it survives a smaller one.
fn most(layers: &[Layer], order: &[(usize, usize)]) -> usize {
    let (mut whole, mut lost) = (0, order.len());
    while lost - whole > 1 {
        let middle = (whole + lost) / 2;
        if survives(layers, &order[..middle]) {
            whole = middle;
        } else {
            lost = middle;
        }
    }
    whole
}

fn survives(layers: &[Layer], losses: &[(usize, usize)]) -> bool {
    let mut lost = vec![Set::default(); layers.len()];
    for &(number, symbol) in losses {
        lost[number] = lost[number].with(symbol);
    }
    layers.iter().zip(lost).all(|(layer, lost)| layer.left(lost) == Set::default())
}

/// The average share of the symbols.
pub fn average(survived: &[usize], symbols: usize) -> f64 {
    survived.iter().sum::<usize>() as f64 / (survived.len() * symbols) as f64
}

/// The share of the symbols that all but one trial in a hundred survive.
pub fn nearly_always(survived: &[usize], symbols: usize) -> f64 {
    survived[survived.len() / 100] as f64 / symbols as f64
}

/// The share of the trials that survive the loss of this share of the symbols.
pub fn chance(survived: &[usize], symbols: usize, loss: f64) -> f64 {
    let losses = (loss * symbols as f64).round() as usize;
    let fail = survived.partition_point(|&most| most < losses);
    1.0 - fail as f64 / survived.len() as f64
}

#[cfg(test)]
mod tests {
    use super::*;
    use crate::stopping::smallest;
    use differential::volumes::Volume;
    use reference::repair::{output_len, repair, End};
    use reference::table::house;
    use reference::tree::{place, tree_symbols};

    const DEPTH: usize = 5;

    /// How the reference's repair of a real tree ends after a loss in one layer, and what is still absent there.
    fn repaired(volume: &Volume, layer: usize, lost: Set) -> (End, Set) {
        let mut tree = volume.tree.clone();
        let mut marks = vec![1; tree_symbols(DEPTH)];
        let mut output = vec![0; output_len(DEPTH)];
        lost.numbers().for_each(|symbol| marks[place(layer, symbol)] = 0);
        let done =
            repair(DEPTH as u64, &volume.record, &volume.table, &mut tree, &mut marks, &mut output);
        let absent =
            (0..Layer::house(layer).symbols).filter(|&symbol| marks[place(layer, symbol)] == 0);
        (done.expect("a repair").end, absent.collect())
    }

    fn volume() -> Volume {
        Volume::new(DEPTH, &house(DEPTH), &mut Random::new(SEED))
    }

    #[test]
    fn a_repair_leaves_what_is_left() {
        let (volume, mut random) = (volume(), Random::new(SEED));
        for turn in 0..500 {
            let number = turn % DEPTH;
            let layer = Layer::house(number);
            let parts = random.below(100);
            let lost: Set = (0..layer.symbols).filter(|_| random.below(100) < parts).collect();
            let left = layer.left(lost);
            let end = if left == Set::default() { End::Whole } else { End::Unavailable(number) };
            assert_eq!(repaired(&volume, number, lost), (end, left));
        }
    }

    #[test]
    fn the_smallest_stopping_sets_stop_and_nothing_less() {
        let volume = volume();
        for number in 0..DEPTH {
            let (set, _) = smallest(&Layer::house(number));
            assert_eq!(repaired(&volume, number, set), (End::Unavailable(number), set));
            for symbol in set.numbers() {
                let less = set.without(symbol);
                assert_eq!(repaired(&volume, number, less), (End::Whole, Set::default()));
            }
        }
    }

    #[test]
    fn chances() {
        let survived = [2, 4, 4, 6];
        assert_eq!(average(&survived, 8), 0.5);
        assert_eq!(
            [0.25, 0.5, 0.75, 1.0].map(|loss| chance(&survived, 8, loss)),
            [1.0, 0.75, 0.25, 0.0]
        );
    }
}
