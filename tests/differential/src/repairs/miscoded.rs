//! Trees that are not correctly coded, though their hashes fit.

use super::{lose, lose_some, of, spoil};
use crate::comparisons::Comparisons;
use crate::difference::Compared;
use crate::input::Input;
use crate::random::Random;
use crate::results::ended;
use crate::stops::DEEP;
use crate::tables::lists::any_table;
use crate::volumes::{equation_of, some_parity, some_symbol, Volume};
use reference::proof::HEAD;
use reference::repair::{End, Repaired};
use reference::tree::{HASH, SYMBOL};

/// One replaced symbol of each layer: all held, the symbol itself absent
/// or a bad copy, or another member of its equation absent.
pub fn one_fault(c: &mut Comparisons) -> Compared {
    for turn in 0..if c.is_deep() { 1 } else { 60 } {
        for &depth in c.sizes.iter().filter(|&depth| turn % depth == 0) {
            for layer in (0..depth).filter(|&l| depth < DEEP || l == depth - 1 || l == depth % 5) {
                let (volume, parity) = Volume::with_fault(depth, layer, &mut c.random);
                let right = of(&volume, &mut c.random);
                shows_fault(c, "all held", &right, layer)?;
                let mut input = right.clone();
                lose(&mut input, layer, parity, &mut c.random);
                shows_fault(c, "the replaced one absent", &input, layer)?;
                let mut input = right.clone();
                spoil(&mut input, layer, parity, &mut c.random);
                shows_fault(c, "the replaced one a bad copy", &input, layer)?;
                let equation = equation_of(layer, parity);
                let head = volume.withholding(layer, equation, &mut c.random);
                let mut input = right.clone();
                lose(&mut input, layer, head.withheld, &mut c.random);
                shows_fault(c, "a member beside it absent", &input, layer)?;
            }
        }
    }
    Ok(())
}

/// A call that must end with a fault in this layer.
fn shows_fault(c: &mut Comparisons, what: &str, input: &Input, layer: usize) -> Compared {
    match ended(c.make(what, input)?) {
        Some(Repaired { end: End::Fault(len), .. }) => {
            assert!(len > HEAD && len % SYMBOL == HEAD, "a proof of {len} bytes");
            c.met.outcomes.count(&format!("layer {layer}"));
        }
        other => panic!("{other:?} is no fault: {}", input.description()),
    }
    Ok(())
}

/// Several replaced symbols of one layer, data too, and losses and bad
/// copies: which equation is taken first decides.
pub fn some_faults(c: &mut Comparisons) -> Compared {
    for turn in 0..c.turns(5500) {
        let depth = c.some_depth();
        let words = any_table(depth, &mut c.random);
        let layer = c.random.below(depth);
        let faults = some_symbols(layer, &mut c.random);
        let volume = Volume::miscoded(depth, &words, &faults, &mut c.random);
        let mut input = of(&volume, &mut c.random);
        let parts = [0, 8, 24, 48, 80][turn % 5];
        lose_some(&mut input, &volume.all_symbols(), parts, &mut c.random);
        if turn % 3 == 0 {
            for (layer, symbol) in some_symbols(layer, &mut c.random) {
                spoil(&mut input, layer, symbol, &mut c.random);
            }
        }
        c.make("some replaced", &input)?;
    }
    Ok(())
}

/// Replaced symbols in more than one layer: the topmost shows.
pub fn faults_in_some_layers(c: &mut Comparisons) -> Compared {
    for turn in 0..c.turns(500) {
        let depth = if c.is_deep() { c.some_depth() } else { 2 + turn % 4 };
        let words = any_table(depth, &mut c.random);
        let mut faults = Vec::new();
        for _ in 0..3 {
            let layer = c.random.below(depth);
            faults.push((layer, some_parity(layer, &mut c.random)));
        }
        let volume = Volume::miscoded(depth, &words, &faults, &mut c.random);
        let mut input = of(&volume, &mut c.random);
        lose_some(&mut input, &volume.all_symbols(), turn % 40, &mut c.random);
        c.make("replaced in some layers", &input)?;
    }
    Ok(())
}

/// The symbols are correctly coded, but the hash for one is another.
pub fn other_hashes(c: &mut Comparisons) -> Compared {
    for turn in 0..c.turns(800) {
        let depth = c.some_depth();
        let words = any_table(depth, &mut c.random);
        let mut volume = Volume::new(depth, &words, &mut c.random);
        let layer = c.random.below(depth);
        let symbol = some_symbol(layer, &mut c.random);
        volume.break_hash(layer, symbol, c.random.below(HASH));
        let mut input = of(&volume, &mut c.random);
        lose_some(&mut input, &volume.all_symbols(), turn % 60, &mut c.random);
        c.make("another hash", &input)?;
    }
    Ok(())
}

/// One to four symbols of a layer.
fn some_symbols(layer: usize, random: &mut Random) -> Vec<(usize, usize)> {
    (0..1 + random.below(4)).map(|_| (layer, some_symbol(layer, random))).collect()
}
