//! Correctly coded trees of which symbols are absent or bad copies, and junk.

use super::{lose, lose_some, of, spoil, REPAIR};
use crate::comparisons::Comparisons;
use crate::difference::Compared;
use crate::input::Input;
use crate::records::put_root;
use crate::results::repaired;
use crate::stops::{turns, DEEP};
use crate::tables::lists::{any_table, some_table};
use crate::volumes::Volume;
use reference::repair::{End, Repaired};
use reference::table::{data_symbols, house};
use reference::tree::{place, symbols, tree_symbols, ROOT, SYMBOL};

/// Parts of 256 that are lost: none to all.
const PARTS: [usize; 9] = [0, 4, 16, 32, 64, 96, 120, 180, 256];

/// Gaps of the house table's layer 0 that no equation meets exactly once.
const STOPPING_SET: [usize; 7] = [0, 4, 5, 6, 8, 9, 12];

/// A tree of the house table or of a random one, of some depth.
fn some_volume(c: &mut Comparisons) -> Volume {
    let depth = c.some_depth();
    let words = some_table(depth, &mut c.random);
    Volume::new(depth, &words, &mut c.random)
}

/// The same of a table that may not be covered.
fn any_volume(c: &mut Comparisons) -> Volume {
    let depth = c.some_depth();
    let words = any_table(depth, &mut c.random);
    Volume::new(depth, &words, &mut c.random)
}

/// In the top layer, with a symbol beside it that can be stored, or none;
/// and every symbol of each layer.
pub fn known_stopping_sets(c: &mut Comparisons) -> Compared {
    for &depth in c.sizes {
        let volume = Volume::new(depth, &house(depth), &mut c.random);
        for more in [None, Some(15)] {
            let mut input = of(&volume, &mut c.random);
            for symbol in STOPPING_SET.into_iter().chain(more) {
                lose(&mut input, 0, symbol, &mut c.random);
            }
            let stored = more.into_iter().count();
            ends(c, "a known stopping set", &input, End::Unavailable(0), stored)?;
        }
        for layer in (0..depth).filter(|&l| depth < DEEP || l % 4 == 0 || l == depth - 1) {
            let mut input = of(&volume, &mut c.random);
            for symbol in 0..symbols(layer) {
                lose(&mut input, layer, symbol, &mut c.random);
            }
            ends(c, "a layer lost", &input, End::Unavailable(layer), 0)?;
        }
    }
    Ok(())
}

/// All parity of all layers, absent or bad copies: the data give it back,
/// by any table.
pub fn lost_parity(c: &mut Comparisons) -> Compared {
    for turn in 0..if c.is_deep() { c.sizes.len() } else { 20 } {
        let depth = c.sizes[turn % c.sizes.len()];
        let words = some_table(depth, &mut c.random);
        let volume = Volume::new(depth, &words, &mut c.random);
        let mut input = of(&volume, &mut c.random);
        let parity = |&(layer, symbol): &(usize, usize)| symbol >= data_symbols(layer);
        for (layer, symbol) in volume.all_symbols().into_iter().filter(parity) {
            match turn % 2 {
                0 => lose(&mut input, layer, symbol, &mut c.random),
                _ => spoil(&mut input, layer, symbol, &mut c.random),
            }
        }
        let stored = 3 * tree_symbols(depth) / 4;
        ends(c, "all parity lost", &input, End::Whole, stored)?;
    }
    Ok(())
}

/// Many sets of the sixteen symbols of depth 1.
pub fn sets_of_one_layer(c: &mut Comparisons) -> Compared {
    if c.is_deep() {
        return Ok(());
    }
    for turn in 0..6000 {
        let words = any_table(1, &mut c.random);
        let volume = Volume::new(1, &words, &mut c.random);
        let mut input = of(&volume, &mut c.random);
        let parts = PARTS[turn % PARTS.len()];
        lose_some(&mut input, &volume.all_symbols(), parts, &mut c.random);
        c.make("some of sixteen lost", &input)?;
    }
    Ok(())
}

/// Each place alone: absent, and a bad copy.
pub fn one_symbol(c: &mut Comparisons) -> Compared {
    for &depth in c.sizes {
        let volume = Volume::new(depth, &house(depth), &mut c.random);
        let right = of(&volume, &mut c.random);
        let all = volume.all_symbols();
        let some = if depth < DEEP { all.len() } else { turns(depth, 64) + 1 };
        for at in (0..some).map(|at| at * (all.len() - 1) / (some - 1)) {
            let (layer, symbol) = all[at];
            if (4..DEEP).contains(&depth) && c.random.below(4) > 0 {
                continue;
            }
            let mut input = right.clone();
            lose(&mut input, layer, symbol, &mut c.random);
            ends(c, "one absent", &input, End::Whole, 1)?;
            let mut input = right.clone();
            spoil(&mut input, layer, symbol, &mut c.random);
            ends(c, "one bad copy", &input, End::Whole, 1)?;
        }
    }
    Ok(())
}

pub fn random_losses(c: &mut Comparisons) -> Compared {
    for turn in 0..c.turns(3000) {
        let volume = any_volume(c);
        let mut input = of(&volume, &mut c.random);
        let parts = PARTS[turn % PARTS.len()];
        lose_some(&mut input, &volume.all_symbols(), parts, &mut c.random);
        c.make("some lost", &input)?;
    }
    Ok(())
}

/// Few lost above a layer that loses much, and any below.
pub fn lost_layers(c: &mut Comparisons) -> Compared {
    for turn in 0..c.turns(600) {
        let depth = if c.is_deep() { c.some_depth() } else { 2 + turn % 4 };
        let words = any_table(depth, &mut c.random);
        let volume = Volume::new(depth, &words, &mut c.random);
        let mut input = of(&volume, &mut c.random);
        let heavy = c.random.below(depth);
        for (layer, symbol) in volume.all_symbols() {
            let parts = if layer == heavy { PARTS[turn % PARTS.len()] } else { 12 };
            lose_some(&mut input, &[(layer, symbol)], parts, &mut c.random);
        }
        c.make("much lost of a layer", &input)?;
    }
    Ok(())
}

pub fn bad_copies(c: &mut Comparisons) -> Compared {
    for turn in 0..c.turns(3000) {
        let volume = any_volume(c);
        let mut input = of(&volume, &mut c.random);
        let parts = PARTS[turn % PARTS.len()];
        lose_some(&mut input, &volume.all_symbols(), parts / 2, &mut c.random);
        for (layer, symbol) in volume.all_symbols() {
            if c.random.below(256) < parts / 2 {
                spoil(&mut input, layer, symbol, &mut c.random);
            }
        }
        c.make("bad copies", &input)?;
    }
    Ok(())
}

/// The gaps that a repair left are all that is lost: nothing is stored in
/// that layer.
pub fn found_stopping_sets(c: &mut Comparisons) -> Compared {
    for _ in 0..c.turns(800) {
        let volume = some_volume(c);
        let right = of(&volume, &mut c.random);
        let layer = c.random.below(volume.depth);
        let of_layer: Vec<_> = (0..symbols(layer)).map(|symbol| (layer, symbol)).collect();
        let mut input = right.clone();
        lose_some(&mut input, &of_layer, 140, &mut c.random);
        let mut after = input.clone();
        (REPAIR.reference)(&mut after);
        let gaps =
            of_layer.into_iter().filter(|&(_, symbol)| after["marks"][place(layer, symbol)] == 0);
        let gaps: Vec<_> = gaps.collect();
        if !gaps.is_empty() {
            let mut input = right.clone();
            lose_some(&mut input, &gaps, 256, &mut c.random);
            ends(c, "a stopping set", &input, End::Unavailable(layer), 0)?;
        }
    }
    Ok(())
}

/// Random bytes, marks and roots, in some or in all of the buffers.
pub fn junk(c: &mut Comparisons) -> Compared {
    for turn in 0..c.turns(1100) {
        let volume = any_volume(c);
        let mut input = of(&volume, &mut c.random);
        let junk = 1 + turn % 7;
        if junk & 1 != 0 {
            input["tree"] = c.random.bytes(SYMBOL * tree_symbols(volume.depth));
        }
        if junk & 2 != 0 {
            input["marks"].fill_with(|| c.random.below(2) as u8);
        }
        if junk & 4 != 0 {
            put_root(&mut input, &c.random.bytes(ROOT));
        }
        c.make("junk", &input)?;
    }
    Ok(())
}

/// A call that must end so.
pub fn ends(c: &mut Comparisons, what: &str, input: &Input, end: End, stored: usize) -> Compared {
    let expected = repaired(Ok(Repaired { end, stored }));
    assert_eq!(c.make(what, input)?, expected, "{what}, {}", input.description());
    Ok(())
}
