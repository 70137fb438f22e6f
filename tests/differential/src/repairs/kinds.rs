//! Trees by records of the other kind, and pages that are filed at another place.

use super::losses::ends;
use super::of;
use crate::comparisons::Comparisons;
use crate::difference::Compared;
use crate::input::Input;
use crate::records::{put_kind, root_mut, DEPTH};
use crate::results::ended;
use crate::stops::turns;
use crate::tables::lists::some_table;
use crate::volumes::{some_symbol, Volume};
use reference::kind::{Kind, KINDS};
use reference::repair::{End, Repaired};
use reference::table::{data_symbols, house};
use reference::tree::{base_data, place, symbol_at, HASH, SYMBOL};

/// The same tree and the same 512 bytes by a record of the other kind: every symbol of layer 0 is
/// a bad copy, so that none can be formed.
pub fn other_kinds(c: &mut Comparisons) -> Compared {
    for &depth in c.sizes {
        for turn in 0..turns(depth, 40) + 1 {
            let words = some_table(depth, &mut c.random);
            let volume = some_volume(KINDS[turn % 2], depth, &words, c);
            let mut input = of(&volume, &mut c.random);
            put_kind(&mut input, DEPTH, volume.kind.other() as u32);
            ends(c, "a record of the other kind", &input, End::Unavailable(0), 0)?;
            c.met.outcomes.count("a record of the other kind");
        }
    }
    Ok(())
}

/// A volume of a kind and a random block.
fn some_volume(kind: Kind, depth: usize, words: &[u32], c: &mut Comparisons) -> Volume {
    let block = c.random.bytes(data_symbols(depth - 1) * SYMBOL);
    Volume::of(kind, depth, words, &block)
}

/// A symbol of the tree of the other kind, of the same block, in the place of one: of the base the
/// same, above it a bad copy, since another hash stands in it.
pub fn symbols_of_the_other_kind(c: &mut Comparisons) -> Compared {
    for &depth in c.sizes {
        for turn in 0..turns(depth, 40) + 1 {
            let words = house(depth);
            let volume = some_volume(KINDS[turn % 2], depth, &words, c);
            let other =
                Volume::of(volume.kind.other(), depth, &words, base_data(depth, &volume.tree));
            let layer = (turn + 1) % depth;
            let place = place(layer, some_symbol(layer, &mut c.random));
            let mut input = of(&volume, &mut c.random);
            file(&mut input, place, symbol_at(&other.tree, place));
            makes_whole(c, "a symbol of the other kind", &input, &volume)?;
        }
    }
    Ok(())
}

/// Puts bytes at a place.
fn file(input: &mut Input, place: usize, bytes: &[u8]) {
    input["tree"][SYMBOL * place..SYMBOL * (place + 1)].copy_from_slice(bytes);
}

/// A tree with one symbol that may be another than the volume's: it comes back, and is stored just
/// where it was another.
fn makes_whole(c: &mut Comparisons, what: &str, input: &Input, volume: &Volume) -> Compared {
    let stored = usize::from(input["tree"] != volume.tree);
    ends(c, what, input, End::Whole, stored)?;
    c.met.outcomes.count(&format!("{what}, stored {stored}"));
    Ok(())
}

/// A page of the base at the place of another: of either kind it is a bad copy, but where the two
/// are equal.
pub fn filed_elsewhere(c: &mut Comparisons) -> Compared {
    for &depth in c.sizes {
        for turn in 0..turns(depth, 60) + 2 {
            let (kind, base) = (KINDS[turn % 2], depth - 1);
            let equal = c.random.bytes(SYMBOL).repeat(data_symbols(base));
            let volume = match turn % 3 {
                0 => Volume::of(kind, depth, &house(depth), &equal),
                1 => Volume::of(kind, depth, &house(depth), &[]),
                _ => some_volume(kind, depth, &house(depth), c),
            };
            let [one, other] = [0, 1].map(|_| place(base, c.random.below(data_symbols(base))));
            let mut input = of(&volume, &mut c.random);
            file(&mut input, other, symbol_at(&volume.tree, one));
            makes_whole(c, "a page at another place", &input, &volume)?;
        }
    }
    Ok(())
}

/// The hashes of two data pages of layer 0 of a blank volume in each other's place. In a plain one
/// they are equal, and nobody notices; with places both pages are bad copies, though at depth 1
/// they are equal too, and what the equations give for them, the same again, shows a fault.
pub fn exchanged_hashes(c: &mut Comparisons) -> Compared {
    for &depth in c.sizes {
        for turn in 0..turns(depth, 20) + 1 {
            let kind = KINDS[turn % 2];
            let volume = Volume::of(kind, depth, &house(depth), &[]);
            let mut input = of(&volume, &mut c.random);
            let one = c.random.below(3);
            let other = one + 1 + c.random.below(3 - one);
            // With places pages of layer 0 that have hashes in them are not equal.
            let equal = symbol_at(&volume.tree, one) == symbol_at(&volume.tree, other);
            assert_eq!(equal, kind == Kind::Plain || depth == 1);
            let root = root_mut(&mut input);
            (0..HASH).for_each(|i| root.swap(HASH * one + i, HASH * other + i));
            let end = ended(c.make("hashes exchanged", &input)?).map(|repaired| repaired.end);
            match (kind, end) {
                (Kind::Plain, Some(End::Whole)) => c.met.outcomes.count("exchanged, not noticed"),
                (Kind::Placed, Some(End::Fault(_))) => c.met.outcomes.count("exchanged, noticed"),
                (kind, end) => panic!("{kind:?} ended with {end:?}"),
            }
        }
    }
    Ok(())
}

/// A volume of equal pages is repaired as any: all parity lost, or some data.
pub fn equal_pages(c: &mut Comparisons) -> Compared {
    for &depth in c.sizes {
        for turn in 0..turns(depth, 24) + 1 {
            let (kind, words) = (KINDS[turn % 2], some_table(depth, &mut c.random));
            let page = c.random.bytes(SYMBOL);
            let block = [vec![], page.repeat(data_symbols(depth - 1))];
            let volume = Volume::of(kind, depth, &words, &block[turn / 2 % 2]);
            let mut input = of(&volume, &mut c.random);
            let result = ended(c.make("equal pages", &input)?);
            assert_eq!(result, Some(Repaired { end: End::Whole, stored: 0 }));
            super::lose_some(&mut input, &volume.all_symbols(), 16 + turn, &mut c.random);
            c.make("equal pages, some lost", &input)?;
        }
    }
    Ok(())
}
