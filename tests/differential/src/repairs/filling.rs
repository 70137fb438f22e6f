//! Trees whose block is filled up with other bytes than zeros, and such as are not.

use super::losses::ends;
use super::{lose, lose_some, of, spoil};
use crate::comparisons::Comparisons;
use crate::difference::Compared;
use crate::input::Input;
use crate::records::{put_value, LENGTH};
use crate::results::ended;
use crate::stops::{turns, DEEP};
use crate::tables::lists::some_table;
use crate::volumes::{lengths, some_kind, some_length, some_parity, Volume};
use reference::kind::KINDS;
use reference::repair::{End, Repaired};
use reference::tree::{block_len, symbols};

/// No other byte, and one: the first that fills up, a middle one, the last, and each that is
/// the last or the first of a symbol near. A full block is never misfilled. Of a deep depth one
/// of these for each second length. The kinds in turn, of those that are misfilled too.
pub fn one_byte(c: &mut Comparisons) -> Compared {
    for &depth in c.sizes {
        let mut kinds = [KINDS.into_iter().cycle(), KINDS.into_iter().cycle()];
        let all = lengths(depth).into_iter().enumerate();
        for (turn, length) in all.filter(|(turn, _)| depth < DEEP || turn % 2 == depth % 2) {
            let len = block_len(depth) - length;
            let near = [255, 256, 511, 512].map(|end: usize| end.saturating_sub(length % 256));
            let some = [0, len / 2, len.saturating_sub(1), 1, len.saturating_sub(256)];
            let some = some.into_iter().chain(near).filter(|&other| other < len).map(Some);
            let some = [None].into_iter().chain(some).enumerate();
            let chosen = |at: usize| depth < DEEP || at == (turn / 2 + depth) % 4 || len == 0;
            for other in some.filter(|&(at, _)| chosen(at)).map(|(_, other)| other) {
                let mut filling = vec![0; len];
                let byte = 1 << c.random.below(8);
                other.into_iter().for_each(|other| filling[other] = byte);
                let words = some_table(depth, &mut c.random);
                let kind = kinds[usize::from(other.is_some())].next().expect("a kind");
                let volume = Volume::filled_with(kind, depth, &words, &filling, &mut c.random);
                let end = other.map_or(End::Whole, |_| End::Misfilled);
                losses_of(c, &volume, end, turn)?;
            }
        }
    }
    Ok(())
}

/// All held, one absent, one a bad copy: of a larger depth one of these.
fn losses_of(c: &mut Comparisons, volume: &Volume, end: End, turn: usize) -> Compared {
    let right = of(volume, &mut c.random);
    for losses in (0..3).filter(|losses| volume.depth < 4 || turn % 3 == *losses) {
        let mut input = right.clone();
        // Of the base, where the block stands, or of the top.
        let layer = if c.random.below(2) == 0 { volume.depth - 1 } else { 0 };
        let symbol = c.random.below(symbols(layer));
        match losses {
            0 => {}
            1 => lose(&mut input, layer, symbol, &mut c.random),
            _ => spoil(&mut input, layer, symbol, &mut c.random),
        }
        ends(c, "a filling", &input, end, losses.min(1))?;
    }
    Ok(())
}

/// Random bytes that fill up, and losses and bad copies that may come back or not.
pub fn more_bytes(c: &mut Comparisons) -> Compared {
    for &depth in c.sizes {
        for turn in 0..turns(depth, 80) {
            let words = some_table(depth, &mut c.random);
            let kind = some_kind(&mut c.random);
            let volume = Volume::filled_with(kind, depth, &words, &[], &mut c.random);
            let mut input = of(&volume, &mut c.random);
            put_value(&mut input, LENGTH, some_length(depth, &mut c.random) as u32);
            lose_some(&mut input, &volume.all_symbols(), [0, 8, 24, 60][turn % 4], &mut c.random);
            c.make("a length that is said shorter", &input)?;
        }
    }
    Ok(())
}

/// A misfilled tree with a fault, or with a layer lost: its end is that.
pub fn other_ends(c: &mut Comparisons) -> Compared {
    for &depth in c.sizes {
        for turn in 0..turns(depth, 30) {
            let layer = turn % depth;
            let words = some_table(depth, &mut c.random);
            let fault = [(layer, some_parity(layer, &mut c.random))];
            let volume = Volume::miscoded(depth, &words, &fault, &mut c.random);
            let mut input = of(&volume, &mut c.random);
            put_value(&mut input, LENGTH, 0);
            is_fault(c, &input)?;
            let kind = some_kind(&mut c.random);
            let volume = Volume::filled_with(kind, depth, &words, &[], &mut c.random);
            let mut input = of(&volume, &mut c.random);
            put_value(&mut input, LENGTH, c.random.below(block_len(depth)) as u32);
            (0..symbols(layer)).for_each(|symbol| lose(&mut input, layer, symbol, &mut c.random));
            ends(c, "a layer lost of a misfilled tree", &input, End::Unavailable(layer), 0)?;
        }
    }
    Ok(())
}

fn is_fault(c: &mut Comparisons, input: &Input) -> Compared {
    match ended(c.make("a fault of a misfilled tree", input)?) {
        Some(Repaired { end: End::Fault(_), .. }) => Ok(()),
        other => panic!("{other:?} is no fault: {}", input.description()),
    }
}
