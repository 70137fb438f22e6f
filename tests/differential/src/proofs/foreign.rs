//! Proofs for another root or table, damaged ones for the root of a correctly
//! coded tree, and bytes that are no proofs.

use super::{make_for_right_tree, of, of_fault};
use crate::comparisons::Comparisons;
use crate::difference::Compared;
use crate::records::{put_root, put_table};
use crate::stops::{turns, DEEP};
use crate::tables::lists::{any_table, random_table};
use crate::volumes::{some_symbol, Volume};
use reference::proof::{self, Head, HEAD};
use reference::table::{house, to_bytes};
use reference::tree::{symbol_at, ROOT, SYMBOL};

/// A proof for another root or another table of its depth. A correctly
/// coded tree has the other root.
pub fn other_volumes(c: &mut Comparisons) -> Compared {
    for _ in 0..c.turns(400) {
        let depth = c.some_depth();
        let layer = c.random.below(depth);
        let (right, volume, _) = of_fault(depth, layer, &mut c.random);
        let words = volume.words();
        let other = Volume::new(depth, &words, &mut c.random);
        let mut input = of(&other, right["proof"].clone());
        make_for_right_tree(c, "the root of another tree", &input)?;
        put_root(&mut input, &c.random.bytes(ROOT));
        c.make("a random root", &input)?;
        for words in [house(depth), any_table(depth, &mut c.random)] {
            let mut input = right.clone();
            put_table(&mut input, to_bytes(&words));
            c.make("another table", &input)?;
        }
    }
    Ok(())
}

/// Proofs of another equation than the table's, in which a symbol that is no
/// member stands for one: for the withheld one, or for a given one.
pub fn forged_members(c: &mut Comparisons) -> Compared {
    for &depth in c.sizes {
        for turn in 0..turns(depth, 200) {
            let words = any_table(depth, &mut c.random);
            let volume = Volume::new(depth, &words, &mut c.random);
            let layer = turn % depth;
            let head = volume.some_head(layer, &mut c.random);
            let mut members = volume.members(head).to_vec();
            let replaced = c.random.below(members.len());
            let other = some_symbol(layer, &mut c.random);
            if members.contains(&other) {
                continue;
            }
            let withheld = if turn % 2 == 0 { other } else { members[replaced] };
            members[replaced] = other;
            let proof = proof::write(Head { withheld, ..head }, &members, &volume.tree);
            make_for_right_tree(c, "a forged member", &of(&volume, proof))?;
        }
    }
    Ok(())
}

/// Bytes that are no proofs, with a head that is one or without.
pub fn random_proofs(c: &mut Comparisons) -> Compared {
    for turn in 0..c.turns(3000) {
        let depth = c.some_depth();
        let words = random_table(depth, &mut c.random);
        let volume = Volume::new(depth, &words, &mut c.random);
        let layer = c.random.below(depth);
        let head = volume.some_head(layer, &mut c.random);
        let right = volume.proof(head);
        let len = match turn % 4 {
            0 => c.random.below(2 * HEAD),
            1 => c.random.below(if depth < DEEP { 12_000 } else { 20_000 }),
            2 => HEAD + SYMBOL * c.random.below(40),
            _ => right.len(),
        };
        let mut proof = c.random.bytes(len);
        if len >= HEAD && turn % 8 > 3 {
            proof[..HEAD].copy_from_slice(&right[..HEAD]);
        }
        make_for_right_tree(c, "random bytes", &of(&volume, proof))?;
    }
    Ok(())
}

/// Proofs of correctly coded trees, damaged in some ways at once.
pub fn damage_for_right_trees(c: &mut Comparisons) -> Compared {
    for _ in 0..c.turns(650) {
        let depth = c.some_depth();
        let words = any_table(depth, &mut c.random);
        let volume = Volume::new(depth, &words, &mut c.random);
        let layer = c.random.below(depth);
        for _ in 0..10 {
            let head = volume.some_head(layer, &mut c.random);
            let mut input = of(&volume, volume.proof(head));
            for _ in 0..1 + c.random.below(3) {
                damage(c, &mut input["proof"], &volume);
            }
            make_for_right_tree(c, "a damaged proof of a right tree", &input)?;
        }
    }
    Ok(())
}

/// Changes a byte of the head or of a symbol, or puts another symbol of
/// the tree, or random bytes, in the place of one.
fn damage(c: &mut Comparisons, proof: &mut [u8], volume: &Volume) {
    let symbols = (proof.len() - HEAD) / SYMBOL;
    let start = HEAD + SYMBOL * c.random.below(symbols);
    match c.random.below(4) {
        0 => proof[c.random.below(HEAD)] ^= 1 << c.random.below(8),
        1 => proof[start + c.random.below(SYMBOL)] ^= 1 << c.random.below(8),
        2 => {
            let all = volume.tree.len() / SYMBOL;
            let other = symbol_at(&volume.tree, c.random.below(all));
            proof[start..start + SYMBOL].copy_from_slice(other);
        }
        _ => proof[start..start + SYMBOL].copy_from_slice(&c.random.bytes(SYMBOL)),
    }
}
