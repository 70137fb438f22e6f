//! Proofs in form: of miscoded trees, which show a fault, and of correctly
//! coded ones, which do not.

use super::{make_for_right_tree, of, of_fault};
use crate::comparisons::Comparisons;
use crate::difference::Compared;
use crate::input::Input;
use crate::records::{put_kind, put_table, put_value, DEPTH, LENGTH};
use crate::results::number;
use crate::stops::{sparse, DEEP, DEPTHS};
use crate::tables::lists::{random_table, some_table, table_of};
use crate::tables::uses::MOST;
use crate::volumes::{equation_of, some_parity, some_symbol, Volume};
use reference::kind::KINDS;
use reference::proof::{Head, HEAD};
use reference::repair::{output_len, repair, End};
use reference::stop::Stop;
use reference::table::{house, to_bytes};
use reference::tree::{symbols, tree_symbols, HASH};

/// Every equation with every member withheld, of a tree with one replaced
/// symbol and of one without.
pub fn withheld_members(c: &mut Comparisons) -> Compared {
    let again: &[usize] = if c.is_deep() { &[] } else { &[1, 2] };
    for depth in c.sizes.iter().chain(again).copied() {
        let random = random_table(depth, &mut c.random);
        let tables = [random, house(depth), table_of(depth, 8), table_of(depth, 2)];
        for words in tables.into_iter().take(if depth < DEEP { 4 } else { 1 }) {
            let right = Volume::new(depth, &words, &mut c.random);
            for layer in (0..depth).filter(|&l| depth < DEEP || l == depth - 1 || l == depth % 4) {
                let symbol = some_symbol(layer, &mut c.random);
                let faults = [(layer, symbol)];
                let wrong = Volume::miscoded(depth, &words, &faults, &mut c.random);
                withheld_members_of_layer(c, &right, &wrong, layer, symbol)?;
            }
        }
    }
    Ok(())
}

fn withheld_members_of_layer(
    c: &mut Comparisons,
    right: &Volume,
    wrong: &Volume,
    layer: usize,
    replaced: usize,
) -> Compared {
    let equations = &wrong.equations[layer];
    let with = equations.iter().position(|members| members.contains(&replaced));
    let with = with.filter(|_| wrong.depth >= DEEP);
    for equation in sparse(wrong.depth, equations.len()).into_iter().chain(with) {
        let members = &equations[equation];
        for &withheld in members {
            let head = Head { layer, equation, withheld };
            let input = of(right, right.proof(head));
            make_for_right_tree(c, "an equation that holds", &input)?;
            let input = of(wrong, wrong.proof(head));
            if members.contains(&replaced) {
                c.make_done("a fault", &input)?;
            } else {
                c.make("an equation without the fault", &input)?;
            }
        }
    }
    Ok(())
}

/// What a repair writes.
pub fn written_by_repair(c: &mut Comparisons) -> Compared {
    for _ in 0..c.turns(2500) {
        let depth = c.some_depth();
        let words = some_table(depth, &mut c.random);
        let layer = c.random.below(depth);
        let faults: Vec<(usize, usize)> = (0..1 + c.random.below(3))
            .map(|_| (layer, some_parity(layer, &mut c.random)))
            .collect();
        let mut volume = Volume::miscoded(depth, &words, &faults, &mut c.random);
        let mut marks = vec![1; tree_symbols(depth)];
        marks.fill_with(|| u8::from(c.random.below(16) > 0));
        let mut output = vec![0; output_len(depth)];
        let Volume { record, table, tree, .. } = &mut volume;
        let result = repair(depth as u64, record, table, tree, &mut marks, &mut output);
        if let End::Fault(len) = result.expect("a repair").end {
            let input = of(&volume, output[..len].to_vec());
            c.make_done("a repair's proof", &input)?;
        }
    }
    Ok(())
}

/// A record is for its depth alone. Where it is made for another, with the same root, a proof
/// passes whose layer that depth has.
pub fn other_depths(c: &mut Comparisons) -> Compared {
    for &depth in c.sizes {
        let words = house(depth);
        for layer in (0..depth).filter(|&l| depth < DEEP || l % 3 == depth % 3 || l == depth - 1) {
            let symbol = some_parity(layer, &mut c.random);
            let volume = Volume::miscoded(depth, &words, &[(layer, symbol)], &mut c.random);
            let head = volume.withholding(layer, equation_of(layer, symbol), &mut c.random);
            let mut input = of(&volume, volume.proof(head));
            for other in DEPTHS {
                input.set("depth", other as u64);
                put_table(&mut input, to_bytes(&house(other)));
                put_value(&mut input, LENGTH, 0);
                put_value(&mut input, DEPTH, depth as u32);
                let expected = if other == depth { Ok(()) } else { Err(Stop::WrongRecord) };
                c.make_so("another depth than the record's", &input, expected)?;
                put_value(&mut input, DEPTH, other as u32);
                let expected = if layer < other { Ok(()) } else { Err(Stop::Head) };
                c.make_so("a record of another depth", &input, expected)?;
            }
        }
    }
    Ok(())
}

/// The same proof and the same 512 bytes by a record of the other kind: it breaks at the first
/// member. Of each layer, of a fault and of none.
pub fn other_kinds(c: &mut Comparisons) -> Compared {
    for &depth in c.sizes {
        for layer in (0..depth).filter(|&l| depth < DEEP || l == depth - 1) {
            for _ in 0..if depth < DEEP { 8 } else { 2 } {
                let (_, volume, head) = of_fault(depth, layer, &mut c.random);
                let sound = Volume::new(depth, &volume.words(), &mut c.random);
                for volume in [volume, sound] {
                    let mut input = of(&volume, volume.proof(head));
                    put_kind(&mut input, DEPTH, volume.kind.other() as u32);
                    let stop = Stop::Hash { layer, position: Some(0) };
                    c.make_so("a record of the other kind", &input, Err(stop))?;
                }
            }
        }
    }
    Ok(())
}

/// The symbols are correctly coded, but the hash for the withheld one is
/// another, in one byte.
pub fn committed_otherwise(c: &mut Comparisons) -> Compared {
    for &depth in c.sizes {
        let words = some_table(depth, &mut c.random);
        let right = Volume::new(depth, &words, &mut c.random);
        for layer in 0..depth {
            let first = if depth < DEEP { 0 } else { 3 * layer };
            for byte in (first..HASH).step_by(if depth < DEEP { 1 } else { HASH }) {
                let head = right.some_head(layer, &mut c.random);
                let mut volume = right.clone();
                volume.break_hash(layer, head.withheld, byte);
                let input = of(&volume, volume.proof(head));
                c.make_done("another hash for the withheld member", &input)?;
            }
        }
    }
    Ok(())
}

/// Eight members in the base: the proof fills the output of a repair. It is accepted with any
/// member withheld, refused with its first or its last byte changed, with one byte more or
/// fewer, and where the tree is a right one.
pub fn longest_proofs(c: &mut Comparisons) -> Compared {
    for (&depth, kind) in c.sizes.iter().flat_map(|depth| KINDS.map(|kind| (depth, kind))) {
        let (base, words) = (depth - 1, table_of(depth, MOST));
        let last = symbols(base) - 1;
        let sound = Volume::miscoded_of(kind, depth, &words, &[], &mut c.random);
        let volume = Volume::miscoded_of(kind, depth, &words, &[(base, last)], &mut c.random);
        let equation = equation_of(base, last);
        for withheld in [0, 3, MOST - 1].map(|at| volume.equations[base][equation][at]) {
            let head = Head { layer: base, equation, withheld };
            let no_fault = of(&sound, sound.proof(head));
            c.make_so("the longest proof of a right tree", &no_fault, Err(Stop::NoFault))?;
            longest_proof(c, &of(&volume, volume.proof(head)))?;
        }
    }
    Ok(())
}

/// The longest proof of a fault, and the same with a byte changed, more or fewer.
fn longest_proof(c: &mut Comparisons, right: &Input) -> Compared {
    let (depth, len) = (right.number("depth") as usize, right["proof"].len());
    assert_eq!(len, output_len(depth));
    c.make_so("the longest proof", right, Ok(()))?;
    for (at, (layer, position)) in [(HEAD, (depth - 1, 0)), (len - 1, (0, MOST - 1))] {
        let mut input = right.clone();
        input["proof"][at] ^= 1;
        let result = c.make("a byte of the longest proof", &input)?;
        // The last byte may be one of the hash for the symbol below it.
        let stops = [layer, layer + 1]
            .map(|layer| number(Err(Stop::Hash { layer, position: Some(position) })));
        assert!(depth == 1 || stops.contains(&result), "{result}");
    }
    for other in [len - 1, len + 1] {
        let mut input = right.clone();
        input["proof"].resize(other, 0);
        c.make_so("the longest proof, cut or longer", &input, Err(Stop::Length))?;
    }
    Ok(())
}
