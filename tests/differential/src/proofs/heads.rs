//! Heads of every wrong sort.

use super::{each_fault, of_fault};
use crate::comparisons::Comparisons;
use crate::difference::Compared;
use crate::stops::{sparse, turns, DEEP};
use reference::proof::{proof_len, Head, HEAD};
use reference::table::{data_symbols, END, EQUATION, LAYER};
use reference::tree::symbols;

/// Values that are small ones only where bits are lost, or are shifts too far.
const LARGE: [u32; 12] = [
    31,
    32,
    62,
    63,
    64,
    1 << 8,
    1 << 16,
    1 << 24,
    1 << 29,
    (1 << 29) + (1 << 28),
    (1 << 30) - 2,
    (1 << 30) - 1,
];

/// Each word of the head with each kind.
pub fn kinds(c: &mut Comparisons) -> Compared {
    each_fault(c, |c, right, volume, head| {
        for kinds in (0..1 << 6).step_by(if volume.depth < DEEP { 1 } else { 5 }) {
            let kind = |word: u32| kinds >> (2 * word) & 3;
            let mut input = right.clone();
            put_head(&mut input["proof"], head, [kind(0), kind(1), kind(2)]);
            c.make("kinds", &input)?;
        }
        Ok(())
    })
}

/// Each word with each value that is near, and with large ones.
pub fn values(c: &mut Comparisons) -> Compared {
    each_fault(c, |c, right, volume, head| {
        let near = [12, 3 * data_symbols(head.layer) + 4, symbols(head.layer) + 4];
        let now = [head.layer, head.equation, head.withheld];
        for word in 0..3 {
            let large = LARGE.into_iter().flat_map(|l| [l, l | now[word] as u32]);
            let near = sparse(volume.depth, near[word]).into_iter().map(|value| value as u32);
            for value in near.chain(large) {
                let mut input = right.clone();
                put_value(&mut input["proof"], word, value);
                c.make("a value", &input)?;
            }
        }
        Ok(())
    })
}

/// Each bit of the head.
pub fn bits(c: &mut Comparisons) -> Compared {
    each_fault(c, |c, right, volume, _| {
        for bit in (0..8 * HEAD).step_by(if volume.depth < DEEP { 1 } else { 3 }) {
            let mut input = right.clone();
            input["proof"][bit / 8] ^= 0x80 >> (bit % 8);
            c.make("a bit of the head", &input)?;
        }
        Ok(())
    })
}

/// Heads, in form or not, before bodies of the length that they demand, or
/// of another.
pub fn heads_before_bodies(c: &mut Comparisons) -> Compared {
    for &depth in c.sizes {
        let (right, volume, _) = of_fault(depth, depth - 1, &mut c.random);
        let most = if depth < DEEP { 64 } else { 4100 };
        for turn in 0..turns(depth, 1000) {
            let layer = c.random.below(depth);
            let head = volume.some_head(layer, &mut c.random);
            let mut input = right.clone();
            input["proof"] = head.bytes();
            if turn % 2 == 0 {
                let word = c.random.below(3);
                put_value(&mut input["proof"], word, c.random.below(most) as u32);
            }
            let len = match turn % 5 {
                0 => HEAD,
                1 => c.random.below(if depth < DEEP { 12_000 } else { 20_000 }).max(HEAD),
                2 => proof_len(layer, 2 + c.random.below(7)) + c.random.below(2),
                _ => proof_len(layer, volume.members(head).len()),
            };
            input["proof"].resize(len, 0);
            c.make("a head before a body of some length", &input)?;
        }
    }
    Ok(())
}

/// Writes a head with these kinds.
fn put_head(proof: &mut [u8], head: Head, kinds: [u32; 3]) {
    let right = [LAYER, EQUATION, END];
    let words = [head.layer, head.equation, head.withheld];
    for ((bytes, value), (kind, right)) in
        proof.chunks_mut(4).zip(words).zip(kinds.into_iter().zip(right))
    {
        bytes.copy_from_slice(&((kind ^ right) << 30 | value as u32).to_be_bytes());
    }
}

/// Gives a word of the head another value.
fn put_value(proof: &mut [u8], word: usize, value: u32) {
    let bytes = &mut proof[4 * word..4 * word + 4];
    let kind = bytes[0] & 0xc0;
    bytes.copy_from_slice(&value.to_be_bytes());
    bytes[0] |= kind;
}
