//! Changes to buffers, six bytes of a recipe to each: what to do, in which
//! buffer, where (three bytes), and with which byte.

use reference::tree::SYMBOL;

const EDIT: usize = 6;

/// The most that a buffer grows to.
const LONGEST: usize = 1 << 22;

/// Makes the changes that the bytes describe.
pub fn apply(edits: &[u8], buffers: &mut [Vec<u8>]) {
    for edit in edits.chunks_exact(EDIT) {
        let at = u32::from_be_bytes([0, edit[2], edit[3], edit[4]]) as usize;
        let buffer = usize::from(edit[1]) % buffers.len();
        change(&mut buffers[buffer], edit[0], at, edit[5]);
    }
}

fn change(buffer: &mut Vec<u8>, what: u8, at: usize, byte: u8) {
    let len = buffer.len();
    let amount = usize::from(byte);
    if what % 7 == 0 {
        return buffer.resize((len + amount).saturating_sub(128).min(LONGEST), byte);
    }
    if len == 0 {
        return;
    }
    let at = at % len;
    let word = at - at % 4;
    match what % 7 {
        1 => buffer[at] = byte,
        2 => buffer[at] ^= byte,
        3 => buffer[at..len.min(at + amount)].fill(0),
        4 => drop(buffer.drain(word..len.min(word + 4))),
        5 => drop(buffer.splice(word..word, [0, 0, 0, byte])),
        _ => swap_symbols(buffer, at / SYMBOL, amount % (len / SYMBOL).max(1)),
    }
}

fn swap_symbols(buffer: &mut [u8], one: usize, other: usize) {
    if SYMBOL * (one.max(other) + 1) <= buffer.len() {
        (0..SYMBOL).for_each(|i| buffer.swap(SYMBOL * one + i, SYMBOL * other + i));
    }
}
