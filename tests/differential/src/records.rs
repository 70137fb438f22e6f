//! Records that a call reads: tests 11 and 12, and calls with every head.

pub mod heads;
pub mod named;

#[cfg(test)]
mod mutants;

use crate::call::{Call, Length};
use crate::input::Input;
use reference::kind::Kind;
use reference::record::{self, Head, HEAD, RECORD};
use reference::tree::HASH;

pub const RECORD_LEN: Length = Length::Of(|_| RECORD);

/// The words of a head.
pub const DEPTH: usize = 0;
pub const LENGTH: usize = 1;
pub const COUNT: usize = 2;

/// The largest value of a word.
pub const LARGEST: u32 = (1 << 30) - 1;

/// Whether a call reads a record.
pub fn is_lent(call: &Call) -> bool {
    call.buffers().any(|buffer| buffer.name == "record" && !buffer.written)
}

/// The root inside a call's record.
pub fn root(input: &Input) -> &[u8] {
    record::root(&input["record"])
}

pub fn root_mut(input: &mut Input) -> &mut [u8] {
    &mut input["record"][HEAD..]
}

/// Puts a root into a call's record.
pub fn put_root(input: &mut Input, root: &[u8]) {
    root_mut(input).copy_from_slice(root);
}

/// Puts a head before the root of a call's record.
pub fn put_head(input: &mut Input, head: &Head) {
    input["record"].splice(..HEAD, head.bytes());
}

/// The kind of volume that a call's record says, if it is one.
pub fn kind(input: &Input) -> Option<Kind> {
    let first = input["record"].first()?;
    Kind::told(u64::from(first >> 6)).ok()
}

/// The hash of a head, and the values of its words, whatever their kinds: that of the volume is
/// plain where the record says none. Nothing where the record is shorter than a head.
pub fn head(input: &Input) -> Option<Head> {
    let bytes = input["record"].get(..HEAD)?;
    let mut hash = [0; HASH];
    hash.copy_from_slice(&bytes[HEAD - HASH..]);
    let [depth, length, words] =
        [DEPTH, LENGTH, COUNT].map(|index| (word(bytes, index) & LARGEST) as usize);
    let kind = kind(input).unwrap_or(Kind::Plain);
    Some(Head { kind, depth, length, words, hash })
}

/// A word of a head.
fn word(head: &[u8], index: usize) -> u32 {
    head[4 * index..4 * index + 4].iter().fold(0, |word, &byte| word << 8 | u32::from(byte))
}

/// Gives a word of a call's head another kind.
pub fn put_kind(input: &mut Input, index: usize, kind: u32) {
    let byte = &mut input["record"][4 * index];
    *byte = *byte & 0x3f | (kind << 6) as u8;
}

/// Gives a word of a call's head another value.
pub fn put_value(input: &mut Input, index: usize, value: u32) {
    let word = word(&input["record"], index) & !LARGEST | value;
    input["record"][4 * index..4 * index + 4].copy_from_slice(&word.to_be_bytes());
}

/// Makes the record name the call's table.
pub fn name_table(input: &mut Input) {
    let named = Head::of(Kind::Plain, 0, 0, &input["table"]);
    put_value(input, COUNT, named.words as u32);
    input["record"][HEAD - HASH..HEAD].copy_from_slice(&named.hash);
}

/// Gives a call another table. Where its record named the one before, it names this one.
pub fn put_table(input: &mut Input, table: Vec<u8>) {
    let names = is_lent(input.call) && head(input).is_some() && named::is_named(input);
    input["table"] = table;
    if names {
        name_table(input);
    }
}
