//! Wrong ways to ask tests 11 and 12.

use super::{head, word};
use crate::call::Ask;
use crate::input::Input;
use reference::kind::Kind;
use reference::record::{Head, KINDS};
use reference::sha256::sha256;
use reference::stop::Stop;
use reference::tree::block_len;

/// Of test 11.
pub const HEADS: &[(&str, Ask)] = &[
    ("the first kind not looked at", |i| heads(&Rules { kinds: [ANY, &[2], &[3]], ..RULES }, i)),
    ("the second kind not looked at", |i| {
        heads(&Rules { kinds: [&[0, 1], ANY, &[3]], ..RULES }, i)
    }),
    ("the third kind not looked at", |i| heads(&Rules { kinds: [&[0, 1], &[2], ANY], ..RULES }, i)),
    ("no kind looked at", |i| heads(&Rules { kinds: [ANY; 3], ..RULES }, i)),
    ("one bit of a kind", |i| heads(&Rules { kinds: [ANY, &[0, 2], &[1, 3]], ..RULES }, i)),
    ("the other bit of a kind", |i| {
        heads(&Rules { kinds: [&[0, 1], &[2, 3], &[2, 3]], ..RULES }, i)
    }),
    ("kinds in another order", |i| heads(&Rules { kinds: [&[3], &[2], &[0, 1]], ..RULES }, i)),
    ("kind 00 refused", |i| heads(&Rules { kinds: [&[1], &[2], &[3]], ..RULES }, i)),
    ("kind 01 refused", |i| heads(&Rules { kinds: [&[0], &[2], &[3]], ..RULES }, i)),
    ("kind 10 taken", |i| heads(&Rules { kinds: [&[0, 1, 2], &[2], &[3]], ..RULES }, i)),
    ("kind 11 taken", |i| heads(&Rules { kinds: [&[0, 1, 3], &[2], &[3]], ..RULES }, i)),
    ("no length looked at", |i| heads(&Rules { long: |_, _| false, ..RULES }, i)),
    ("a length of one byte more taken", |i| {
        heads(&Rules { long: |length, most| length > most + 1, ..RULES }, i)
    }),
    ("the longest length refused", |i| {
        heads(&Rules { long: |length, most| length >= most, ..RULES }, i)
    }),
    ("no length refused", |i| {
        heads(&Rules { long: |length, most| length == 0 || length > most, ..RULES }, i)
    }),
    ("a length of 29 bits", |i| {
        heads(&Rules { long: |length, most| length & 0x1fff_ffff > most, ..RULES }, i)
    }),
    ("a length of 24 bits", |i| {
        heads(&Rules { long: |length, most| length & 0xff_ffff > most, ..RULES }, i)
    }),
    ("lengths of whole symbols alone", |i| {
        heads(&Rules { long: |length, most| length > most || length % 256 > 0, ..RULES }, i)
    }),
    ("lengths of the next depth", |i| {
        heads(&Rules { long: |length, most| length > 2 * most, ..RULES }, i)
    }),
    ("the depth not compared", |i| heads(&Rules { other: |_, _| false, ..RULES }, i)),
    ("a smaller depth taken", |i| heads(&Rules { other: |said, depth| said > depth, ..RULES }, i)),
    ("a larger depth taken", |i| heads(&Rules { other: |said, depth| said < depth, ..RULES }, i)),
    ("a depth of 8 bits", |i| {
        heads(&Rules { other: |said, depth| said & 0xff != depth, ..RULES }, i)
    }),
    ("a depth of 29 bits", |i| {
        heads(&Rules { other: |said, depth| said & 0x1fff_ffff != depth, ..RULES }, i)
    }),
    ("no words in the table refused", |i| heads(&Rules { count: |words| words == 0, ..RULES }, i)),
    ("lowest bytes first", |i| {
        let mut seen = i.clone();
        let words = i["record"].len().min(12) / 4 * 4;
        seen["record"][..words].chunks_mut(4).for_each(<[u8]>::reverse);
        heads(&RULES, &seen)
    }),
    ("the length before the depth", |i| {
        let mut seen = i.clone();
        let words = i["record"].len().min(8) / 8 * 8;
        seen["record"][..words].rotate_left(words / 2);
        heads(&RULES, &seen)
    }),
    ("too many words refused", |i| heads(&Rules { count: |words| words > 55_198, ..RULES }, i)),
];

const ANY: &[u32] = &[0, 1, 2, 3];

/// Rules of a head, 02's or others.
struct Rules {
    /// The kinds that each word may have.
    kinds: [&'static [u32]; 3],
    /// Whether a length is too long, where this is the most.
    long: fn(usize, usize) -> bool,
    /// Whether a depth that is said is another.
    other: fn(usize, usize) -> bool,
    /// Whether a number of words is refused.
    count: fn(usize) -> bool,
}

const RULES: Rules = Rules {
    kinds: KINDS,
    long: |length, most| length > most,
    other: |said, depth| said != depth,
    count: |_| false,
};

fn heads(rules: &Rules, input: &Input) -> Result<(), Stop> {
    let (depth, head) = match (input.size(), head(input)) {
        (Some(depth), Some(head)) => (depth, head),
        _ => return Ok(()),
    };
    let kind = |index: usize| word(&input["record"], index) >> 30;
    let kinds = (0..3).all(|index| rules.kinds[index].contains(&kind(index)));
    let length = !(rules.long)(head.length, block_len(depth));
    if kinds && length && !(rules.other)(head.depth, depth) && !(rules.count)(head.words) {
        Ok(())
    } else {
        Err(Stop::WrongRecord)
    }
}

/// Of test 12, given the head and the table's whole words.
pub const NAMED: &[(&str, Ask)] = &[
    ("the count not compared", |i| named(i, |head, table| head.hash == sha256(table))),
    ("the hash not compared", |i| named(i, |head, table| 4 * head.words == table.len())),
    ("a count that is not over the table's", |i| {
        named(i, |head, table| 4 * head.words <= table.len() && head.hash == sha256(table))
    }),
    ("a count that is not below the table's", |i| {
        named(i, |head, table| 4 * head.words >= table.len() && head.hash == sha256(table))
    }),
    ("a count without the end word", |i| {
        named(i, |head, table| 4 * head.words + 4 == table.len() && head.hash == sha256(table))
    }),
    ("either count", |i| {
        named(i, |head, table| {
            let words = [4 * head.words, 4 * head.words + 4];
            words.contains(&table.len()) && head.hash == sha256(table)
        })
    }),
    ("a count of bytes", |i| {
        named(i, |head, table| head.words == table.len() && head.hash == sha256(table))
    }),
    ("a count of 16 bits", |i| {
        named(i, |head, table| {
            4 * (head.words & 0xffff) == table.len() && head.hash == sha256(table)
        })
    }),
    ("the hash of the words without the end word", |i| {
        named(i, |head, table| {
            4 * head.words == table.len() && head.hash == sha256(&table[..table.len().max(4) - 4])
        })
    }),
    ("either hash", |i| {
        named(i, |head, table| {
            let short = &table[..table.len().max(4) - 4];
            4 * head.words == table.len() && [sha256(table), sha256(short)].contains(&head.hash)
        })
    }),
    ("the hash of the words with a place before them", |i| {
        named(i, |head, table| {
            let placed = sha256(&[&[0x40, 0, 0, 0], table].concat());
            4 * head.words == table.len() && head.hash == placed
        })
    }),
    ("the hash with a place in a volume of kind 00", |i| {
        named(i, |head, table| {
            let placed = sha256(&[&[0x40, 0, 0, 0], table].concat());
            let hash = if head.kind == Kind::Placed { placed } else { sha256(table) };
            4 * head.words == table.len() && head.hash == hash
        })
    }),
    ("the first byte of the hash not compared", |i| {
        named(i, |head, table| {
            4 * head.words == table.len() && head.hash[1..] == sha256(table)[1..]
        })
    }),
    ("the last byte of the hash not compared", |i| {
        named(i, |head, table| {
            4 * head.words == table.len() && head.hash[..31] == sha256(table)[..31]
        })
    }),
    ("four bytes of the hash compared", |i| {
        named(i, |head, table| {
            4 * head.words == table.len() && head.hash[..4] == sha256(table)[..4]
        })
    }),
];

/// Asks by a head and the whole words of the table whether it is the one that is named.
fn named(input: &Input, names: fn(Head, &[u8]) -> bool) -> Result<(), Stop> {
    let table = &input["table"][..input["table"].len() / 4 * 4];
    match head(input) {
        Some(head) if !names(head, table) => Err(Stop::OtherTable),
        _ => Ok(()),
    }
}
