//! What a record says, for lines beside a call that refuses it or the table with it.

use crate::members::words;
use crate::printed::{hex, is_house, WORDS};
use cedunmi::{sha256, Depth, Record};

/// What the words of the head are.
const HEAD: [&str; WORDS.len()] = ["kind and depth", "length", "number of table words"];
/// The kinds that each may have.
const KINDS: [&[u32]; WORDS.len()] = [&[0, 1], &[2], &[3]];

/// What is wrong with a record, as long as a record is, that a call of this depth refuses.
pub fn wrong(name: &str, record: &[u8], depth: u64) -> Option<String> {
    let head: Vec<(u32, usize)> = words(record).take(WORDS.len()).collect();
    if let Some(at) = (0..head.len()).find(|at| !KINDS[*at].contains(&head[*at].0)) {
        let (first, last, kind) = (4 * at, 4 * at + 3, head[at].0);
        let (what, bytes) = (HEAD[at], hex(&record[first..=last]));
        let right: Vec<String> = KINDS[at].iter().map(|kind| format!("{kind:02b}")).collect();
        return Some(format!(
            "{name} is no record, or damaged: bytes {first} to {last}, its {what}, are {bytes}, of kind {kind:02b}, not {}",
            right.join(" or ")
        ));
    }
    let (said, length) = (head.first()?.1 as u64, head.get(1)?.1);
    let held = match Depth::new(said) {
        None => return Some(format!("{name} says depth {said}, and depths are 1 to 9")),
        Some(_) if said != depth => {
            return Some(format!("{name} is of depth {said}, and DEPTH is {depth}"))
        }
        Some(depth) => depth.block_bytes(),
    };
    (length > held).then(|| {
        format!("{name} says a length of {length} bytes, and depth {said} holds at most {held}")
    })
}

/// Which table a record names.
pub fn named(name: &str, record: &[u8]) -> Option<String> {
    let record = Record::read(record).ok()?;
    let house = match is_house(&record) {
        Ok(true) => {
            let depth = record.depth.layers();
            format!(", the house table of depth {depth}: cedunmi table {depth} FILE writes it")
        }
        _ => String::new(),
    };
    let said = counted(record.table_words, &record.table_digest);
    Some(format!("{name} names a table of {said}{house}"))
}

/// Of a record that has the hash of this table, and is refused with it, that its number of words is wrong.
pub fn miscounted(name: &str, record: &[u8], table: &[u8]) -> Option<String> {
    let same = sha256(table).ok()? == Record::read(record).ok()?.table_digest;
    same.then(|| {
        format!("the SHA-256 is the same: {name} has a wrong number of words; compare it with the manual")
    })
}

/// Which table this is.
pub fn is(name: &str, table: &[u8]) -> Option<String> {
    Some(format!("{name} has {}", counted(table.len() / 4, &sha256(table).ok()?)))
}

fn counted(words: usize, digest: &[u8]) -> String {
    format!("{words} words, with the SHA-256 {}", hex(digest))
}

#[cfg(test)]
mod tests {
    use super::*;
    use cedunmi::Kind;

    fn record(depth: u64, length: usize) -> Vec<u8> {
        let table = cedunmi::house_table(depth).expect("the house table");
        let coded = cedunmi::code(depth, Kind::Placed, &table, &vec![1; length]);
        coded.expect("a tree").record.to_vec()
    }

    /// The record of depth 2 with a byte changed, at depth 2.
    fn changed(at: usize, byte: u8) -> Option<String> {
        let mut record = record(2, 700);
        record[at] = byte;
        wrong("r", &record, 2)
    }

    #[test]
    fn what_is_wrong_is_said() {
        let kind = |said: &str| Some(format!("r is no record, or damaged: bytes {said}"));
        assert_eq!(wrong("r", &record(2, 700), 2), None);
        assert_eq!(changed(0, 64), None);
        for (byte, of) in [(128, "80000002, of kind 10"), (255, "ff000002, of kind 11")] {
            let said = format!("0 to 3, its kind and depth, are {of}, not 00 or 01");
            assert_eq!(changed(0, byte), kind(&said));
        }
        assert_eq!(changed(4, 64), kind("4 to 7, its length, are 400002bc, of kind 01, not 10"));
        let words = "8 to 11, its number of table words, are b00000b5, of kind 10, not 11";
        assert_eq!(changed(8, 0xb0), kind(words));
        let said = |said: &str| Some(format!("r {said}"));
        assert_eq!(changed(3, 10), said("says depth 10, and depths are 1 to 9"));
        assert_eq!(changed(3, 0), said("says depth 0, and depths are 1 to 9"));
        assert_eq!(changed(3, 5), said("is of depth 5, and DEPTH is 2"));
        let long = "says a length of 2236 bytes, and depth 2 holds at most 2048";
        assert_eq!(changed(6, 8), said(long));
    }

    #[test]
    fn tables_are_named() {
        let mut record = record(2, 1);
        let hash = cedunmi::sha256(&cedunmi::house_table(2).unwrap()).unwrap();
        let table = format!("181 words, with the SHA-256 {}", hex(&hash));
        let house = ", the house table of depth 2: cedunmi table 2 FILE writes it";
        assert_eq!(named("r", &record), Some(format!("r names a table of {table}{house}")));
        assert_eq!(is("t", &cedunmi::house_table(2).unwrap()), Some(format!("t has {table}")));
        record[11] ^= 1;
        let said = miscounted("r", &record, &cedunmi::house_table(2).unwrap());
        assert!(said.expect("a line").contains(": r has a wrong number of words"));
        record[12] ^= 1;
        assert_eq!(miscounted("r", &record, &cedunmi::house_table(2).unwrap()), None);
        assert!(named("r", &record).expect("a line").ends_with(&hex(&hash[1..])));
    }
}
