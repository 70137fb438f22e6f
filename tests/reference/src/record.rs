//! The root record, written from CRs 5 and 7 of 02.

use crate::kind::Kind;
use crate::sha256::sha256;
use crate::stop::Stop;
use crate::table::{to_bytes, word, END, EQUATION};
use crate::tree::{block_len, HASH, ROOT};
use std::cell::RefCell;

/// The bytes of a head, which is three words and a hash, and of a record.
pub const HEAD: usize = 12 + HASH;
pub const RECORD: usize = HEAD + ROOT;

/// The kinds that each of the three words may have. That of the first is the volume's.
pub const KINDS: [&[u32]; 3] = [&[Kind::Placed as u32, Kind::Plain as u32], &[EQUATION], &[END]];

/// What a head says.
#[derive(Clone, Copy, Debug, PartialEq, Eq)]
pub struct Head {
    pub kind: Kind,
    pub depth: usize,
    /// The bytes of the block.
    pub length: usize,
    /// The words of the table, its end word too.
    pub words: usize,
    /// The SHA-256 of the table.
    pub hash: [u8; HASH],
}

impl Head {
    /// The head for a block of so many bytes and the table that codes it.
    pub fn of(kind: Kind, depth: usize, length: usize, table: &[u8]) -> Head {
        Head { kind, depth, length, words: table.len() / 4, hash: hash_of(table) }
    }

    /// The head of a record of at least as many bytes as a head has, where it is in form for a
    /// depth.
    pub fn read(depth: usize, record: &[u8]) -> Result<Head, Stop> {
        let mut hash = [0; HASH];
        hash.copy_from_slice(&record[12..HEAD]);
        let (kind, depth_said) = parts(record, 0)?;
        let [(_, length), (_, words)] = [parts(record, 1)?, parts(record, 2)?];
        let head = Head { kind: Kind::told(kind.into())?, depth: depth_said, length, words, hash };
        if head.depth != depth || head.length > block_len(depth) {
            return Err(Stop::WrongRecord);
        }
        Ok(head)
    }

    pub fn bytes(self) -> Vec<u8> {
        let first = word(self.kind as u32, self.depth);
        let words = [first, word(EQUATION, self.length), word(END, self.words)];
        [to_bytes(&words), self.hash.to_vec()].concat()
    }

    /// The record with this head and a root.
    pub fn before(self, root: &[u8]) -> Vec<u8> {
        [&self.bytes(), root].concat()
    }

    /// A table has as many words as the head says, and the hash.
    pub fn names(self, table: &[u8]) -> Result<(), Stop> {
        if table.len() == 4 * self.words && hash_of(table) == self.hash {
            Ok(())
        } else {
            Err(Stop::OtherTable)
        }
    }
}

/// The SHA-256 of a table. It is kept, since most calls have the table of the one before.
pub fn hash_of(table: &[u8]) -> [u8; HASH] {
    thread_local!(static LAST: RefCell<(Vec<u8>, Option<[u8; HASH]>)> = RefCell::default());
    LAST.with(|last| {
        let mut last = last.borrow_mut();
        if last.0 != table {
            *last = (table.to_vec(), None);
        }
        *last.1.get_or_insert_with(|| sha256(table))
    })
}

/// The root inside a record: the hashes of layer 0.
pub fn root(record: &[u8]) -> &[u8] {
    &record[HEAD..]
}

/// The kind and the value of a word of the head, which must have a kind of its.
fn parts(record: &[u8], index: usize) -> Result<(u32, usize), Stop> {
    let b = &record[4 * index..4 * index + 4];
    let word = u32::from_be_bytes([b[0], b[1], b[2], b[3]]);
    if KINDS[index].contains(&(word >> 30)) {
        Ok((word >> 30, (word & 0x3fff_ffff) as usize))
    } else {
        Err(Stop::WrongRecord)
    }
}

#[cfg(test)]
mod tests;
