//! What a record says.

use crate::{Depth, Kind, Stop, DIGEST_BYTES, RECORD_BYTES, ROOT_BYTES};

/// The parts of a record.
#[derive(Clone, Copy, Debug, PartialEq, Eq)]
pub struct Record {
    pub kind: Kind,
    pub depth: Depth,
    /// The bytes of the volume.
    pub length: usize,
    /// The words of the table, its end word among them, and the SHA-256 of its bytes.
    pub table_words: usize,
    pub table_digest: [u8; DIGEST_BYTES],
    pub root: [u8; ROOT_BYTES],
}

impl Record {
    /// Reads a record of any depth. `WrongLength` is of bytes that are not `RECORD_BYTES`, `WrongRecord` of a head that
    /// no call takes.
    pub fn read(bytes: &[u8]) -> Result<Record, Stop> {
        let bytes: &[u8; RECORD_BYTES] = bytes.try_into().map_err(|_| Stop::WrongLength)?;
        let ((kind, depth), length, words) = (word(bytes, 0), word(bytes, 1), word(bytes, 2));
        let kind = Kind::new(kind).ok_or(Stop::WrongRecord)?;
        let depth = Depth::new(depth as u64).ok_or(Stop::WrongRecord)?;
        if (length.0, words.0) != (2, 3) || length.1 > depth.block_bytes() {
            return Err(Stop::WrongRecord);
        }
        Ok(Record {
            kind,
            depth,
            length: length.1,
            table_words: words.1,
            table_digest: part(bytes, 12),
            root: part(bytes, 44),
        })
    }
}

/// Kind and value of word 0, 1 or 2.
fn word(bytes: &[u8; RECORD_BYTES], at: usize) -> (u64, usize) {
    let word = u32::from_be_bytes(part(bytes, 4 * at));
    (u64::from(word >> 30), word as usize & 0x3fff_ffff)
}

/// As many bytes as are asked for, from this one on.
fn part<const N: usize>(bytes: &[u8; RECORD_BYTES], from: usize) -> [u8; N] {
    let mut part = [0; N];
    part.copy_from_slice(&bytes[from..][..N]);
    part
}

#[cfg(test)]
mod tests {
    use super::*;

    /// The bytes of a record with these three words, a digest of 7 and a root of 9 throughout.
    fn record(words: [u32; 3]) -> Vec<u8> {
        let head = words.iter().flat_map(|word| word.to_be_bytes());
        head.chain([7; 32]).chain([9; 512]).collect()
    }

    /// The kinds of the second word and the third.
    const LENGTH: u32 = 2 << 30;
    const TABLE: u32 = 3 << 30;

    #[test]
    fn records_say_what_was_written() {
        let (table_words, table_digest, root) = (0x3abc_de12, [7; 32], [9; 512]);
        for (kind, first) in [(Kind::Placed, 0), (Kind::Plain, 1 << 30)] {
            for depth in (1..=9).filter_map(Depth::new) {
                for length in [0, 700, depth.block_bytes()] {
                    let words = [first + depth.layers() as u32, LENGTH + length as u32];
                    let bytes = record([words[0], words[1], TABLE + 0x3abc_de12]);
                    let said = Record { kind, depth, length, table_words, table_digest, root };
                    assert_eq!(Record::read(&bytes), Ok(said));
                }
            }
        }
    }

    #[test]
    fn wrong_heads_are_not_read() {
        let wrong = |words: [u32; 3]| {
            assert_eq!(Record::read(&record(words)), Err(Stop::WrongRecord), "{words:x?}");
        };
        for first in [0, 1 << 30] {
            let right = [first + 1, LENGTH + 1024, TABLE + 61];
            assert!(Record::read(&record(right)).is_ok());
            wrong([first, right[1], right[2]]);
            wrong([first + 10, right[1], right[2]]);
            wrong([right[0], LENGTH + 1025, right[2]]);
            wrong([right[0], LENGTH + 0x3fff_ffff, right[2]]);
            for kind in [0, 1, 3] {
                wrong([right[0], kind << 30 | 1024, right[2]]);
            }
            for kind in 0..3 {
                wrong([right[0], right[1], kind << 30 | 61]);
            }
            for bytes in [&[][..], &[1; 512], &record(right)[1..], &[0; 557]] {
                assert_eq!(Record::read(bytes), Err(Stop::WrongLength));
            }
        }
        for kind in 2..4 {
            wrong([kind << 30 | 1, LENGTH + 1024, TABLE + 61]);
        }
    }
}
