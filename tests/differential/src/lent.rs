//! Buffers as a caller lends them: each inside a larger array of known bytes,
//! so that a write beside the buffer shows, and at a chosen alignment.

use crate::difference::{same_bytes, Difference};
use std::ops::Range;

/// Known bytes on each side of a lent buffer, at the least.
const GUARD: usize = 128;

/// Alignments are chosen modulo this.
pub const ALIGNMENTS: usize = 64;

pub struct Lent {
    name: &'static str,
    array: Vec<u8>,
    start: usize,
    len: usize,
}

impl Lent {
    /// A buffer that holds a copy of `content`, at an address that is
    /// `alignment` modulo 64.
    pub fn new(name: &'static str, content: &[u8], alignment: usize) -> Lent {
        let size = content.len() + 2 * GUARD + ALIGNMENTS;
        let mut array = vec![0; size];
        let lowest = array.as_ptr() as usize + GUARD;
        let start = GUARD + alignment.wrapping_sub(lowest) % ALIGNMENTS;
        let end = start + content.len();
        (0..start).chain(end..size).for_each(|i| array[i] = guard_byte(i));
        array[start..end].copy_from_slice(content);
        Lent { name, array, start, len: content.len() }
    }

    /// The start of the buffer, as a pointer that may reach the whole array.
    pub fn pointer(&mut self) -> *mut u8 {
        self.array.as_mut_ptr().wrapping_add(self.start)
    }

    pub fn len(&self) -> usize {
        self.len
    }

    /// Whether the buffer holds `expected` and nothing beside it has changed.
    pub fn check(&self, expected: &[u8]) -> Result<(), Difference> {
        assert_eq!(expected.len(), self.len);
        let end = self.start + self.len;
        self.check_guard(0..self.start)?;
        same_bytes(self.name, expected, &self.array[self.start..end])?;
        self.check_guard(end..self.array.len())
    }

    fn check_guard(&self, mut range: Range<usize>) -> Result<(), Difference> {
        match range.find(|&i| self.array[i] != guard_byte(i)) {
            Some(i) => {
                let at = i as isize - self.start as isize;
                Err(Difference::Outside { buffer: self.name, at })
            }
            None => Ok(()),
        }
    }
}

/// The byte that stands at an index of an array where nothing is lent.
fn guard_byte(i: usize) -> u8 {
    (i * 37 + 11) as u8
}

#[cfg(test)]
mod tests {
    use super::*;

    #[test]
    fn addresses_are_as_chosen() {
        for alignment in 0..ALIGNMENTS {
            let mut lent = Lent::new("buffer", &[7; 100], alignment);
            assert_eq!(lent.pointer() as usize % ALIGNMENTS, alignment);
        }
    }

    #[test]
    fn every_changed_byte_is_found() {
        let content = [7; 100];
        let size = Lent::new("buffer", &content, 5).array.len();
        for i in 0..size {
            let mut lent = Lent::new("buffer", &content, 5);
            assert_eq!(lent.check(&content), Ok(()));
            lent.array[i] ^= 1;
            let at = i as isize - lent.start as isize;
            match lent.check(&content).unwrap_err() {
                Difference::Inside { at: found, .. } => assert_eq!(found as isize, at),
                Difference::Outside { at: found, .. } => assert_eq!(found, at),
                Difference::Result { .. } | Difference::Length { .. } => unreachable!(),
            }
        }
    }
}
