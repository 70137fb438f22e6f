//! What a comparison can find.

use std::fmt;

/// How a call differed from what was expected of it.
#[derive(Debug, PartialEq, Eq)]
pub enum Difference {
    /// The result.
    Result { expected: u64, found: u64 },
    /// A byte of a lent buffer, or of an output.
    Inside { buffer: &'static str, at: usize, expected: u8, found: u8 },
    /// A byte near a lent buffer, counted from the start of the buffer.
    Outside { buffer: &'static str, at: isize },
    /// The length of an output, all else being the same.
    Length { buffer: &'static str, expected: usize, found: usize },
}

/// Whether bytes are those expected, and as many.
pub fn same_bytes(buffer: &'static str, expected: &[u8], found: &[u8]) -> Result<(), Difference> {
    if expected == found {
        return Ok(());
    }
    let mut pairs = expected.iter().zip(found).enumerate();
    Err(match pairs.find(|(_, (e, f))| e != f) {
        Some((at, (&expected, &found))) => Difference::Inside { buffer, at, expected, found },
        None => Difference::Length { buffer, expected: expected.len(), found: found.len() },
    })
}

impl fmt::Display for Difference {
    fn fmt(&self, f: &mut fmt::Formatter) -> fmt::Result {
        match self {
            Difference::Result { expected, found } => {
                write!(f, "returned {found}, expected {expected}")
            }
            Difference::Inside { buffer, at, expected, found } => {
                write!(f, "{buffer}: byte {at} is {found:02x}, expected {expected:02x}")
            }
            Difference::Outside { buffer, at } => {
                write!(f, "{buffer}: byte {at}, outside the lent buffer, was changed")
            }
            Difference::Length { buffer, expected, found } => {
                write!(f, "{buffer}: {found} bytes, expected {expected}")
            }
        }
    }
}

/// A difference, and the call that showed it.
#[derive(Debug)]
pub struct Failure {
    pub call: String,
    pub difference: Difference,
}

/// What comes of comparisons.
pub type Compared = Result<(), Failure>;

impl fmt::Display for Failure {
    fn fmt(&self, f: &mut fmt::Formatter) -> fmt::Result {
        write!(f, "{}: {}", self.call, self.difference)
    }
}
