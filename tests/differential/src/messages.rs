//! The messages that are hashed: their contents and their lengths.

use crate::random::Random;

/// A kind of content.
#[derive(Clone, Copy, Debug)]
pub enum Content {
    Zeros,
    Ones,
    TopBits,
    Counting,
    Random,
}

pub const CONTENTS: [Content; 5] =
    [Content::Zeros, Content::Ones, Content::TopBits, Content::Counting, Content::Random];

impl Content {
    /// A message of this kind.
    pub fn message(self, len: usize, random: &mut Random) -> Vec<u8> {
        match self {
            Content::Zeros => vec![0x00; len],
            Content::Ones => vec![0xff; len],
            Content::TopBits => vec![0x80; len],
            Content::Counting => (0..len).map(|i| i as u8).collect(),
            Content::Random => random.bytes(len),
        }
    }
}

/// The longest message that is taken.
pub const LONGEST: usize = 1_048_576;

/// Lengths over it.
pub const TOO_LONG: [usize; 3] = [1_048_577, 1_048_640, 2_097_152];

/// Lengths around which the padding changes, and some beside them.
pub const EDGES: [usize; 16] = [0, 1, 3, 4, 55, 56, 63, 64, 65, 119, 120, 127, 128, 129, 256, 1000];

/// Every length to 400; the lengths around the end of each block, and around
/// the last that leaves room for the padding in its block, to 4,096; and some
/// far longer.
pub fn lengths() -> Vec<usize> {
    let mut lengths: Vec<usize> = (0..=400).collect();
    for block in (448..=4096).step_by(64) {
        lengths.extend(block - 10..=block - 7);
        lengths.extend(block - 1..=block + 1);
    }
    lengths.extend(65_535..=65_537);
    lengths.extend([1_000_000, LONGEST - 1, LONGEST]);
    lengths
}
