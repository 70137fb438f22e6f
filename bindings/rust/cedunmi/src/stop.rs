//! Why a call stopped.

use crate::explain;
use std::fmt;

/// The numbers of the header, with their values.
#[derive(Clone, Copy, Debug, PartialEq, Eq)]
#[non_exhaustive]
pub enum Stop {
    WrongDepth,
    WrongLength,
    /// The first wrong word, or the number of words where the table is short.
    WrongTable {
        word: u64,
    },
    /// The lowest place with a mark that is neither 0 nor 1.
    WrongMark {
        place: u64,
    },
    WrongNumber,
    WrongHead,
    /// The first layer, going up, with a symbol whose hash is not the one that the symbol above it, or the root, has
    /// for it: in a sample either of its symbols, in a proof the one on the way up from the member at this position,
    /// the first such member. The withheld one comes after all that are given. A sample has no position.
    WrongHash {
        layer: u64,
        position: Option<u64>,
    },
    NoFault,
    /// The index in the sample of the first that is absent, or, reading a block, its base number.
    Absent {
        number: u64,
    },
    /// The first layer that has a data symbol in fewer than two equations, and the lowest such symbol of it.
    Uncovered {
        layer: u64,
        symbol: u64,
    },
    WrongRecord,
    OtherTable,
    /// A tree that a repair would store a symbol of, or that it does not call whole, is not recoded.
    NotWhole,
    /// A result that this crate does not know: the library is another version's.
    Unknown {
        result: u64,
    },
}

impl Stop {
    /// The number in the header; 0 for a result that has none.
    pub fn number(self) -> u8 {
        match self {
            Stop::WrongDepth => 1,
            Stop::WrongLength => 2,
            Stop::WrongTable { .. } => 3,
            Stop::WrongMark { .. } => 4,
            Stop::WrongNumber => 5,
            Stop::WrongHead => 6,
            Stop::WrongHash { .. } => 7,
            Stop::NoFault => 8,
            Stop::Absent { .. } => 9,
            Stop::Uncovered { .. } => 10,
            Stop::WrongRecord => 11,
            Stop::OtherTable => 12,
            Stop::NotWhole => 14,
            Stop::Unknown { .. } => 0,
        }
    }

    /// What it means, without its values.
    pub fn meaning(self) -> &'static str {
        match self {
            Stop::Unknown { .. } => explain(u64::MAX),
            _ => explain(self.number().into()),
        }
    }
}

impl fmt::Display for Stop {
    fn fmt(&self, f: &mut fmt::Formatter<'_>) -> fmt::Result {
        f.write_str(self.meaning())?;
        match self {
            Stop::WrongTable { word } => {
                write!(f, ": word {word} is the first wrong one, or the table ends there")
            }
            Stop::WrongMark { place } => write!(f, ": that of page {place} is the lowest such"),
            Stop::WrongHash { layer, position: None } => write!(f, ": layer {layer}"),
            Stop::WrongHash { layer, position: Some(position) } => {
                write!(f, ": layer {layer}, position {position}")
            }
            Stop::Absent { number } => write!(f, ": number {number}"),
            Stop::Uncovered { layer, symbol } => {
                write!(
                    f,
                    ": page {symbol} of layer {layer}, counted in that layer, is the first such"
                )
            }
            Stop::Unknown { result } => write!(f, ": {result:#x}"),
            _ => Ok(()),
        }
    }
}

impl std::error::Error for Stop {}
