//! How a repair ended.

use crate::{explain_end, Place};
use std::fmt;

/// What a repair that was not stopped reports.
#[derive(Clone, Debug, PartialEq, Eq)]
pub struct Repaired {
    /// How many symbols it formed and stored.
    pub stored: usize,
    pub end: End,
}

#[derive(Clone, Debug, PartialEq, Eq)]
#[non_exhaustive]
pub enum End {
    /// Every symbol is held, and the tree is correctly coded and agrees with record and table.
    Whole,
    /// A fault proof, which `check_proof` accepts.
    Fault { proof: Vec<u8> },
    /// A layer of which no equation gives another symbol.
    Unavailable { layer: usize },
    /// Two different symbols of equal hash, one after the other; by a record with places the place whose hash they have.
    Twins { symbols: Vec<u8>, place: Option<Place> },
    /// Every symbol is held, and the tree is correctly coded and agrees with root and table, but what fills up the volume
    /// is not zero.
    Misfilled,
}

impl End {
    /// The number in the header.
    pub fn number(&self) -> u8 {
        match self {
            End::Whole => 0,
            End::Fault { .. } => 1,
            End::Unavailable { .. } => 2,
            End::Twins { .. } => 3,
            End::Misfilled => 13,
        }
    }

    /// What it means, without its value.
    pub fn meaning(&self) -> &'static str {
        explain_end(self.number().into())
    }
}

impl fmt::Display for End {
    fn fmt(&self, f: &mut fmt::Formatter<'_>) -> fmt::Result {
        f.write_str(self.meaning())?;
        match self {
            End::Fault { proof } => write!(f, "; its proof has {} bytes", proof.len()),
            End::Unavailable { layer } => write!(f, ", which is layer {layer}"),
            End::Twins { place: Some(Place { layer, number }), .. } => {
                write!(f, ": those of number {number} of layer {layer}")
            }
            _ => Ok(()),
        }
    }
}
