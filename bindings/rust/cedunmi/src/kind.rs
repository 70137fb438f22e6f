//! The kinds of volume, and the hash of a symbol by each.

use crate::{sha256, Stop, DIGEST_BYTES, PLACE_BYTES};

/// The kind of a volume, which its record says.
#[derive(Clone, Copy, Debug, PartialEq, Eq)]
pub enum Kind {
    /// A symbol's hash is that of its place and its bytes.
    Placed,
    /// A symbol's hash is that of its bytes.
    Plain,
}

/// Where a symbol stands: its layer, and its number in that layer.
#[derive(Clone, Copy, Debug, PartialEq, Eq)]
pub struct Place {
    pub layer: usize,
    pub number: usize,
}

impl Kind {
    /// Both, in the order of their numbers.
    pub const ALL: [Kind; 2] = [Kind::Placed, Kind::Plain];

    /// The kind of this number in the header, and of the first word of a record.
    pub fn new(number: u64) -> Option<Kind> {
        Kind::ALL.into_iter().find(|kind| kind.number() == number)
    }

    pub fn number(self) -> u64 {
        match self {
            Kind::Placed => 0,
            Kind::Plain => 1,
        }
    }

    /// The kind that a volume of this one is recoded to.
    pub fn other(self) -> Kind {
        match self {
            Kind::Placed => Kind::Plain,
            Kind::Plain => Kind::Placed,
        }
    }

    /// The hash of a symbol by this kind.
    pub fn hash(self, place: Place, symbol: &[u8]) -> Result<[u8; DIGEST_BYTES], Stop> {
        match self {
            Kind::Placed => sha256(&[&place.bytes(), symbol].concat()),
            Kind::Plain => sha256(symbol),
        }
    }
}

impl Place {
    /// What is hashed before the symbol of this place: a word of kind 01, the layer in the next 6 bits, the number in 24.
    pub fn bytes(self) -> [u8; PLACE_BYTES] {
        let word = 1 << 30 | (self.layer as u32 & 0x3f) << 24 | self.number as u32 & 0xff_ffff;
        word.to_be_bytes()
    }
}

#[cfg(test)]
mod tests {
    use super::*;

    #[test]
    fn kinds_have_their_numbers() {
        assert_eq!([0, 1].map(Kind::new), Kind::ALL.map(Some));
        for number in [2, 3, 4, 256, 1 << 32, u64::MAX] {
            assert_eq!(Kind::new(number), None);
        }
        for kind in Kind::ALL {
            assert_eq!(kind.other().number(), 1 - kind.number());
        }
    }

    #[test]
    fn words_have_layer_and_number() {
        for (layer, number, bytes) in [
            (0, 0, [0x40, 0, 0, 0]),
            (0, 15, [0x40, 0, 0, 15]),
            (1, 2, [0x41, 0, 0, 2]),
            (8, 4095, [0x48, 0, 0x0f, 0xff]),
            (63, 0xff_ffff, [0x7f, 0xff, 0xff, 0xff]),
        ] {
            assert_eq!(Place { layer, number }.bytes(), bytes);
        }
    }
}
