//! The two kinds of volume, and the hash of a symbol in each, written from CR 7 of 02.

use crate::sha256::sha256;
use crate::stop::Stop;
use crate::table::{word, LAYER};
use crate::tree::{HASH, SYMBOL};

/// The kind of a volume: that of the first word of its record.
#[derive(Clone, Copy, Debug, PartialEq, Eq)]
pub enum Kind {
    /// The hash of a symbol covers its place too.
    Placed = 0b00,
    /// It covers the symbol alone.
    Plain = 0b01,
}

pub const KINDS: [Kind; 2] = [Kind::Placed, Kind::Plain];

/// The bits of a place below its layer, and those of the layer.
const NUMBER_BITS: usize = 24;
const LAYER_BITS: usize = 6;

impl Kind {
    /// The kind of this number, as the writer is told it.
    pub fn told(number: u64) -> Result<Kind, Stop> {
        KINDS.into_iter().find(|&kind| kind as u64 == number).ok_or(Stop::WrongRecord)
    }

    pub fn other(self) -> Kind {
        match self {
            Kind::Placed => Kind::Plain,
            Kind::Plain => Kind::Placed,
        }
    }

    /// The hash of a symbol, given its layer and its number there.
    pub fn hash(self, layer: usize, number: usize, symbol: &[u8]) -> [u8; HASH] {
        match self {
            Kind::Placed => {
                let mut message = [0; 4 + SYMBOL];
                message[..4].copy_from_slice(&place_word(layer, number).to_be_bytes());
                message[4..].copy_from_slice(symbol);
                sha256(&message)
            }
            Kind::Plain => sha256(symbol),
        }
    }
}

/// The word that is hashed before a symbol.
fn place_word(layer: usize, number: usize) -> u32 {
    assert!(layer < 1 << LAYER_BITS && number < 1 << NUMBER_BITS);
    word(LAYER, layer << NUMBER_BITS | number)
}

#[cfg(test)]
mod tests {
    use super::*;

    fn hex(bytes: &[u8]) -> String {
        bytes.iter().map(|byte| format!("{byte:02x}")).collect()
    }

    #[test]
    fn words_of_places() {
        assert_eq!(place_word(0, 0), 0x4000_0000);
        assert_eq!(place_word(0, 15), 0x4000_000f);
        assert_eq!(place_word(1, 31), 0x4100_001f);
        assert_eq!(place_word(4, 255), 0x4400_00ff);
        assert_eq!(place_word(8, 4095), 0x4800_0fff);
        assert_eq!(place_word(63, (1 << 24) - 1), 0x7fff_ffff);
    }

    /// Of 256 zeros, and of bytes that count up, by Python's hashlib.
    #[test]
    fn hashes_by_another_implementation() {
        let counting: Vec<u8> = (0..=255).collect();
        let zeros = [0; SYMBOL];
        let expected: [(Kind, usize, usize, &[u8], &str); 7] = [
            (
                Kind::Placed,
                0,
                0,
                &zeros,
                "7de72cbf71ac2785ef9b4a10f1d25dff757127be5b2ba289d9943a8415382d9d",
            ),
            (
                Kind::Placed,
                0,
                5,
                &zeros,
                "21aa93fd4231aa94385772c0d3a859822b1dd58e78fb96dae0f2a5c2dd0b7121",
            ),
            (
                Kind::Placed,
                1,
                5,
                &zeros,
                "3b2f09e2d19ec455d9b638092e1ca57c5a8cea5a7c82088fa8b4c47a5df986c3",
            ),
            (
                Kind::Placed,
                8,
                4095,
                &zeros,
                "d1f5eeb5b412355d25b38343182e2402e544a370620555a79b5ca3774e0b9f9d",
            ),
            (
                Kind::Placed,
                2,
                17,
                &counting,
                "b353f9e980319939e31ff6a2b41b6484cfd64a53b8f6567116bcab1dcfc0c558",
            ),
            (
                Kind::Plain,
                2,
                17,
                &counting,
                "40aff2e9d2d8922e47afd4648e6967497158785fbd1da870e7110266bf944880",
            ),
            (
                Kind::Plain,
                0,
                0,
                &zeros,
                "5341e6b2646979a70e57653007a1f310169421ec9bdd9f1a5648f75ade005af1",
            ),
        ];
        for (kind, layer, number, symbol, digest) in expected {
            assert_eq!(hex(&kind.hash(layer, number, symbol)), digest, "{kind:?} {layer} {number}");
        }
    }

    /// One symbol has another hash at each place of a tree of depth 4, and without a place.
    #[test]
    fn places_tell_hashes_apart() {
        let places = (0..4).flat_map(|layer| (0..16 << layer).map(move |number| (layer, number)));
        let hashes = places.map(|(layer, number)| Kind::Placed.hash(layer, number, &[7; SYMBOL]));
        let mut hashes: Vec<_> = hashes.chain([Kind::Plain.hash(0, 0, &[7; SYMBOL])]).collect();
        hashes.sort_unstable();
        hashes.dedup();
        assert_eq!(hashes.len(), 16 + 32 + 64 + 128 + 1);
        assert_eq!(Kind::Plain.hash(3, 100, &[7; SYMBOL]), Kind::Plain.hash(0, 0, &[7; SYMBOL]));
    }

    #[test]
    fn kinds_that_are_told() {
        assert_eq!([0, 1].map(Kind::told), [Ok(Kind::Placed), Ok(Kind::Plain)]);
        for number in [2, 3, 255, 256, 257, 1 << 16, 1 << 32, 1 << 32 | 1, 1 << 63, u64::MAX] {
            assert_eq!(Kind::told(number), Err(Stop::WrongRecord));
        }
        assert_eq!(KINDS.map(Kind::other), [Kind::Plain, Kind::Placed]);
    }
}
