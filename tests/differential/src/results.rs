//! The one number that a call returns.

use crate::difference::Difference;
use reference::repair::{End, Repaired};
use reference::stop::Stop;

/// The bits from which on the values of a stop stand, each below 2^24.
const VALUES: [usize; 2] = [8, 32];

/// The bits of a number below its layer, in the place of twins.
const NUMBER: usize = 12;

/// The number of a stop, or 0, in the lowest eight bits, and the values that go
/// with it.
pub fn number(result: Result<(), Stop>) -> u64 {
    let (number, values) = match result {
        Ok(()) => (0, vec![]),
        Err(stop) => stop.numbers(),
    };
    assert!(values.len() <= VALUES.len() && values.iter().all(|&value| value < 1 << 24));
    values.iter().zip(VALUES).fold(number, |result, (&value, bit)| result | (value as u64) << bit)
}

/// The end of a repair above the lowest eight bits, and from bit 32 on the
/// number of symbols stored, with the length of the proof, or the layer, or the
/// place of twins, from bit 48 on.
pub fn repaired(result: Result<Repaired, Stop>) -> u64 {
    let Repaired { end, stored } = match result {
        Ok(repaired) => repaired,
        Err(stop) => return number(Err(stop)),
    };
    let (end, more) = match end {
        End::Whole => (0, 0),
        End::Fault(len) => (1, len),
        End::Unavailable(layer) => (2, layer),
        End::Twins(place) => (3, place.map_or(0, |(layer, number)| layer << NUMBER | number)),
        End::Misfilled => (13, 0),
    };
    end << 8 | (stored as u64) << 32 | (more as u64) << 48
}

/// How a repair ended that was not refused.
pub fn ended(result: u64) -> Option<Repaired> {
    let more = (result >> 48) as usize;
    let end = match result & 0xffff_ffff {
        0x000 => End::Whole,
        0x100 => End::Fault(more),
        0x200 => End::Unavailable(more),
        // The last member of an equation is never symbol 0.
        0x300 if more == 0 => End::Twins(None),
        0x300 => End::Twins(Some((more >> NUMBER, more & ((1 << NUMBER) - 1)))),
        0xd00 => End::Misfilled,
        _ => return None,
    };
    Some(Repaired { end, stored: (result >> 32 & 0xffff) as usize })
}

/// The values of a result that has a number, 0 where there is none.
pub fn values(result: u64) -> [usize; 2] {
    VALUES.map(|bit| (result >> bit) as usize & 0xff_ffff)
}

/// A result without its values: its number, or, where that is 0, its end.
pub fn outcome(result: u64) -> String {
    match result % 256 {
        0 => format!("end {}", result as u32 >> 8),
        number => number.to_string(),
    }
}

pub fn same(expected: u64, found: u64) -> Result<(), Difference> {
    if expected == found {
        Ok(())
    } else {
        Err(Difference::Result { expected, found })
    }
}

#[cfg(test)]
mod tests {
    use super::*;

    #[test]
    fn as_many_values_as_a_stop_has() {
        assert_eq!(number(Ok(())), 0);
        assert_eq!(number(Err(Stop::NoFault)), 8);
        assert_eq!(number(Err(Stop::Word(4095))), 3 + 256 * 4095);
        let stop = Stop::Uncovered { layer: 4, symbol: 63 };
        assert_eq!(number(Err(stop)), 10 + 256 * 4 + (63 << 32));
        assert_eq!(outcome(number(Err(stop))), "10");
        assert_eq!(values(number(Err(stop))), [4, 63]);
        let stop = Stop::Hash { layer: 4, position: None };
        assert_eq!(number(Err(stop)), 7 + 256 * 4);
        let stop = Stop::Hash { layer: 3, position: Some(7) };
        assert_eq!(number(Err(stop)), 7 + 256 * 3 + (7 << 32));
        assert_eq!(number(Err(Stop::WrongRecord)), 11);
        assert_eq!(number(Err(Stop::OtherTable)), 12);
        assert_eq!(number(Err(Stop::NotWhole)), 14);
    }

    /// 13 is an end, with number 0.
    #[test]
    fn ends_and_what_goes_with_them() {
        let ends = [
            (End::Whole, 0),
            (End::Fault(780), 1 | 780 << 40),
            (End::Unavailable(8), 2 | 8 << 40),
            (End::Twins(None), 3),
            (End::Twins(Some((0, 4))), 3 | 4 << 40),
            (End::Twins(Some((0, 15))), 3 | 15 << 40),
            (End::Twins(Some((1, 8))), 3 | 0x1008 << 40),
            (End::Twins(Some((8, 1024))), 3 | 0x8400 << 40),
            (End::Twins(Some((8, 4095))), 3 | 0x8fff << 40),
            (End::Misfilled, 13),
        ];
        for (end, result) in ends {
            let result = (result | 5 << 24) << 8;
            assert_eq!(repaired(Ok(Repaired { end, stored: 5 })), result);
            assert_eq!(ended(result), Some(Repaired { end, stored: 5 }));
        }
        assert_eq!(outcome(13 << 8 | 5 << 32), "end 13");
        assert_eq!(repaired(Err(Stop::OtherTable)), 12);
        assert_eq!([ended(11), ended(12), ended(13)], [None; 3]);
    }
}
