//! The one place where a result is unpacked: a number in its low eight bits, a value in the next 24, a second one in
//! the 32 above. Of a repair that ended the first value is its end, and the second the symbols stored, in its low 16
//! bits, with the end's value above.

use crate::{End, Kind, Place, Repaired, Stop, TWINS_BYTES};

/// The number of a result, and its two values, each 0 where there is none.
fn parts(result: u64) -> (u64, u64, u64) {
    (result & 0xff, result >> 8 & 0xff_ffff, result >> 32)
}

/// Nothing where the call was done; else why it stopped.
pub fn done(result: u64) -> Result<(), Stop> {
    let (number, value, second) = parts(result);
    Err(match number {
        0 => return Ok(()),
        1 => Stop::WrongDepth,
        2 => Stop::WrongLength,
        3 => Stop::WrongTable { word: value },
        4 => Stop::WrongMark { place: value },
        5 => Stop::WrongNumber,
        6 => Stop::WrongHead,
        7 => Stop::WrongHash { layer: value, position: Some(second) },
        8 => Stop::NoFault,
        9 => Stop::Absent { number: value },
        10 => Stop::Uncovered { layer: value, symbol: second },
        11 => Stop::WrongRecord,
        12 => Stop::OtherTable,
        14 => Stop::NotWhole,
        _ => Stop::Unknown { result },
    })
}

/// The same of the check of a sample, which has no positions.
pub fn sample_done(result: u64) -> Result<(), Stop> {
    done(result).map_err(|stop| match stop {
        Stop::WrongHash { layer, .. } => Stop::WrongHash { layer, position: None },
        stop => stop,
    })
}

/// The place of twins: 12 bits are its number, and those above its layer. Of a plain volume none is told.
fn twins_at(kind: Kind, value: u64) -> Option<Place> {
    let place = Place { layer: (value >> 12) as usize, number: (value & 0xfff) as usize };
    (kind == Kind::Placed).then_some(place)
}

/// Of a repair by a record of this kind that was not stopped, and has written this output: what it reports.
pub fn ended(result: u64, kind: Kind, mut output: Vec<u8>) -> Result<Repaired, Stop> {
    let (_, end, second) = parts(result);
    let (stored, value) = (second & 0xffff, second >> 16);
    let mut cut = |len: usize| {
        output.truncate(len);
        std::mem::take(&mut output)
    };
    let end = match end {
        0 => End::Whole,
        1 => End::Fault { proof: cut(value as usize) },
        2 => End::Unavailable { layer: value as usize },
        3 => End::Twins { symbols: cut(TWINS_BYTES), place: twins_at(kind, value) },
        13 => End::Misfilled,
        _ => return Err(Stop::Unknown { result }),
    };
    Ok(Repaired { stored: stored as usize, end })
}

#[cfg(test)]
mod tests {
    use super::*;
    use std::iter;

    /// The values of a stop, as many as it has.
    fn values(stop: Stop) -> Vec<u64> {
        match stop {
            Stop::WrongTable { word: value }
            | Stop::WrongMark { place: value }
            | Stop::Absent { number: value } => vec![value],
            Stop::WrongHash { layer, position } => iter::once(layer).chain(position).collect(),
            Stop::Uncovered { layer, symbol } => vec![layer, symbol],
            _ => Vec::new(),
        }
    }

    /// The numbers there are, with how many values each has.
    const NUMBERS: [(u64, usize); 13] = [
        (1, 0),
        (2, 0),
        (3, 1),
        (4, 1),
        (5, 0),
        (6, 0),
        (7, 2),
        (8, 0),
        (9, 1),
        (10, 2),
        (11, 0),
        (12, 0),
        (14, 0),
    ];

    /// Every number comes back, with as many values as it has, whatever stands in the place of the others.
    #[test]
    fn stops_keep_their_numbers_and_values() {
        let most = ((1 << 24) - 1, u64::from(u32::MAX));
        for (number, count) in NUMBERS {
            for (first, second) in [(0, 0), (1, 255), (256, 0), (8, 1023), (8175, 65536), most] {
                let stop = done(second << 32 | first << 8 | number).expect_err("a stop");
                assert_eq!(u64::from(stop.number()), number);
                assert_eq!(values(stop), [first, second][..count]);
            }
        }
        assert_eq!(done(0), Ok(()));
        for result in [13, 15, 255] {
            assert_eq!(done(result), Err(Stop::Unknown { result }));
        }
    }

    /// 7 of a sample has the layer alone; all else is as of other calls.
    #[test]
    fn samples_have_no_position() {
        let result = |number: u64| 3 << 32 | 2 << 8 | number;
        assert_eq!(done(result(7)), Err(Stop::WrongHash { layer: 2, position: Some(3) }));
        assert_eq!(sample_done(result(7)), Err(Stop::WrongHash { layer: 2, position: None }));
        for number in (0..=255).filter(|number| *number != 7) {
            assert_eq!(sample_done(result(number)), done(result(number)));
        }
    }

    #[test]
    fn ends_keep_their_parts() {
        let packed = |end: u64, stored: u64, value: u64| end << 8 | stored << 32 | value << 48;
        let output: Vec<u8> = (0..18188).map(|i| i as u8).collect();
        let by = |kind, end, stored, value| ended(packed(end, stored, value), kind, output.clone());
        let of = |end, stored, value| {
            let placed = by(Kind::Placed, end, stored, value);
            assert_eq!(placed, by(Kind::Plain, end, stored, value));
            placed
        };
        assert_eq!(of(0, 8176, 0), Ok(Repaired { stored: 8176, end: End::Whole }));
        let proof = output[..780].to_vec();
        assert_eq!(of(1, 0, 780), Ok(Repaired { stored: 0, end: End::Fault { proof } }));
        let proof = output.clone();
        assert_eq!(of(1, 9, 18188), Ok(Repaired { stored: 9, end: End::Fault { proof } }));
        assert_eq!(of(2, 7, 8), Ok(Repaired { stored: 7, end: End::Unavailable { layer: 8 } }));
        for (value, layer, number) in
            [(0, 0, 0), (15, 0, 15), (4098, 1, 2), (36863, 8, 4095), (65535, 15, 4095)]
        {
            let symbols = output[..512].to_vec();
            let end = End::Twins { symbols, place: Some(Place { layer, number }) };
            assert_eq!(by(Kind::Placed, 3, 65535, value), Ok(Repaired { stored: 65535, end }));
        }
        let end = End::Twins { symbols: output[..512].to_vec(), place: None };
        assert_eq!(by(Kind::Plain, 3, 7, 0), Ok(Repaired { stored: 7, end }));
        assert_eq!(of(13, 8176, 0), Ok(Repaired { stored: 8176, end: End::Misfilled }));
        for end in [4, 12, 14] {
            assert_eq!(of(end, 0, 0), Err(Stop::Unknown { result: end << 8 }));
        }
    }
}
