//! The first tests of all calls, 1 and 2.

use crate::call::{Test, TEST};
use crate::comparisons::large;
use reference::stop::Stop;
use reference::table::{layers_of, MAX_DEPTH};

/// The depths that there are.
pub const DEPTHS: [usize; MAX_DEPTH as usize] = {
    let mut depths = [1; MAX_DEPTH as usize];
    let mut at = 1;
    while at < depths.len() {
        depths[at] = depths[at - 1] + 1;
        at += 1;
    }
    depths
};

/// The depths that tables are made for go one beyond.
pub const BEYOND: usize = DEPTHS.len() + 1;

/// The first of the deep depths, whose calls take long.
pub const DEEP: usize = 6;

/// How many turns there are at a depth: those that a shallow one gets, or fewer.
pub fn turns(depth: usize, shallow: usize) -> usize {
    match depth.checked_sub(DEEP) {
        Some(deeper) => (shallow >> (4 + deeper)).max(1),
        None => shallow,
    }
}

/// Numbers below a limit: all at a shallow depth, some at a deep one, the first and the last
/// among them.
pub fn sparse(depth: usize, limit: usize) -> Vec<usize> {
    let most = match depth.checked_sub(DEEP) {
        Some(deeper) => limit.min(24 - 5 * deeper.min(3)),
        None => return (0..limit).collect(),
    };
    (0..most).map(|i| i * (limit - 1) / (most - 1).max(1)).collect()
}

pub const DEPTH: Test = Test {
    number: 1,
    ask: |i| layers_of(i.number("depth")).map(|_| ()),
    spoil: |i, random| i.set("depth", large(i.number("depth"))[random.below(5)]),
    ..TEST
};

/// Of all buffers.
pub const LENGTHS: Test = Test {
    number: 2,
    ask: |i| if i.lengths_fit(|_| true) { Ok(()) } else { Err(Stop::Length) },
    spoil: |i, random| {
        let some = 1 + random.below((1 << i.buffers.len()) - 1);
        let size = i.size().expect("a size");
        for (b, buffer) in i.call.buffers().enumerate().filter(|(b, _)| some >> b & 1 == 1) {
            buffer.length.spoil(size, &mut i.buffers[b], random);
        }
    },
    ..TEST
};

#[cfg(test)]
mod tests {
    use super::*;

    #[test]
    fn fewer_at_deep_depths() {
        assert_eq!([5, 6, 7, 8, 9].map(|depth| turns(depth, 300)), [300, 18, 9, 4, 2]);
        assert_eq!(turns(9, 4), 1);
        assert_eq!(sparse(5, 3), [0, 1, 2]);
        assert_eq!(sparse(9, 4096), [0, 511, 1023, 1535, 2047, 2559, 3071, 3583, 4095]);
        assert_eq!(sparse(6, 1), [0]);
        for (depth, limit) in DEPTHS.into_iter().flat_map(|depth| [2, 9, 33].map(|l| (depth, l))) {
            let some = sparse(depth, limit);
            assert!(some[0] == 0 && some[some.len() - 1] == limit - 1);
            assert!(some.windows(2).all(|pair| pair[0] < pair[1]));
        }
    }
}
