//! `cmt_sample_take` and `cmt_sample_check` beside the reference.

pub mod checking;
#[cfg(test)]
pub mod mutants;
pub mod taking;

use crate::call::{Length, Test, TEST};
use crate::comparisons::{large, Comparisons};
use crate::difference::Compared;
use crate::input::Input;
use crate::stops::{sparse, DEEP};
use reference::sample;
use reference::stop::Stop;
use reference::tree::symbols;

pub const SAMPLE_LEN: Length = Length::Of(sample_len);

/// The bytes of a sample of a depth, of a depth 0 too.
fn sample_len(depth: usize) -> usize {
    sample::sample_len(depth.max(1))
}

/// The number of a base symbol.
pub const NUMBER: Test = Test {
    number: 5,
    ask: |i| match i.size() {
        Some(depth) if i.number("number") >= base_symbols(depth) => Err(Stop::Number),
        _ => Ok(()),
    },
    spoil: |i, random| {
        let numbers = wrong_numbers(i.number("depth") as usize, i.number("number"));
        i.set("number", numbers[random.below(numbers.len())]);
    },
    own: &[every_wrong_number],
    #[cfg(test)]
    wrong: mutants::WRONG,
    ..TEST
};

/// The base symbols of a depth.
pub fn base_symbols(depth: usize) -> u64 {
    symbols(depth - 1) as u64
}

/// The depth, and a number that a base symbol has: the call's own where it is
/// one.
fn base_symbol(input: &Input) -> Option<(usize, usize)> {
    let depth = input.size()?;
    Some((depth, (input.number("number") % base_symbols(depth)) as usize))
}

/// Numbers that no base symbol of a depth has: just above, and such that are
/// `low` only where bits are lost.
fn wrong_numbers(depth: usize, low: u64) -> Vec<u64> {
    let n = base_symbols(depth);
    let mut numbers = vec![n, n + 1, 2 * n, u64::MAX];
    numbers.extend(large(low).into_iter().filter(|&number| number >= n));
    numbers
}

fn every_wrong_number(c: &mut Comparisons, depth: usize) -> Compared {
    let mut input = c.good(depth);
    let lows =
        sparse(depth, base_symbols(depth).min(40) as usize).into_iter().map(|low| low as u64);
    let most = if depth < DEEP { usize::MAX } else { 4 };
    for low in lows.take(most).chain([base_symbols(depth) - 1]) {
        for number in wrong_numbers(depth, low) {
            input.set("number", number);
            c.make("a wrong number", &input)?;
        }
    }
    Ok(())
}
