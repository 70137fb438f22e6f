//! The depths that are timed, and how often.

use std::ops::RangeInclusive;

/// The largest depth with the plain Rust beside it, whose search starts again after every take.
const COMPARED: usize = 5;

/// The variable with the largest depth that is timed: where it is set, our calls alone are.
const LARGEST: &str = "BENCHMARKS_DEPTH";

fn largest() -> Option<usize> {
    std::env::var(LARGEST).ok().map(|depth| depth.parse().expect(LARGEST))
}

pub fn depths() -> RangeInclusive<usize> {
    1..=largest().unwrap_or(9)
}

/// Whether what has this name is timed at that depth: a program from before there were kinds knows the first two.
pub fn offered(name: &str, depth: u64) -> bool {
    match name {
        "cedunmi" | "long" | "plain" | "placed" => true,
        "reference" => largest().is_none() && depth <= COMPARED as u64,
        _ => largest().is_none(),
    }
}

/// The calls in one trial, of so many up to depth 5: fewer where they take longer.
pub fn calls(times: usize, depth: u64) -> usize {
    (times >> (depth as usize).saturating_sub(COMPARED)).max(1)
}

/// The trials, of so many up to depth 5: a quarter beyond.
pub fn turns(trials: usize, depth: u64) -> usize {
    if depth <= COMPARED as u64 {
        trials
    } else {
        (trials / 4).max(1)
    }
}
