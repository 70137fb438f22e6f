//! Wrong ways to ask test 5.

use super::base_symbols;
use crate::call::Ask;
use crate::input::Input;
use reference::stop::Stop;

pub const WRONG: &[(&str, Ask)] = &[
    ("n taken", |i| number_from(i, |n, number| number > n)),
    ("2n taken", |i| number_from(i, |n, number| number >= n && number != 2 * n)),
    ("n - 1 refused", |i| number_from(i, |n, number| number >= n - 1)),
    ("no sample of parity", |i| number_from(i, |n, number| number >= n / 4)),
    ("numbers of depth 5", |i| number_from(i, |_, number| number >= 256)),
];

/// Whether a number is refused, where there are n.
fn number_from(input: &Input, refused: fn(u64, u64) -> bool) -> Result<(), Stop> {
    match input.size() {
        Some(depth) if refused(base_symbols(depth), input.number("number")) => Err(Stop::Number),
        _ => Ok(()),
    }
}
