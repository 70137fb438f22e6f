//! Tables with losses that make a search long: what `linear` counts, and the benchmarks time.

pub mod lossy;
pub mod random;
pub mod search;
pub mod volume;
pub mod worst;
