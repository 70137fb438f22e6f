//! Work timed in turns, so that what else the machine does falls on all of it alike.

use crate::clock;
use crate::depths::{offered, turns};

/// The nanoseconds that one run takes, of many.
pub fn each(times: usize, mut run: impl FnMut()) -> f64 {
    let start = clock::now();
    (0..times).for_each(|_| run());
    (clock::now() - start) / times as f64
}

/// A name, and what gives its nanoseconds.
pub type Work<S> = (&'static str, fn(&mut S) -> f64);

/// The shortest time over the trials of each work that is offered at a depth, with its name.
pub fn shortest<S>(
    trials: usize,
    depth: u64,
    works: &[Work<S>],
    state: &mut S,
) -> Vec<(&'static str, f64)> {
    let works = works.iter().filter(|(name, _)| offered(name, depth));
    let mut best: Vec<_> = works.map(|&(name, work)| (name, work, f64::INFINITY)).collect();
    for _ in 0..turns(trials, depth) {
        for (_, work, best) in &mut best {
            *best = best.min(work(state));
        }
    }
    best.into_iter().map(|(name, _, best)| (name, best)).collect()
}
