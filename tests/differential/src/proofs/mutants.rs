//! Wrong proof checks.

mod breaks;
mod hashes;
mod heads;
