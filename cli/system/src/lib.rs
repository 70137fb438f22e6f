//! What the standard library of Rust 1.63 does not have: folders by their descriptors, signals that wait, and what
//! the standard streams are. All unsafe code of the command is here. Numbers are those of Linux on x86-64, which
//! the proved library is built for.

mod folder;
mod signals;
mod streams;

pub use folder::{give, Folder, Rename};
pub use signals::{ignore_size_limit, Held};
pub use streams::{input, output, terminal};
