//! An independent implementation, to compare the proved library with.
//!
//! It is written from the published documents, each module from the one that
//! it names, and shares no code with the proved library.

pub mod cover;
pub mod kind;
pub mod listing;
pub mod path;
pub mod proof;
pub mod recode;
pub mod record;
pub mod repair;
pub mod sample;
pub mod sha256;
pub mod stop;
pub mod table;
pub mod tree;
#[cfg(test)]
mod written;
