//! Comparisons of the proved library with an independent implementation and with
//! the system's own tools: the results of its calls, and every byte of every
//! buffer that they are lent. And of the program `listing`: every byte that it
//! prints.

pub mod call;
pub mod comparisons;
mod damage;
pub mod difference;
pub mod input;
mod lent;
pub mod library;
pub mod listing;
pub mod marks;
pub mod messages;
pub mod met;
#[cfg(test)]
mod mutants;
mod programs;
pub mod proofs;
pub mod random;
pub mod recodings;
pub mod records;
pub mod repairs;
pub mod results;
pub mod samples;
pub mod sha256;
pub mod stops;
mod system;
pub mod tables;
pub mod trees;
pub mod volumes;

/// Every call of the header.
pub static CALLS: &[&call::Call] = &[
    &sha256::SHA256,
    &tables::TABLE_CHECK,
    &tables::HOUSE_TABLE,
    &trees::writing::TREE_WRITE,
    &trees::reading::BLOCK_READ,
    &samples::taking::SAMPLE_TAKE,
    &samples::checking::SAMPLE_CHECK,
    &proofs::PROOF_CHECK,
    &repairs::REPAIR,
    &recodings::RECODE,
];
