//! Wrong repairers.

mod filling;
mod nested;
mod reports;
mod rules;
mod steps;

use super::REPAIR;
use crate::comparisons::compare;
use crate::difference::Difference;
use crate::library::{by, right, Library};
use crate::proofs::PROOF_CHECK;

/// A checker that turns the repairer's proofs down.
#[test]
fn proofs_turned_down() {
    let library = Library::right().with(&PROOF_CHECK, by(&PROOF_CHECK, |i| right(i).max(8)));
    let failure = compare(&REPAIR, &library).err().expect("it passed");
    assert_eq!(failure.difference, Difference::Result { expected: 0, found: 8 });
}
