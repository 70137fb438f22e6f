//! The calls, each with what it is lent by a recipe.

pub mod repairs;
pub mod samples;
mod tables;
mod trees;

use crate::edits;
use crate::recipe::Recipe;
use differential::call::Call;
use differential::comparisons::Comparisons;
use differential::difference::Compared;
use differential::input::Input;
use differential::library::Library;
use differential::messages::LONGEST;
use differential::sha256::{DIGEST, SHA256};

pub struct Target {
    pub call: &'static Call,
    /// What the call is lent, before the changes that end the recipe.
    input: fn(&mut Recipe) -> Input,
}

pub static TARGETS: &[&Target] = &[
    &Target { call: &SHA256, input: sha256 },
    &tables::TABLE_CHECK,
    &tables::HOUSE_TABLE,
    &trees::TREE_WRITE,
    &trees::BLOCK_READ,
    &samples::SAMPLE_TAKE,
    &samples::SAMPLE_CHECK,
    &repairs::PROOF_CHECK,
    &repairs::REPAIR,
    &repairs::RECODE,
];

impl Target {
    /// Makes the call that a recipe describes, and compares it.
    pub fn make(&self, library: &Library, recipe: &mut Recipe) -> Compared {
        let mut comparisons = Comparisons::of(self.call, library, recipe.random());
        comparisons.make("fuzzed", &self.lent(recipe)).map(|_| ())
    }

    /// What the call is lent by the rest of a recipe.
    pub fn lent(&self, recipe: &mut Recipe) -> Input {
        let mut input = (self.input)(recipe);
        edits::apply(recipe.rest(), &mut input.buffers);
        input
    }
}

/// A message of the recipe's own bytes, over and over, or of a length at the
/// limit.
fn sha256(recipe: &mut Recipe) -> Input {
    let digest = vec![0xaa; recipe.asked(DIGEST).min(4096) as usize];
    let times = recipe.byte();
    let mut message = recipe.rest().repeat(1 + usize::from(times) % 16);
    match times {
        254 => message.resize(LONGEST, 0),
        255 => message.resize(LONGEST + 1, 0),
        _ => {}
    }
    Input::new(&SHA256, [], [message, digest])
}
