//! Trees to repair and to recode, right and miscoded, and proofs that they give.

use super::Target;
use crate::recipe::Recipe;
use differential::input::Input;
use differential::random::Random;
use differential::volumes::Volume;
use differential::{proofs, recodings, repairs};
use reference::proof::{Head, HEAD};

/// A head that the table has.
fn head(volume: &Volume, recipe: &mut Recipe) -> Head {
    let layer = usize::from(recipe.byte()) % volume.depth;
    let equation = recipe.below(volume.equations[layer].len());
    let members = &volume.equations[layer][equation];
    Head { layer, equation, withheld: members[usize::from(recipe.byte()) % members.len()] }
}

pub static PROOF_CHECK: Target = Target {
    call: &proofs::PROOF_CHECK,
    input: |recipe| {
        let volume = recipe.volume();
        let proof = volume.proof(head(&volume, recipe));
        let mut input = proofs::of(&volume, proof);
        recipe.damage(&mut input["proof"][HEAD..]);
        input.set("depth", recipe.asked(volume.depth));
        recipe.record(&mut input);
        input
    },
};

/// A tree to repair or to recode, as the call is lent it.
fn tree_to(lent: fn(&Volume, &mut Random) -> Input, recipe: &mut Recipe) -> Input {
    let volume = recipe.volume();
    let mut input = lent(&volume, &mut recipe.random());
    input.set("depth", recipe.asked(volume.depth));
    recipe.record(&mut input);
    input
}

pub static RECODE: Target =
    Target { call: &recodings::RECODE, input: |recipe| tree_to(recodings::of, recipe) };

pub static REPAIR: Target =
    Target { call: &repairs::REPAIR, input: |recipe| tree_to(repairs::of, recipe) };
