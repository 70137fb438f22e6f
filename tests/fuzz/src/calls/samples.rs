//! Trees to sample, and samples of coded trees to check.

use super::Target;
use differential::samples::{base_symbols, checking, taking};
use differential::volumes::Volume;

pub static SAMPLE_TAKE: Target = Target {
    call: &taking::SAMPLE_TAKE,
    input: |recipe| {
        let (made_for, _) = recipe.made_for();
        let depth = recipe.asked(made_for);
        let base = recipe.below(base_symbols(made_for) as usize);
        let number = recipe.asked(base);
        let mut input = taking::to_sample(made_for, &mut recipe.random());
        input.numbers = vec![depth, number];
        input
    },
};

pub static SAMPLE_CHECK: Target = Target {
    call: &checking::SAMPLE_CHECK,
    input: |recipe| {
        let (made_for, kind) = recipe.made_for();
        let depth = recipe.asked(made_for);
        let base = recipe.below(base_symbols(made_for) as usize);
        let number = recipe.asked(base);
        let words = recipe.words(made_for);
        let volume = Volume::miscoded_of(kind, made_for, &words, &[], &mut recipe.random());
        let mut input = checking::sample_of(&volume, base);
        recipe.damage(&mut input["sample"]);
        recipe.record(&mut input);
        input.numbers = vec![depth, number];
        input
    },
};
