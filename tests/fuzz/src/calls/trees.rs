//! Blocks to code as volumes of both kinds, and trees to read back.

use super::Target;
use differential::messages::CONTENTS;
use differential::records::{put_kind, DEPTH};
use differential::trees::{reading, writing};

pub static TREE_WRITE: Target = Target {
    call: &writing::TREE_WRITE,
    input: |recipe| {
        let (made_for, kind) = recipe.made_for();
        let depth = recipe.asked(made_for);
        let words = recipe.words(made_for);
        let content = CONTENTS[usize::from(recipe.byte()) % CONTENTS.len()];
        let mut random = recipe.random();
        let length = recipe.length(made_for);
        let mut input = writing::to_write(kind, made_for, &words, content, length, &mut random);
        input.set("depth", depth);
        input.set("kind", recipe.asked(kind as usize));
        input
    },
};

pub static BLOCK_READ: Target = Target {
    call: &reading::BLOCK_READ,
    input: |recipe| {
        let (made_for, kind) = recipe.made_for();
        let depth = recipe.asked(made_for);
        let mut input = reading::to_read(made_for, &mut recipe.random());
        put_kind(&mut input, DEPTH, kind as u32);
        recipe.record(&mut input);
        input.set("depth", depth);
        input
    },
};
