//! Tables: well-formed ones, covered or not, or none; and lengths to write one in.

use super::Target;
use differential::input::Input;
use differential::random::Random;
use differential::tables::{self, house_len, to_fill};
use reference::table::to_bytes;

pub static TABLE_CHECK: Target = Target {
    call: &tables::TABLE_CHECK,
    input: |recipe| {
        let (made_for, _) = recipe.made_for();
        let depth = recipe.asked(made_for);
        let words = if recipe.byte() < 32 { Vec::new() } else { recipe.words(made_for) };
        Input::new(&tables::TABLE_CHECK, [depth], [to_bytes(&words)])
    },
};

pub static HOUSE_TABLE: Target = Target {
    call: &tables::HOUSE_TABLE,
    input: |recipe| {
        let (made_for, _) = recipe.made_for();
        let depth = recipe.asked(made_for);
        let len = recipe.asked(house_len(made_for)).min(1 << 18);
        to_fill(depth, len as usize, &mut Random::new(depth))
    },
};
