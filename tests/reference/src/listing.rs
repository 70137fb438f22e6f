//! What the program `listing` prints, written from what 01 says of it below
//! its cases.

use crate::kind::Kind;
use crate::table::{equations, house, to_bytes};
use crate::tree::{block_len, code_tree, symbol_at, tree_symbols};

/// The text for an input: of another length than the block's, nothing.
pub fn listing(input: &[u8]) -> String {
    if input.len() != block_len(1) {
        return String::new();
    }
    let table = equations(1, &to_bytes(&house(1))).expect("the house table");
    // The one layer has no hashes in it, so the kind of volume does not matter.
    let (tree, _) = code_tree(Kind::Plain, &table, input, |_, _| ());
    let mut text = format!("tree 1 {}\n", tree_symbols(1));
    for number in 0..tree_symbols(1) {
        text += &format!("{number} {:02X}\n", symbol_at(&tree, number)[0]);
    }
    text
}

#[cfg(test)]
mod tests {
    use super::*;
    use crate::written::cases_block;

    #[test]
    fn block_of_the_cases() {
        let lines = "tree 1 16,0 01,1 02,2 04,3 08,4 03,5 05,6 09,7 00,8 05,9 0F,10 0A,11 00,\
            12 09,13 0A,14 0C,15 00,";
        assert_eq!(listing(&cases_block()).replace('\n', ","), lines);
    }

    #[test]
    fn other_lengths() {
        let mut block = cases_block();
        assert_eq!(listing(&block[1..]), "");
        block.push(8);
        assert_eq!(listing(&block), "");
    }
}
