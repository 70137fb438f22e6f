//! Wrong heads and lengths.

use crate::difference::Difference;
use crate::input::Input;
use crate::library::right;
use crate::mutants::{wrong, wrong_deep};
use crate::proofs::{named, PROOF_CHECK as CALL};
use crate::records::put_table;
use crate::tables::mutants::trailing_words_after;
use reference::proof::{proof_len, HEAD};
use reference::table::{self, equations};

const VALUE: u32 = (1 << 30) - 1;

/// `right` with a word of the head taken for another.
fn head_as(i: &mut Input, at: usize, taken_for: fn(u32) -> u32) -> u64 {
    let mut seen = i.clone();
    if let Some(bytes) = seen["proof"].get_mut(4 * at..4 * at + 4) {
        bytes.copy_from_slice(&taken_for(word(i, at)).to_be_bytes());
    }
    right(&mut seen)
}

/// A word of the head.
fn word(i: &Input, at: usize) -> u32 {
    i["proof"][4 * at..4 * at + 4].iter().fold(0, |word, &byte| word << 8 | u32::from(byte))
}

/// A test that a check is found which takes a word of the head for another.
macro_rules! wrong_word {
    ($name:ident, $at:literal, $taken_for:expr) => {
        wrong!($name, Difference::Result { expected: 6, .. }, |i| head_as(i, $at, $taken_for));
    };
}

wrong_word!(first_kind_not_tested, 0, |word| 1 << 30 | word & VALUE);
wrong_word!(second_kind_not_tested, 1, |word| 2 << 30 | word & VALUE);
wrong_word!(third_kind_not_tested, 2, |word| 3 << 30 | word & VALUE);
wrong_word!(layer_of_8_bits, 0, |word| word & 0xc000_00ff);
wrong_word!(equation_of_16_bits, 1, |word| word & 0xc000_ffff);
wrong_word!(withheld_of_29_bits, 2, |word| word & 0xdfff_ffff);

wrong!(only_the_last_withheld, 0 | 7 | 8 => 6, |i| {
    let result = right(i);
    let in_form = matches!(result % 256, 0 | 7 | 8);
    if in_form && word(i, 2) & VALUE != (4 << (word(i, 0) & VALUE)) + (word(i, 1) & VALUE) {
        return 6;
    }
    result
});

/// The table with the withheld number among the members of the equation that
/// the head names, in the place of the first.
fn with_named_member(i: &Input) -> Option<Vec<u8>> {
    let mut layers = equations(i.number("depth"), &i["table"]).ok()?;
    let [layer, equation, withheld] = [(0, 1), (1, 2), (2, 3)]
        .map(|(at, kind): (usize, u32)| (word(i, at) ^ kind << 30) as usize);
    let members = layers.get_mut(layer)?.get_mut(equation)?;
    if withheld >= members[members.len() - 1] {
        return None;
    }
    members[0] = withheld;
    members.sort_unstable();
    Some(table::to_bytes(&table::write(&layers)))
}

wrong!(members_named_in_the_proof, Difference::Result { expected: 6, .. }, |i| match right(i) {
    6 => with_named_member(i).map_or(6, |table| {
        let mut seen = i.clone();
        put_table(&mut seen, table);
        right(&mut seen)
    }),
    result => result,
});

wrong!(hash_for_head, Difference::Result { expected: 6, found: 7 }, |i| match right(i) {
    6 => 7,
    result => result,
});

wrong!(layer_of_no_tree_is_no_fault, Difference::Result { expected: 6, found: 8 }, |i| {
    match right(i) {
        6 if i["proof"][0] == 0x7f => 8,
        result => result,
    }
});

wrong!(third_kind_after_the_length, Difference::Result { expected: 6, found: 2 }, |i| {
    match head_as(i, 2, |word| 3 << 30 | word & VALUE) {
        2 => 2,
        _ => right(i),
    }
});

wrong!(long_proof_before_the_table, Difference::Result { found: 2, .. }, |i| match right(i) {
    result if result % 256 == 3 && i["proof"].len() > 16_384 => 2,
    result => result,
});

wrong!(long_proof_before_the_head, Difference::Result { expected: 6, found: 2 }, |i| {
    match right(i) {
        6 if i["proof"].len() > 16_384 => 2,
        result => result,
    }
});

wrong!(words_after_the_end_word_last, Difference::Result { found: 6, .. }, |i| {
    trailing_words_after(6, i)
});

wrong!(longer_proof_taken, Difference::Result { expected: 2, .. }, |i| {
    let mut seen = i.clone();
    if let Some((head, members)) = named(i) {
        seen["proof"].truncate(proof_len(head.layer, members));
    }
    right(&mut seen)
});

wrong!(no_head_and_no_length, Difference::Result { expected: 2, .. }, |i| match right(i) {
    2 if i["proof"].len() == HEAD => 7,
    result => result,
});

// Deep trees.

wrong!(layer_of_2_bits, Difference::Result { .. }, |i| head_as(i, 0, |word| word & 0xc000_0003));

wrong_deep!(layer_of_3_bits, Difference::Result { .. }, |i| head_as(i, 0, |word| word
    & 0xc000_0007));
wrong_deep!(equation_of_11_bits, Difference::Result { .. }, |i| head_as(i, 1, |word| word
    & 0xc000_07ff));
wrong_deep!(withheld_of_11_bits, Difference::Result { .. }, |i| head_as(i, 2, |word| word
    & 0xc000_07ff));
wrong_deep!(withheld_of_12_bits, 6 => _, |i| head_as(i, 2, |word| word & 0xc000_0fff));

wrong_deep!(proof_over_16384_bytes_refused, 0 => 2, |i| match right(i) {
    0 if i["proof"].len() > 16_384 => 2,
    result => result,
});

wrong_deep!(last_equation_unknown, 0 => 6, |i| match right(i) {
    0 if word(i, 0) & VALUE == 8 && word(i, 1) & VALUE == 3071 => 6,
    result => result,
});

wrong_deep!(table_cut_at_16384_bytes, 0 => 3, |i| {
    let mut seen = i.clone();
    seen["table"].truncate(16_384);
    right(&mut seen)
});
