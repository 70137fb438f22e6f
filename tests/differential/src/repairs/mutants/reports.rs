//! Wrong reports, and a wrong output.

use crate::difference::Difference;
use crate::input::Input;
use crate::library::right;
use crate::mutants::{wrong, wrong_deep};
use crate::repairs::REPAIR as CALL;
use reference::proof::HEAD;
use reference::tree::SYMBOL;

/// The end, or nothing where the repair was refused.
fn end(result: u64) -> Option<u64> {
    (result % 256 == 0).then_some(result >> 8 & 0xff_ffff)
}

fn stored(result: u64) -> u64 {
    result >> 32 & 0xffff
}

/// What is reported beside the symbols stored.
fn more(result: u64) -> u64 {
    result >> 48
}

/// The result with another number of symbols stored.
fn with_stored(result: u64, stored: u64) -> u64 {
    result & !(0xffff << 32) | stored << 32
}

/// `right`, with other symbols stored, where it is not refused.
fn stored_as(i: &mut Input, other: impl FnOnce(u64) -> u64) -> u64 {
    let result = right(i);
    match end(result) {
        Some(_) => with_stored(result, other(result)),
        None => result,
    }
}

/// The places marked 0.
fn absent(i: &Input) -> u64 {
    i["marks"].iter().filter(|&&mark| mark == 0).count() as u64
}

// Symbols stored.

wrong!(none_stored, Difference::Result { .. }, |i| stored_as(i, |_| 0));

wrong!(one_more_stored, Difference::Result { .. }, |i| stored_as(i, |result| stored(result) + 1));

wrong!(bad_copies_not_counted, Difference::Result { .. }, |i| {
    let before = absent(i);
    stored_as(i, |result| if end(result) == Some(0) { before } else { stored(result) })
});

wrong!(all_gaps_counted, Difference::Result { .. }, |i| {
    let before = absent(i);
    stored_as(i, |_| before)
});

wrong!(stored_only_when_whole, Difference::Result { .. }, |i| {
    stored_as(i, |result| if end(result) == Some(0) { stored(result) } else { 0 })
});

wrong!(stored_of_8_bits, Difference::Result { .. }, |i| stored_as(i, |result| stored(result)
    % 256));

// The ends.

wrong!(whole_for_unavailable, Difference::Result { .. }, |i| match right(i) {
    result if end(result) == Some(2) => with_stored(0, stored(result)),
    result => result,
});

wrong!(twins_for_fault, Difference::Result { .. }, |i| match right(i) {
    result if end(result) == Some(1) => result ^ 2 << 8,
    result => result,
});

wrong!(no_layer, Difference::Result { .. }, |i| match right(i) {
    result if end(result) == Some(2) => result % (1 << 48),
    result => result,
});

wrong!(layer_counted_from_1, Difference::Result { .. }, |i| match right(i) {
    result if end(result) == Some(2) => result + (1 << 48),
    result => result,
});

wrong!(no_proof_length, Difference::Result { .. }, |i| match right(i) {
    result if end(result) == Some(1) => result % (1 << 48),
    result => result,
});

wrong!(whole_output_for_the_proof, Difference::Result { .. }, |i| match right(i) {
    result if end(result) == Some(1) => result % (1 << 48) + ((i["output"].len() as u64) << 48),
    result => result,
});

// The output.

/// `right`, and then a change to the output with a proof.
fn output_as(i: &mut Input, change: impl Fn(&mut [u8], usize)) -> u64 {
    let result = right(i);
    if end(result) == Some(1) {
        change(&mut i["output"], more(result) as usize);
    }
    result
}

wrong!(no_proof_written, Difference::Inside { buffer: "output", .. }, |i| {
    let before = i["output"].clone();
    output_as(i, |output, _| output.copy_from_slice(&before))
});

wrong!(rest_of_the_output_zeroed, Difference::Inside { buffer: "output", .. }, |i| {
    output_as(i, |output, len| output[len..].fill(0))
});

wrong!(last_byte_of_the_proof, Difference::Inside { buffer: "output", .. }, |i| {
    output_as(i, |output, len| output[len - 1] ^= 1)
});

wrong!(head_in_the_other_byte_order, Difference::Inside { buffer: "output", .. }, |i| {
    output_as(i, |output, _| output[..HEAD].chunks_mut(4).for_each(|word| word.reverse()))
});

wrong!(withheld_path_not_written, Difference::Inside { buffer: "output", .. }, |i| {
    let before = i["output"].clone();
    output_as(i, |output, len| {
        let start = len - SYMBOL * usize::from(output[3]);
        output[start..len].copy_from_slice(&before[start..len]);
    })
});

wrong!(members_in_another_order, Difference::Inside { buffer: "output", .. }, |i| {
    output_as(i, |output, _| {
        let given = SYMBOL * (1 + usize::from(output[3]));
        let (_, rest) = output.split_at_mut(HEAD);
        let (first, rest) = rest.split_at_mut(given);
        first.swap_with_slice(&mut rest[..given]);
    })
});

wrong!(output_zeroed_at_the_start, Difference::Inside { buffer: "output", .. }, |i| {
    let result = right(i);
    if matches!(end(result), Some(0 | 2)) {
        i["output"].fill(0);
    }
    result
});

// Deep trees.

wrong_deep!(stored_of_11_bits, Difference::Result { .. }, |i| {
    stored_as(i, |result| stored(result) & 0x7ff)
});

wrong_deep!(stored_of_12_bits, Difference::Result { .. }, |i| {
    stored_as(i, |result| stored(result) & 0xfff)
});

wrong!(layer_of_2_bits, Difference::Result { .. }, |i| match right(i) {
    result if end(result) == Some(2) => result & !(!3 << 48),
    result => result,
});

wrong_deep!(layer_of_3_bits, Difference::Result { .. }, |i| match right(i) {
    result if end(result) == Some(2) => result & !(8 << 48),
    result => result,
});

wrong_deep!(proof_length_of_14_bits, Difference::Result { .. }, |i| match right(i) {
    result if end(result) == Some(1) => result & !(1 << 62),
    result => result,
});

wrong_deep!(head_with_a_layer_of_3_bits, Difference::Inside { buffer: "output", at: 3, .. }, |i| {
    output_as(i, |output, _| output[3] &= 7)
});

wrong_deep!(
    end_of_the_longest_proof_not_written,
    Difference::Inside { buffer: "output", .. },
    |i| {
        let before = i["output"].clone();
        output_as(i, |output, len| {
            output[len.min(16_384)..len].copy_from_slice(&before[len.min(16_384)..len]);
        })
    }
);

wrong_deep!(symbols_from_place_4096_not_written, Difference::Inside { buffer: "tree", .. }, |i| {
    let before = i["tree"].clone();
    let result = right(i);
    let from = i["tree"].len().min(SYMBOL * 4096);
    i["tree"][from..].copy_from_slice(&before[from..]);
    result
});

wrong_deep!(marks_from_place_4096_not_written, Difference::Inside { buffer: "marks", .. }, |i| {
    let before = i["marks"].clone();
    let result = right(i);
    let from = i["marks"].len().min(4096);
    i["marks"][from..].copy_from_slice(&before[from..]);
    result
});

wrong_deep!(table_cut_at_16384_bytes, 0 => 3, |i| {
    let mut seen = i.clone();
    seen["table"].truncate(16_384);
    let result = right(&mut seen);
    ["tree", "marks", "output"].into_iter().for_each(|buffer| i[buffer] = seen[buffer].clone());
    result
});
