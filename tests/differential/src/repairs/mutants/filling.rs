//! Wrong looks at what fills up a block, and wrong reports of it.

use super::rules::{repair_by, Rules, RULES};
use crate::difference::Difference;
use crate::input::Input;
use crate::library::right;
use crate::mutants::{wrong, wrong_deep};
use crate::records::head;
use crate::repairs::REPAIR as CALL;
use crate::results::{ended, repaired};
use reference::repair::{End, Repaired};
use reference::tree::{base_data, SYMBOL};

/// What a result that is no stop has above its number.
const MISFILLED: u64 = 13 << 8;

/// A test that a repairer is found which asks other bytes to be zero, given the base's data
/// and the length of the block.
macro_rules! other_filling {
    ($name:ident, |$data:ident, $length:pat_param| $filling:expr) => {
        wrong!($name, Difference::Result { .. }, |i| {
            repair_by(&Rules { filling: |$data, $length| $filling, ..RULES }, i)
        });
    };
}

other_filling!(not_looked_at, |data, _| &data[..0]);
other_filling!(one_byte_too_early, |data, length| &data[length.saturating_sub(1)..]);
other_filling!(one_byte_too_late, |data, length| &data[data.len().min(length + 1)..]);
other_filling!(first_byte_alone, |data, length| &data[length..data.len().min(length + 1)]);
other_filling!(last_byte_alone, |data, length| &data[length.max(data.len() - 1)..]);
other_filling!(last_byte_not_looked_at, |data, length| {
    &data[length..length.max(data.len() - 1)]
});
other_filling!(first_symbol_alone, |data, length| {
    &data[length..(length + SYMBOL - 1) / SYMBOL * SYMBOL]
});
other_filling!(whole_symbols_alone, |data, length| &data
    [(length + SYMBOL - 1) / SYMBOL * SYMBOL..]);
other_filling!(from_the_start_of_a_symbol, |data, length| &data[length / SYMBOL * SYMBOL..]);
other_filling!(the_block_too, |data, _| data);
other_filling!(the_block_alone, |data, length| &data[..length]);

/// `right`, and another result or other buffers where it ends so.
pub fn ending(i: &mut Input, other: impl Fn(&Input, &mut Input, Repaired) -> Option<End>) -> u64 {
    let before = i.clone();
    let result = right(i);
    match ended(result) {
        Some(repair) => match other(&before, i, repair) {
            Some(end) => repaired(Ok(Repaired { end, ..repair })),
            None => result,
        },
        None => result,
    }
}

/// Whether what stands in the base fills up the block with zeros.
fn is_filled(i: &Input) -> bool {
    let length = head(i).expect("a head").length;
    let data = base_data(i.number("depth") as usize, &i["tree"]);
    data[length..].iter().all(|&byte| byte == 0)
}

wrong!(misfilled_as_whole, Difference::Result { .. }, |i| {
    ending(i, |_, _, repair| (repair.end == End::Misfilled).then_some(End::Whole))
});

wrong!(all_misfilled, Difference::Result { .. }, |i| {
    ending(i, |_, _, repair| (repair.end == End::Whole).then_some(End::Misfilled))
});

wrong!(misfilled_in_the_place_of_fault, Difference::Result { .. }, |i| {
    ending(i, |_, i, repair| match repair.end {
        End::Fault(_) if !is_filled(i) => Some(End::Misfilled),
        _ => None,
    })
});

wrong!(misfilled_in_the_place_of_unavailable, Difference::Result { .. }, |i| {
    ending(i, |_, i, repair| match repair.end {
        End::Unavailable(_) if !is_filled(i) => Some(End::Misfilled),
        _ => None,
    })
});

wrong!(filling_of_the_lent_tree, Difference::Result { .. }, |i| {
    ending(i, |before, _, repair| match repair.end {
        End::Whole | End::Misfilled if is_filled(before) => Some(End::Whole),
        End::Whole | End::Misfilled => Some(End::Misfilled),
        _ => None,
    })
});

wrong!(only_where_nothing_was_stored, Difference::Result { .. }, |i| {
    ending(i, |_, _, repair| match repair {
        Repaired { end: End::Misfilled, stored: 1.. } => Some(End::Whole),
        _ => None,
    })
});

wrong!(misfilled_without_stored, Difference::Result { .. }, |i| match right(i) {
    result if result & 0xffff_ffff == MISFILLED => MISFILLED,
    result => result,
});

wrong!(misfilled_with_the_length, Difference::Result { .. }, |i| match right(i) {
    result if result & 0xffff_ffff == MISFILLED => {
        result | (head(i).expect("a head").length as u64 & 0xffff) << 48
    }
    result => result,
});

wrong!(misfilled_as_a_number, Difference::Result { .. }, |i| match right(i) {
    result if result & 0xffff_ffff == MISFILLED => 13,
    result => result,
});

wrong!(misfilled_as_twins, Difference::Result { .. }, |i| {
    ending(i, |_, _, repair| (repair.end == End::Misfilled).then_some(End::Twins(None)))
});

/// `right`, but a misfilled tree's buffer is left as it was lent.
fn left(i: &mut Input, buffer: &str) -> u64 {
    ending(i, |before, i, repair| {
        if repair.end == End::Misfilled {
            i[buffer] = before[buffer].clone();
        }
        None
    })
}

wrong!(tree_of_misfilled_left, Difference::Inside { buffer: "tree", .. }, |i| left(i, "tree"));

wrong!(marks_of_misfilled_left, Difference::Inside { buffer: "marks", .. }, |i| left(i, "marks"));

wrong!(filling_cleared, Difference::Inside { buffer: "tree", .. }, |i| {
    ending(i, |_, i, repair| {
        if repair.end == End::Misfilled {
            let depth = i.number("depth") as usize;
            let length = head(i).expect("a head").length;
            let block = base_data(depth, &i["tree"]).len();
            let start = SYMBOL * reference::tree::place(depth - 1, 0);
            i["tree"][start + length..start + block].fill(0);
        }
        None
    })
});

wrong!(output_of_misfilled_written, Difference::Inside { buffer: "output", .. }, |i| {
    ending(i, |_, i, repair| {
        if repair.end == End::Misfilled {
            i["output"][..2 * SYMBOL].fill(0);
        }
        None
    })
});

// Deep trees.

wrong_deep!(length_of_16_bits, Difference::Result { .. }, |i| {
    let filling: fn(&[u8], usize) -> &[u8] = |data, length| &data[length & 0xffff..];
    repair_by(&Rules { filling, ..RULES }, i)
});

wrong_deep!(first_65536_bytes_looked_at, Difference::Result { .. }, |i| {
    let filling: fn(&[u8], usize) -> &[u8] =
        |data, length| &data[length.min(65_536)..data.len().min(65_536)];
    repair_by(&Rules { filling, ..RULES }, i)
});
