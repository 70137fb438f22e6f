//! Wrong functions that read a block back.

use super::{needed, BLOCK_READ as CALL};
use crate::difference::Difference;
use crate::input::Input;
use crate::library::right;
use crate::mutants::{asking, passes, wrong, wrong_deep, wrong_test};
use crate::records::head;
use reference::stop::Stop;
use reference::tree::{base_data, place, symbol_at, SYMBOL};

// Blocks.

/// `right`, but with the bytes of the tree from a place on.
fn read_from(i: &mut Input, place: fn(usize) -> usize) -> u64 {
    read_as(i, |i, length| {
        let start = SYMBOL * place(i.number("depth") as usize);
        let bytes = i["tree"][start..start + length].to_vec();
        i["block"][..length].copy_from_slice(&bytes);
    })
}

/// `right`, but where it is done, what this does to the lent block, which has so many bytes.
fn read_as(i: &mut Input, read: impl Fn(&mut Input, usize)) -> u64 {
    let before = i["block"].clone();
    let result = right(i);
    if result == 0 {
        i["block"] = before;
        let length = head(i).expect("a head").length;
        read(i, length);
    }
    result
}

/// Copies so many bytes of the base's data.
fn copy(i: &mut Input, length: usize) {
    let data = base_data(i.number("depth") as usize, &i["tree"])[..length].to_vec();
    i["block"][..length].copy_from_slice(&data);
}

#[test]
fn right_bytes_pass() {
    passes(&CALL, |i| read_as(i, copy));
}

wrong!(parity_read, Difference::Inside { buffer: "block", .. }, |i| {
    read_from(i, |depth| needed(depth).end)
});

wrong!(top_read, Difference::Inside { buffer: "block", .. }, |i| read_from(i, |_| 0));

// As many as the record says.

wrong!(rest_cleared, Difference::Inside { buffer: "block", .. }, |i| {
    read_as(i, |i, length| {
        copy(i, length);
        i["block"][length..].fill(0);
    })
});

wrong!(everything_copied, Difference::Inside { buffer: "block", .. }, |i| {
    read_as(i, |i, _| copy(i, i["block"].len()))
});

wrong!(one_byte_more, Difference::Inside { buffer: "block", .. }, |i| {
    read_as(i, |i, length| copy(i, i["block"].len().min(length + 1)))
});

wrong!(one_byte_fewer, Difference::Inside { buffer: "block", .. }, |i| {
    read_as(i, |i, length| copy(i, length.saturating_sub(1)))
});

wrong!(whole_symbols_alone, Difference::Inside { buffer: "block", .. }, |i| {
    read_as(i, |i, length| copy(i, length / SYMBOL * SYMBOL))
});

wrong!(last_symbol_whole, Difference::Inside { buffer: "block", .. }, |i| {
    read_as(i, |i, length| copy(i, (length + SYMBOL - 1) / SYMBOL * SYMBOL))
});

wrong!(length_of_12_bits, Difference::Inside { buffer: "block", .. }, |i| {
    read_as(i, |i, length| copy(i, length & 0xfff))
});

wrong_deep!(length_of_16_bits, Difference::Inside { buffer: "block", .. }, |i| {
    read_as(i, |i, length| copy(i, length & 0xffff))
});

/// So many symbols at the least are needed for a block.
fn symbols_of(length: usize) -> usize {
    (length + SYMBOL - 1) / SYMBOL
}

wrong_test!(symbols_of_the_filling_not_needed, 9, 9 => 0, |i| {
    let length = head(i).map_or(0, |head| head.length);
    let start = i.size().map_or(0, |depth| needed(depth).start);
    absent(i, |place, mark| mark == 0 && place < start + symbols_of(length))
});

wrong!(filling_looked_at, 0 => 13, |i| match (right(i), i.size(), head(i)) {
    (0, Some(depth), Some(head))
        if base_data(depth, &i["tree"])[head.length..].iter().any(|&byte| byte != 0) => 13,
    (result, ..) => result,
});

// Absent symbols.

/// The first symbol that is taken for absent, of those that are needed.
fn absent(i: &Input, absent: impl Fn(usize, u8) -> bool) -> Result<(), Stop> {
    let places = i.size().map_or(0..0, needed);
    let taken = |place: usize| i["marks"].get(place).map_or(false, |&mark| absent(place, mark));
    match places.clone().position(taken) {
        Some(index) => Err(Stop::Absent(index)),
        None => Ok(()),
    }
}

wrong_test!(absent_ignored_at_one_place, 9, Difference::Result { found: 0, .. }, |i| {
    absent(i, |place, mark| mark == 0 && place != 271)
});

wrong_test!(first_absent_ignored, 9, Difference::Result { .. }, |i| {
    let first = i.size().map_or(0, |depth| needed(depth).start);
    absent(i, |place, mark| mark == 0 && place != first)
});

wrong_test!(all_must_be_held, 9, Difference::Result { expected: 0, .. }, |i| {
    match i["marks"].iter().position(|&mark| mark == 0) {
        Some(place) if absent(i, |_, mark| mark == 0).is_ok() => Err(Stop::Absent(place)),
        _ => absent(i, |_, mark| mark == 0),
    }
});

wrong_test!(place_for_base_number, 9, Difference::Result { .. }, |i| {
    absent(i, |_, mark| mark == 0).map_err(|stop| match (stop, i.size()) {
        (Stop::Absent(index), Some(depth)) => Stop::Absent(place(depth - 1, index)),
        (other, _) => other,
    })
});

wrong_test!(last_absent, 9, Difference::Result { .. }, |i| {
    let marks = i.size().and_then(|depth| i["marks"].get(needed(depth))).unwrap_or(&[]);
    match marks.iter().rposition(|&mark| mark == 0) {
        Some(index) => Err(Stop::Absent(index)),
        None => Ok(()),
    }
});

// Deep trees.

/// `right`, but with symbols of other places.
fn read_at(i: &mut Input, cut: fn(usize) -> usize) -> u64 {
    read_as(i, |i, length| {
        let places = needed(i.number("depth") as usize).map(cut);
        let data: Vec<u8> = places.flat_map(|p| symbol_at(&i["tree"], p).to_vec()).collect();
        i["block"][..length].copy_from_slice(&data[..length]);
    })
}

wrong!(bytes_of_the_tree_by_16_bits, Difference::Inside { buffer: "block", .. }, |i| {
    read_at(i, |place| place & 0xff)
});

wrong_deep!(places_of_12_bits, Difference::Inside { buffer: "block", .. }, |i| {
    read_at(i, |place| place & 0xfff)
});

wrong_deep!(absent_by_places_of_12_bits, Difference::Result { .. }, |i| {
    asking(i, 9, |i| absent(i, |place, _| i["marks"].get(place & 0xfff) == Some(&0)))
});

wrong_deep!(bad_mark_of_12_bits, 4 => 4, |i| match right(i) {
    result if result % 256 == 4 => result & 0xf_ffff,
    result => result,
});

wrong_deep!(absent_number_of_9_bits, 9 => 9, |i| match right(i) {
    result if result % 256 == 9 => result & 0x1_ffff,
    result => result,
});
