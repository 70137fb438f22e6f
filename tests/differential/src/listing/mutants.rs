//! Listings that are wrong in one way each. The comparison must find every one
//! of them.

use super::{compare, listing, List, BLOCK};
use crate::difference::{Difference, Failure};
use reference::kind::Kind;
use reference::table::{equations, house, to_bytes};
use reference::tree::{code_tree, symbol_at};

const HEADER: &str = "tree 1 16\n";

fn right(input: &[u8]) -> Vec<u8> {
    listing(input).into_bytes()
}

/// The listing of a block that is coded by a table, its lines made of each
/// symbol's number and bytes.
fn listed(input: &[u8], words: &[u32], line: impl Fn(usize, &[u8]) -> String) -> Vec<u8> {
    if input.len() != BLOCK {
        return Vec::new();
    }
    let equations = equations(1, &to_bytes(words)).expect("a table");
    let (tree, _) = code_tree(Kind::Plain, &equations, input, |_, _| ());
    let lines: String = (0..16).map(|number| line(number, symbol_at(&tree, number))).collect();
    [HEADER, &lines].concat().into_bytes()
}

fn right_line(number: usize, symbol: &[u8]) -> String {
    format!("{number} {:02X}\n", symbol[0])
}

#[test]
fn right_passes() {
    let met = compare(right).unwrap_or_else(|failure| panic!("{failure}"));
    assert!(met.made > 600);
}

#[test]
fn right_lines_pass() {
    fn list(input: &[u8]) -> Vec<u8> {
        listed(input, &house(1), right_line)
    }
    compare(list).unwrap_or_else(|failure| panic!("{failure}"));
}

fn found(list: List) -> Failure {
    compare(list).err().expect("a wrong listing passed")
}

/// A test that a listing with a wrong line differs in a byte.
macro_rules! wrong_line {
    ($name:ident, |$number:ident, $symbol:ident| $line:expr) => {
        #[test]
        fn $name() {
            fn list(input: &[u8]) -> Vec<u8> {
                listed(input, &house(1), |$number, $symbol| $line)
            }
            let failure = found(list);
            assert!(matches!(failure.difference, Difference::Inside { .. }), "{failure}");
        }
    };
}

/// A test that a wrong listing differs as the pattern says.
macro_rules! wrong {
    ($name:ident, $difference:pat, |$input:ident| $text:expr) => {
        #[test]
        fn $name() {
            fn list($input: &[u8]) -> Vec<u8> {
                $text
            }
            let failure = found(list);
            assert!(matches!(failure.difference, $difference), "{failure}");
        }
    };
}

// Digits.

wrong_line!(b_as_8, |number, symbol| right_line(number, symbol).replace('B', "8"));

wrong_line!(high_b_as_8, |number, symbol| right_line(number, symbol).replace(" B", " 8"));

wrong_line!(low_b_as_8, |number, symbol| right_line(number, symbol).replace("B\n", "8\n"));

wrong_line!(lower_case, |number, symbol| right_line(number, symbol).to_lowercase());

wrong_line!(no_leading_zero, |number, symbol| format!("{number} {:X}\n", symbol[0]));

wrong_line!(a_space_for_a_zero, |number, symbol| format!("{number} {:2X}\n", symbol[0]));

wrong_line!(digits_exchanged, |number, symbol| {
    format!("{number} {:02X}\n", symbol[0].rotate_left(4))
});

wrong_line!(byte_in_decimal, |number, symbol| format!("{number} {:02}\n", symbol[0]));

wrong_line!(byte_with_0x, |number, symbol| format!("{number} {:#04X}\n", symbol[0]));

wrong_line!(seven_bits, |number, symbol| right_line(number, &[symbol[0] & 0x7f]));

wrong_line!(one_byte_wrong, |number, symbol| {
    right_line(number, &[if symbol[0] == 0xb7 { 0x87 } else { symbol[0] }])
});

wrong_line!(one_byte_of_one_symbol_wrong, |number, symbol| {
    let hit = number == 3 && symbol[0] == 0xdb;
    right_line(number, &[if hit { 0xd8 } else { symbol[0] }])
});

// Bytes of symbols.

wrong_line!(second_byte, |number, symbol| right_line(number, &symbol[1..]));

wrong_line!(last_byte, |number, symbol| right_line(number, &symbol[255..]));

wrong!(bytes_one_after_the_other, Difference::Inside { at: 18, .. }, |input| {
    listed(input, &house(1), |number, _| right_line(number, &input[number..]))
});

wrong!(not_coded, Difference::Inside { .. }, |input| {
    listed(input, &house(1), |number, symbol| match number {
        0..=3 => right_line(number, symbol),
        _ => right_line(number, &[0]),
    })
});

wrong!(another_table, Difference::Inside { .. }, |input| {
    let mut words = house(1);
    // The members of equation 4 are 0, 2, 7, 8.
    words[22] = 1;
    listed(input, &words, right_line)
});

// Numbers.

wrong_line!(number_in_hexadecimal, |number, symbol| format!("{number:X} {:02X}\n", symbol[0]));

wrong_line!(number_of_two_digits, |number, symbol| format!("{number:02} {:02X}\n", symbol[0]));

wrong_line!(numbers_from_1, |number, symbol| right_line(number + 1, symbol));

wrong_line!(parity_numbers_from_0, |number, symbol| {
    right_line(if number < 4 { number } else { number - 4 }, symbol)
});

// Lines.

wrong_line!(two_spaces, |number, symbol| format!("{number}  {:02X}\n", symbol[0]));

wrong_line!(a_tab, |number, symbol| format!("{number}\t{:02X}\n", symbol[0]));

wrong_line!(carriage_returns, |number, symbol| format!("{number} {:02X}\r\n", symbol[0]));

wrong!(parity_symbols_left_out, Difference::Length { found: 30, .. }, |input| {
    let mut text = right(input);
    text.truncate(30);
    text
});

wrong!(last_line_missing, Difference::Length { found: 90, .. }, |input| {
    let mut text = right(input);
    text.truncate(90);
    text
});

wrong!(last_line_feed_missing, Difference::Length { found: 95, .. }, |input| {
    let mut text = right(input);
    text.pop();
    text
});

wrong!(an_empty_line_more, Difference::Length { found: 97, .. }, |input| {
    let mut text = right(input);
    if !text.is_empty() {
        text.push(b'\n');
    }
    text
});

wrong!(a_byte_of_zero_more, Difference::Length { found: 97, .. }, |input| {
    let mut text = right(input);
    if !text.is_empty() {
        text.push(0);
    }
    text
});

// The header.

/// A test that a listing with another header differs in a byte.
macro_rules! wrong_header {
    ($name:ident, $header:expr) => {
        wrong!($name, Difference::Inside { .. }, |input| {
            String::from_utf8(right(input)).expect("text").replace(HEADER, $header).into_bytes()
        });
    };
}

wrong_header!(no_header, "");
wrong_header!(another_word, "Tree 1 16\n");
wrong_header!(depth_0, "tree 0 16\n");
wrong_header!(data_symbols_alone, "tree 1 4\n");
wrong_header!(symbols_in_hexadecimal, "tree 1 10\n");
wrong_header!(depth_and_symbols_exchanged, "tree 16 1\n");

// Inputs.

wrong!(nothing_printed, Difference::Length { expected: 96, found: 0, .. }, |_input| Vec::new());

wrong!(one_listing_for_all, Difference::Inside { .. }, |input| {
    if input.len() == BLOCK {
        right(&super::cases_block())
    } else {
        Vec::new()
    }
});

wrong!(a_header_for_every_input, Difference::Length { expected: 0, .. }, |input| {
    match input.len() {
        BLOCK => right(input),
        _ => HEADER.into(),
    }
});

/// A test that a listing of an input of another length is found, which lists
/// the block that begins with it, or with which it begins.
macro_rules! listed_as_a_block {
    ($name:ident, $lengths:pat) => {
        wrong!($name, Difference::Length { expected: 0, found: 96, .. }, |input| {
            let mut block = input.to_vec();
            if matches!(input.len(), $lengths) {
                block.resize(BLOCK, 0);
            }
            right(&block)
        });
    };
}

listed_as_a_block!(no_bytes, 0);
listed_as_a_block!(one_byte, 1);
listed_as_a_block!(one_byte_less, 1023);
listed_as_a_block!(one_byte_more, 1025);
listed_as_a_block!(longer, 1026..);
listed_as_a_block!(block_of_depth_2, 2048);
