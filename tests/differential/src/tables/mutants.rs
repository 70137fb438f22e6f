//! Wrong readers of tables, and wrong house tables.

use super::{COVER, HOUSE_TABLE as CALL, TABLE_CHECK, WORDS};
use crate::call::Ask;
use crate::difference::Difference;
use crate::input::Input;
use crate::library::{by_tests, right};
use crate::mutants::{asked, passes, wrong, wrong_deep};
use crate::records::put_table;
use reference::stop::Stop;
use reference::table::{check_words, house, to_bytes, to_words, MAX_BYTES};
use reference::table::{END, EQUATION, LAYER, MEMBER};

/// Wrong ways to ask test 3.
pub const WRONG: &[(&str, Ask)] = &[
    ("place one less when short", |i| match (WORDS.ask)(i) {
        Err(Stop::Word(at)) if at > 0 && at == i["table"].len() / 4 => Err(Stop::Word(at - 1)),
        result => result,
    }),
    ("place of the end word", |i| match (WORDS.ask)(i) {
        Err(Stop::Word(at)) if at > 0 && i["table"][4 * at - 4] >> 6 == 3 => {
            Err(Stop::Word(at - 1))
        }
        result => result,
    }),
    ("no place", |i| (WORDS.ask)(i).map_err(|_| Stop::Word(0))),
    ("words after the end word", |i| match ((WORDS.ask)(i), i.size()) {
        (Err(Stop::Word(at)), Some(depth)) => {
            check_words(depth as u64, &to_words(&i["table"])[..at]).map_err(|_| Stop::Word(at))
        }
        (result, _) => result,
    }),
    ("words after the end word asked after 10", |i| match ((WORDS.ask)(i), i.size()) {
        (Err(Stop::Word(at)), Some(depth)) if (COVER.ask)(i).is_err() => {
            check_words(depth as u64, &to_words(&i["table"])[..at]).map_err(|_| Stop::Word(at))
        }
        (result, _) => result,
    }),
    ("nine members", |i| read_by(&Rules { members: (2, 9), ..RULES }, i)),
    ("seven members", |i| read_by(&Rules { members: (2, 7), ..RULES }, i)),
    ("one member", |i| read_by(&Rules { members: (1, 8), ..RULES }, i)),
    ("not descending", |i| read_by(&Rules { ascent: 0, ..RULES }, i)),
    ("a member above the last", |i| read_by(&Rules { above: 1, ..RULES }, i)),
    ("a value of 29 bits", |i| read_by(&Rules { value: (1 << 29) - 1, ..RULES }, i)),
    ("end value free", |i| read_by(&Rules { end: false, ..RULES }, i)),
];

/// `right`, but whether words follow the end word is asked after the test of a
/// number.
pub fn trailing_words_after(number: u64, i: &mut Input) -> u64 {
    let mut shorter = i.clone();
    let table = &i["table"];
    put_table(&mut shorter, table[..table.len().saturating_sub(4)].to_vec());
    match (right(i), right(&mut shorter)) {
        (result, later) if result % 256 == 3 && later % 256 == number => later,
        (result, _) => result,
    }
}

/// Rules of a table, 01's or others.
struct Rules {
    /// The number of members, at the least and at the most.
    members: (usize, usize),
    /// By how much a member is above the one before it, at the least.
    ascent: u32,
    /// How far above k+e the last member may be.
    above: u32,
    /// The bits of a value.
    value: u32,
    /// Whether the end word's value is compared.
    end: bool,
}

const RULES: Rules =
    Rules { members: (2, 8), ascent: 1, above: 0, value: (1 << 30) - 1, end: true };

/// Reads a table of depth 1 by these rules, another depth by 01's.
fn read_by(rules: &Rules, input: &Input) -> Result<(), Stop> {
    if input.size() != Some(1) {
        return (WORDS.ask)(input);
    }
    let words = to_words(&input["table"]);
    let mut at = 0;
    opener(rules, &words, &mut at, LAYER, 0)?;
    for e in 0..12 {
        opener(rules, &words, &mut at, EQUATION, e)?;
        let mut low = 0;
        for number in 1.. {
            let member = *words.get(at).ok_or(Stop::Word(at))?;
            let last = member >= 4 + e;
            let enough = number >= rules.members.0 && number <= rules.members.1;
            let more = number < rules.members.1;
            let within = member >= low && member <= 4 + e + rules.above;
            if !within || (last && !enough) || (!last && !more) {
                return Err(Stop::Word(at));
            }
            at += 1;
            if last {
                break;
            }
            low = member + rules.ascent;
        }
    }
    let end = at as u32;
    opener(rules, &words, &mut at, END, end)?;
    if at < words.len() {
        return Err(Stop::Word(at));
    }
    Ok(())
}

fn opener(rules: &Rules, words: &[u32], at: &mut usize, kind: u32, v: u32) -> Result<(), Stop> {
    match words.get(*at) {
        Some(w) if w >> 30 == kind && (w & rules.value == v || kind == END && !rules.end) => {
            *at += 1;
            Ok(())
        }
        _ => Err(Stop::Word(*at)),
    }
}

#[test]
fn right_rules_pass() {
    passes(&TABLE_CHECK, |i| by_tests(i, &asked(&TABLE_CHECK, 3, |i| read_by(&RULES, i))));
}

wrong!(house_table_of_another_formula, Difference::Inside { buffer: "table", at: 91, .. }, |i| {
    let result = right(i);
    if result == 0 {
        let mut words = house(i.number("depth") as usize);
        // In equation 4 of layer 0 ⌊e/k⌋ is 1: its members are 0, 2, 7, 8, and would be 0, 1, 7, 8.
        words[22] = 1;
        i["table"] = to_bytes(&words);
    }
    result
});

wrong_deep!(
    house_table_of_member_numbers_of_11_bits,
    Difference::Inside { buffer: "table", .. },
    |i| {
        let result = right(i);
        if result == 0 {
            let words = house(i.number("depth") as usize);
            let cut = |word: u32| if word >> 30 == MEMBER { word & 0x7ff } else { word };
            i["table"] = to_bytes(&words.into_iter().map(cut).collect::<Vec<_>>());
        }
        result
    }
);

/// Readers that are wrong where tables are long, or layers large.
mod reading {
    use super::*;
    use TABLE_CHECK as CALL;

    /// `right` with another table seen.
    fn seeing(i: &Input, other: impl Fn(&mut Vec<u8>)) -> u64 {
        let mut seen = i.clone();
        other(&mut seen["table"]);
        right(&mut seen)
    }

    /// `right` with the value of each word of a kind cut.
    fn cut(i: &Input, kind: u32, bits: u32) -> u64 {
        seeing(i, |table| {
            let cut = |word: u32| match word >> 30 == kind {
                true => word & (3 << 30 | (1 << bits) - 1),
                false => word,
            };
            let whole = table.len() / 4 * 4;
            let words: Vec<u32> = to_words(table).into_iter().map(cut).collect();
            table.splice(..whole, to_bytes(&words));
        })
    }

    wrong!(over_16384_bytes_refused, 3 => 2, |i| match right(i) {
        result if result != 1 && i["table"].len() > 16_384 => 2,
        result => result,
    });

    wrong!(depth_6_refused, Difference::Result { found: 1, .. }, |i| match i.number("depth") {
        6 => 1,
        _ => right(i),
    });

    wrong!(layers_of_2_bits, Difference::Result { .. }, |i| cut(i, LAYER, 2));

    wrong_deep!(layers_of_3_bits, 0 => 3, |i| cut(i, LAYER, 3));
    wrong_deep!(equations_of_11_bits, 0 => 3, |i| cut(i, EQUATION, 11));
    wrong_deep!(members_of_11_bits, 0 => 3, |i| cut(i, MEMBER, 11));
    wrong_deep!(members_of_12_bits, 3 => 0, |i| cut(i, MEMBER, 12));
    wrong_deep!(end_of_15_bits, 0 => 3, |i| cut(i, END, 15));

    wrong_deep!(table_cut_at_16384_bytes, 0 => 3, |i| seeing(i, |table| table.truncate(16_384)));

    wrong_deep!(table_cut_at_the_longest_well_formed_one, 3 => 0, |i| {
        let longest = |len| if len <= MAX_BYTES && len % 4 == 0 { 220_768 } else { len };
        seeing(i, |table| table.truncate(longest(table.len())))
    });

    wrong_deep!(places_in_the_table_of_16_bits, 0 => 3, |i| {
        seeing(i, |table| (1 << 16..table.len()).for_each(|at| table[at] = table[at & 0xffff]))
    });

    wrong_deep!(first_wrong_word_of_15_bits, 3 => 3, |i| match right(i) {
        result if result % 256 == 3 => result & 0x7f_ffff,
        result => result,
    });

    wrong_deep!(layer_beside_10_of_3_bits, 10 => 10, |i| match right(i) {
        result if result % 256 == 10 => result & !(8 << 8),
        result => result,
    });

    wrong_deep!(symbol_beside_10_of_9_bits, 10 => 10, |i| match right(i) {
        result if result % 256 == 10 => result & !(0x200 << 32),
        result => result,
    });
}
