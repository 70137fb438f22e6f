//! Wrong recoders.

use super::flaws::{Flaw, Look};
use super::RECODE as CALL;
use crate::call::{Ask, Test};
use crate::difference::Difference;
use crate::input::Input;
use crate::library::{right, stopped};
use crate::mutants::hashes::{self, Place, SymbolHash};
use crate::mutants::{asking, passes, wrong, wrong_deep};
use crate::random::Random;
use crate::records::{head, kind, root};
use crate::repairs::REPAIR;
use crate::results::ended;
use crate::stops::{DEEP, DEPTHS};
use reference::kind::Kind;
use reference::record::Head;
use reference::repair::{output_len, End, Repaired};
use reference::stop::Stop;
use reference::table::{data_symbols, equations, layers_of};
use reference::tree::{base_data, block_len, committed_hash, exclusive_or, place};
use reference::tree::{symbol_at, symbols, tree_symbols, Symbol, HASH, SYMBOL};

// What is looked at.

/// Wrong ways to ask test 14, by the flaws that are seen.
pub const LOOKS: &[(&str, Ask)] = &[
    ("marks not looked at", |i| seen(i, |flaw, _| !matches!(flaw, Flaw::Absent(..)))),
    ("marks of the top not looked at", |i| seen(i, |flaw, _| !matches!(flaw, Flaw::Absent(0, _)))),
    ("marks below the top not looked at", |i| {
        seen(i, |flaw, _| !matches!(flaw, Flaw::Absent(1.., _)))
    }),
    ("marks of the base not looked at", |i| {
        seen(i, |flaw, depth| !matches!(flaw, Flaw::Absent(layer, _) if layer + 1 == depth))
    }),
    ("marks of parity not looked at", |i| {
        seen(i, |flaw, _| !matches!(flaw, Flaw::Absent(l, number) if number >= data_symbols(l)))
    }),
    ("hashes not looked at", |i| seen(i, |flaw, _| !matches!(flaw, Flaw::BadCopy(..)))),
    ("hashes of the top not looked at", |i| {
        seen(i, |flaw, _| !matches!(flaw, Flaw::BadCopy(0, _)))
    }),
    ("hashes below the top not looked at", |i| {
        seen(i, |flaw, _| !matches!(flaw, Flaw::BadCopy(1.., _)))
    }),
    ("hashes and equations of the base not looked at", |i| {
        seen(i, |flaw, depth| match flaw {
            Flaw::BadCopy(layer, _) | Flaw::Equation(layer, _) => layer + 1 < depth,
            _ => true,
        })
    }),
    ("the last hash not looked at", |i| {
        seen(i, |flaw, _| !matches!(flaw, Flaw::BadCopy(l, number) if number + 1 == symbols(l)))
    }),
    ("equations not looked at", |i| seen(i, |flaw, _| !matches!(flaw, Flaw::Equation(..)))),
    ("equations of the top not looked at", |i| {
        seen(i, |flaw, _| !matches!(flaw, Flaw::Equation(0, _)))
    }),
    ("equations below the top not looked at", |i| {
        seen(i, |flaw, _| !matches!(flaw, Flaw::Equation(1.., _)))
    }),
    ("equations of the base not looked at", |i| {
        seen(i, |flaw, depth| !matches!(flaw, Flaw::Equation(layer, _) if layer + 1 == depth))
    }),
    ("the last equation not looked at", |i| {
        seen(i, |flaw, _| match flaw {
            Flaw::Equation(layer, equation) => equation + 1 < 3 * data_symbols(layer),
            _ => true,
        })
    }),
    ("the filling not looked at", |i| seen(i, |flaw, _| flaw != Flaw::Filling)),
    ("nothing looked at", |_| Ok(())),
    ("hashes of either kind", |i| match Look::at(i) {
        Some(look) if look.is_of_other_kind() => Ok(()),
        _ => seen(i, |_, _| true),
    }),
];

/// Asks 14 by the flaws that are seen, given the depth.
fn seen(i: &Input, seen: fn(Flaw, usize) -> bool) -> Result<(), Stop> {
    let look = match Look::at(i) {
        Some(look) => look,
        None => return Ok(()),
    };
    let found = look.flaws().any(|flaw| seen(flaw, look.depth));
    if found {
        Err(Stop::NotWhole)
    } else {
        Ok(())
    }
}

// What is written.

/// Rules of a recoder, CR 7's or others.
struct Rules {
    /// The hash of a symbol of the source.
    hash: SymbolHash,
    /// The hash of a symbol of what is written.
    new_hash: SymbolHash,
    /// The kind of what is written, given the source's.
    kind: fn(Kind) -> Kind,
    /// The head that is written, given the right one.
    head: fn(Head) -> Head,
    /// Whether a layer of what is written, of so many, is that of the source; and its parity.
    copied: fn(usize, usize) -> bool,
    parity_copied: fn(usize, usize) -> bool,
}

const RULES: Rules = Rules {
    hash: hashes::RIGHT,
    new_hash: hashes::RIGHT,
    kind: Kind::other,
    head: |head| head,
    copied: |_, _| false,
    parity_copied: |_, _| false,
};

/// Recodes by these rules what nothing stops before 14.
fn recode_by(rules: &Rules, i: &mut Input) -> u64 {
    if let Some(result) = stopped(i, before_14()) {
        return result;
    }
    let (depth, kind) = (i.number("depth") as usize, kind(i).expect("a kind"));
    let equations = equations(depth as u64, &i["table"]).expect("a table");
    for (layer, equations) in equations.iter().enumerate() {
        if !is_right(rules, i, kind, layer, equations) {
            return 14;
        }
    }
    let head = head(i).expect("a head");
    let data = base_data(depth, &i["tree"]).to_vec();
    if data[head.length..].iter().any(|&byte| byte != 0) {
        return 14;
    }
    let new = (rules.kind)(kind);
    let (tree, root) = coded(rules, i, new, &equations, data);
    i["new_record"] = (rules.head)(Head { kind: new, ..head }).before(&root);
    i["new_tree"] = tree;
    i["new_marks"].fill(1);
    0
}

/// The tests before the last.
fn before_14() -> impl Iterator<Item = &'static Test> {
    CALL.tests.iter().filter(|test| test.number != 14)
}

/// Whether a layer is held, has the committed hashes, and keeps its equations.
fn is_right(rules: &Rules, i: &Input, kind: Kind, layer: usize, equations: &[Vec<usize>]) -> bool {
    let depth = i.number("depth") as usize;
    let symbol = |number: usize| symbol_at(&i["tree"], place(layer, number));
    let held = (0..symbols(layer)).all(|number| {
        let hash = (rules.hash)(kind, Place { depth, layer, number }, symbol(number));
        i["marks"][place(layer, number)] == 1
            && hash == committed_hash(root(i), &i["tree"], layer, number)
    });
    let sum = |members: &[usize]| exclusive_or(members.iter().map(|&member| symbol(member)));
    held && equations.iter().all(|members| sum(members) == [0; SYMBOL])
}

/// The tree and the root of the base's data.
fn coded(
    rules: &Rules,
    i: &Input,
    kind: Kind,
    equations: &[Vec<Vec<usize>>],
    mut data: Vec<u8>,
) -> (Vec<u8>, Vec<u8>) {
    let depth = equations.len();
    let mut tree = vec![0; SYMBOL * tree_symbols(depth)];
    for (layer, equations) in equations.iter().enumerate().rev() {
        let range = SYMBOL * place(layer, 0)..SYMBOL * place(layer + 1, 0);
        let source = &i["tree"][range.clone()];
        let mut symbols: Vec<Symbol> =
            data.chunks(SYMBOL).map(|s| s.try_into().expect("a symbol")).collect();
        for members in equations {
            let others = members[..members.len() - 1].iter().map(|&m| &symbols[m][..]);
            symbols.push(exclusive_or(others));
        }
        let mut bytes = symbols.concat();
        if (rules.copied)(layer, depth) {
            bytes.copy_from_slice(source);
        }
        if (rules.parity_copied)(layer, depth) {
            bytes[data.len()..].copy_from_slice(&source[data.len()..]);
        }
        let s = if layer == 0 { 16 } else { data_symbols(layer - 1) };
        data = vec![0; HASH * symbols.len()];
        for (number, symbol) in bytes.chunks(SYMBOL).enumerate() {
            let at = if layer == 0 {
                HASH * number
            } else {
                SYMBOL * (number % s) + HASH * (number / s)
            };
            let hash = (rules.new_hash)(kind, Place { depth, layer, number }, symbol);
            data[at..at + HASH].copy_from_slice(&hash);
        }
        tree[range].copy_from_slice(&bytes);
    }
    (tree, data)
}

#[test]
fn right_rules_pass() {
    passes(&CALL, |i| recode_by(&RULES, i));
}

/// At each deep depth, by a good call of each kind.
#[test]
fn right_rules_are_right_deep() {
    let mut random = Random::new(1024);
    for depth in DEEP..=DEPTHS.len() {
        for _ in 0..2 {
            let mut by_rules = (CALL.good)(depth, &mut random);
            let mut right = by_rules.clone();
            assert_eq!((recode_by(&RULES, &mut by_rules), (CALL.reference)(&mut right)), (0, 0));
            assert!(by_rules.buffers == right.buffers);
        }
    }
}

#[test]
fn wrong_hashes_of_the_source_are_found() {
    hashes::are_found(&CALL, |i, hash| recode_by(&Rules { hash, ..RULES }, i));
}

#[test]
fn wrong_hashes_of_what_is_written_are_found() {
    hashes::are_found(&CALL, |i, new_hash| recode_by(&Rules { new_hash, ..RULES }, i));
}

/// A test that a recoder by another rule is found, in one of these buffers.
macro_rules! other_rule {
    ($name:ident, $rule:ident: $value:expr, $buffer:pat) => {
        wrong!($name, Difference::Inside { buffer: $buffer, .. }, |i| {
            recode_by(&Rules { $rule: $value, ..RULES }, i)
        });
    };
}

// Kinds.

other_rule!(kind_of_the_source, kind: |kind| kind, "new_tree" | "new_record");
other_rule!(always_placed, kind: |_| Kind::Placed, "new_tree" | "new_record");
other_rule!(always_plain, kind: |_| Kind::Plain, "new_tree" | "new_record");
other_rule!(kind_of_the_source_in_the_record,
    head: |head| Head { kind: head.kind.other(), ..head }, "new_record");

// The record.

other_rule!(length_of_the_longest_block,
    head: |head| Head { length: block_len(head.depth), ..head }, "new_record");
other_rule!(no_length, head: |head| Head { length: 0, ..head }, "new_record");
other_rule!(no_table, head: |head| Head { words: 0, hash: [0; HASH], ..head }, "new_record");
other_rule!(count_without_the_end_word,
    head: |head| Head { words: head.words - 1, ..head }, "new_record");

wrong!(root_of_the_source, Difference::Inside { buffer: "new_record", .. }, |i| {
    after_done(i, |i| {
        let root = root(i).to_vec();
        i["new_record"].splice(reference::record::HEAD.., root);
    })
});

wrong!(record_of_the_source, Difference::Inside { buffer: "new_record", .. }, |i| {
    after_done(i, |i| i["new_record"] = i["record"].clone())
});

// The tree.

other_rule!(tree_of_the_source, copied: |_, _| true, "new_tree" | "new_record");
other_rule!(top_of_the_source, copied: |layer, depth| layer == 0 && depth > 1, "new_tree");
other_rule!(parity_of_the_source, parity_copied: |_, _| true, "new_tree");
other_rule!(parity_of_the_source_above_the_base,
    parity_copied: |layer, depth| layer + 1 < depth, "new_tree");

wrong!(only_the_record_recoded, Difference::Inside { buffer: "new_tree", .. }, |i| {
    after_done(i, |i| i["new_tree"] = i["tree"].clone())
});

wrong!(top_rehashed_alone, Difference::Inside { buffer: "new_tree", .. }, |i| {
    after_done(i, |i| {
        let below = SYMBOL * place(1, 0);
        let source = i["tree"][below..].to_vec();
        i["new_tree"][below..].copy_from_slice(&source);
    })
});

/// `right`, and then this, where it is done.
fn after_done(i: &mut Input, change: impl Fn(&mut Input)) -> u64 {
    let result = right(i);
    if result == 0 {
        change(i);
    }
    result
}

// Repairs.

/// What a repair of copies comes to, and the call with what it leaves.
fn repaired(i: &Input) -> Option<(Repaired, Input)> {
    let output = vec![0; output_len(layers_of(i.number("depth")).ok()?)];
    let buffers = ["record", "table", "tree", "marks"].map(|name| i[name].clone());
    let [record, table, tree, marks] = buffers;
    let mut lent = Input::new(&REPAIR, [i.number("depth")], [record, table, tree, marks, output]);
    let end = ended((REPAIR.reference)(&mut lent))?;
    let mut left = i.clone();
    (left["tree"], left["marks"]) = (lent["tree"].clone(), lent["marks"].clone());
    Some((end, left))
}

/// Recodes what a repair leaves, where it ends so.
fn repairing_first(i: &mut Input, ends: fn(Repaired) -> bool) -> u64 {
    if let Some(result) = stopped(i, before_14()) {
        return result;
    }
    match repaired(i) {
        Some((end, mut left)) if ends(end) => {
            let result = right(&mut left);
            for written in ["new_tree", "new_marks", "new_record"] {
                i[written] = left[written].clone();
            }
            result
        }
        _ => 14,
    }
}

wrong!(repairs_first, 14 => 0, |i| repairing_first(i, |end| end.end == End::Whole));

wrong!(stores_one_symbol_first, 14 => 0, |i| {
    repairing_first(i, |end| end.end == End::Whole && end.stored < 2)
});

wrong!(accepts_13, 14 => 0, |i| asking(i, 14, |i| match repaired(i) {
    Some((Repaired { end: End::Whole | End::Misfilled, stored: 0 }, _)) => Ok(()),
    _ => Err(Stop::NotWhole),
}));

wrong!(repairs_the_source, Difference::Inside { buffer: "tree" | "marks", .. }, |i| {
    let result = right(i);
    if result == 14 {
        if let Some((_, left)) = repaired(i) {
            (i["tree"], i["marks"]) = (left["tree"].clone(), left["marks"].clone());
        }
    }
    result
});

// What stops it.

/// What is written where 14 stops the call.
fn written_before_14(i: &mut Input, written: &[&str], bytes: fn(&mut Input, &str)) -> u64 {
    let result = right(i);
    if result == 14 {
        written.iter().for_each(|buffer| bytes(i, buffer));
    }
    result
}

wrong!(tree_cleared_before_14, Difference::Inside { buffer: "new_tree", .. }, |i| {
    written_before_14(i, &["new_tree"], |i, buffer| i[buffer].fill(0))
});

wrong!(marks_written_before_14, Difference::Inside { buffer: "new_marks", .. }, |i| {
    written_before_14(i, &["new_marks"], |i, buffer| i[buffer].fill(1))
});

wrong!(record_written_before_14, Difference::Inside { buffer: "new_record", .. }, |i| {
    written_before_14(i, &["new_record"], |i, buffer| {
        let head = head(i).expect("a head");
        i[buffer]
            .splice(..reference::record::HEAD, Head { kind: head.kind.other(), ..head }.bytes());
    })
});

wrong!(base_written_before_14, Difference::Inside { buffer: "new_tree", .. }, |i| {
    written_before_14(i, &["new_tree"], |i, buffer| {
        let base = SYMBOL * place(i.number("depth") as usize - 1, 0);
        let source = i["tree"][base..].to_vec();
        i[buffer][base..].copy_from_slice(&source);
    })
});

wrong!(end_in_the_place_of_14, 14 => _, |i| match (right(i), repaired(i)) {
    (14, Some((Repaired { end: End::Misfilled, .. }, _))) => 13,
    (result, _) => result,
});

wrong!(layer_beside_14, 14 => 14, |i| match (right(i), Look::at(i)) {
    (14, Some(look)) => match look.flaws().next() {
        Some(Flaw::Absent(layer, _) | Flaw::BadCopy(layer, _) | Flaw::Equation(layer, _)) => {
            14 + 256 * layer as u64
        }
        _ => 14,
    },
    (result, _) => result,
});

wrong!(absent_as_9, 14 => 9, |i| match (right(i), i["marks"].contains(&0)) {
    (14, true) => 9,
    (result, _) => result,
});

wrong!(other_kind_as_7, 14 => 7, |i| match (right(i), Look::at(i)) {
    (14, Some(look)) if look.is_of_other_kind() => 7,
    (result, _) => result,
});

// Deep trees.

wrong_deep!(length_of_16_bits, Difference::Inside { buffer: "new_record", .. }, |i| {
    recode_by(&Rules { head: |head| Head { length: head.length & 0xffff, ..head }, ..RULES }, i)
});

wrong_deep!(marks_by_12_bits, Difference::Inside { buffer: "new_marks", .. }, |i| {
    let before = i["new_marks"].clone();
    after_done(i, |i| {
        (4096..before.len()).for_each(|place| i["new_marks"][place] = before[place]);
    })
});

wrong_deep!(places_of_12_bits, 14 => 0, |i| {
    // Symbols from place 4096 on are not looked at.
    let looked = |i: &Input| {
        let beyond = |layer: usize, number: usize| place(layer, number) >= 4096;
        let look = match Look::at(i) {
            Some(look) => look,
            None => return Ok(()),
        };
        let found = look.flaws().any(|flaw| match flaw {
            Flaw::Absent(layer, number) | Flaw::BadCopy(layer, number) => !beyond(layer, number),
            Flaw::Equation(layer, _) => layer < 8,
            Flaw::Filling => true,
        });
        if found { Err(Stop::NotWhole) } else { Ok(()) }
    };
    asking(i, 14, looked)
});

wrong_deep!(equations_of_layer_8_not_looked_at, 14 => 0, |i| {
    asking(i, 14, |i| {
        seen(i, |flaw, _| !matches!(flaw, Flaw::Equation(8, _)))
    })
});

wrong_deep!(table_cut_at_16384_bytes, 0 => 3, |i| {
    let mut cut = i.clone();
    cut["table"].truncate(16_384);
    let result = right(&mut cut);
    for written in ["new_tree", "new_marks", "new_record"] {
        i[written] = cut[written].clone();
    }
    result
});
