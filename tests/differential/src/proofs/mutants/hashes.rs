//! Wrong hashes, and wrong members.

use crate::difference::Difference;
use crate::input::Input;
use crate::library::{right, stopped};
use crate::mutants::hashes::{self, Place, SymbolHash};
use crate::mutants::{passes, wrong, wrong_deep};
use crate::proofs::PROOF_CHECK as CALL;
use crate::records::{kind, root};
use crate::results::number;
use reference::kind::Kind;
use reference::proof::{hash_for, Head, HEAD};
use reference::record;
use reference::sha256::sha256;
use reference::stop::Stop;
use reference::table::{equations, house_equation};
use reference::tree::{exclusive_or, symbol_at, HASH, ROOT};
use std::ops::Range;

/// A hash to be compared: that of which symbol of the proof.
pub struct Look<'a> {
    pub head: Head,
    pub members: &'a [usize],
    /// The layer and the number of each symbol of the proof.
    pub symbols: &'a [(usize, usize)],
    pub index: usize,
}

impl Look<'_> {
    pub fn layer(&self) -> usize {
        self.symbols[self.index].0
    }

    /// Whether the symbol is a member, and not one of a path.
    pub fn is_member(&self) -> bool {
        self.layer() == self.head.layer
    }

    pub fn position(&self) -> usize {
        self.index / (self.head.layer + 1)
    }

    pub fn on_withheld_path(&self) -> bool {
        self.position() == self.members.len() - 1
    }
}

/// Rules of a check, those of the papers or others.
pub struct Rules {
    /// The hash of a symbol, and that of the exclusive-or for the withheld one, given the members.
    pub hash: SymbolHash,
    pub sum: fn(Kind, Place, &[usize], &[u8]) -> [u8; HASH],
    /// The symbols whose hashes are not compared.
    pub skipped: fn(&Look) -> bool,
    /// The bytes of the others' hashes that are compared.
    pub compared: Range<usize>,
    /// The members of the equation that the head names, given the table's.
    pub members: fn(Head, Vec<usize>) -> Vec<usize>,
    /// The index in the proof of the symbol with the withheld member's hash,
    /// given the index of its path and the height of a member with its path.
    pub withheld_in: fn(usize, usize) -> usize,
    /// The bytes of the withheld member's hash that are compared.
    pub withheld: Range<usize>,
    /// Whether that comparison comes first.
    pub fault_first: bool,
    /// The layer and the position that are named, given the hashes that do not fit.
    pub named: fn(&[Look]) -> (usize, usize),
}

pub const RULES: Rules = Rules {
    hash: hashes::RIGHT,
    sum: |kind, at, _, symbol| kind.hash(at.layer, at.number, symbol),
    skipped: |_| false,
    compared: 0..HASH,
    members: |_, members| members,
    withheld_in: |path, _| path,
    withheld: 0..HASH,
    fault_first: false,
    named: |broken| (broken[0].layer(), broken[0].position()),
};

/// Checks by these rules a proof of the right form.
pub fn check_by(rules: &Rules, i: &mut Input) -> u64 {
    let in_form = CALL.tests.iter().filter(|test| !matches!(test.number, 7 | 8));
    if let Some(result) = stopped(i, in_form) {
        return result;
    }
    let (kind, root, given) = (kind(i).expect("a kind"), root(i), &i["proof"][HEAD..]);
    let equations = equations(i.number("depth"), &i["table"]).expect("a table");
    let head = Head::read(&equations, &i["proof"]).expect("a head");
    let members = (rules.members)(head, equations[head.layer][head.equation].clone());
    let height = head.layer + 1;
    let others = (0..members.len() - 1).map(|other| symbol_at(given, other * height));
    let path = (rules.withheld_in)((members.len() - 1) * height, height);
    let at = Place { depth: equations.len(), layer: head.layer, number: head.withheld };
    let sum = (rules.sum)(kind, at, &members, &exclusive_or(others));
    let committed = hash_for(root, given, head.layer, head.withheld, path);
    let fault = sum[rules.withheld.clone()] != committed[rules.withheld.clone()];
    if rules.fault_first && !fault {
        return 8;
    }
    let symbols = head.symbols(&members);
    let looks =
        (0..symbols.len()).map(|index| Look { head, members: &members, symbols: &symbols, index });
    let tree = (kind, equations.len());
    let broken: Vec<Look> = looks.filter(|look| breaks(rules, tree, root, given, look)).collect();
    if !broken.is_empty() {
        let (layer, position) = (rules.named)(&broken);
        return number(Err(Stop::Hash { layer, position: Some(position) }));
    }
    if fault {
        0
    } else {
        8
    }
}

/// Whether a hash is compared, and does not fit, in a tree of a kind and a depth.
fn breaks(
    rules: &Rules,
    (kind, depth): (Kind, usize),
    root: &[u8],
    given: &[u8],
    look: &Look,
) -> bool {
    let (layer, symbol) = look.symbols[look.index];
    let place = Place { depth, layer, number: symbol };
    let hash = (rules.hash)(kind, place, symbol_at(given, look.index));
    let expected = hash_for(root, given, layer, symbol, look.index + 1);
    let compared = rules.compared.clone();
    !(rules.skipped)(look) && hash[compared.clone()] != expected[compared]
}

#[test]
fn right_rules_pass() {
    passes(&CALL, |i| check_by(&RULES, i));
}

// Kinds.

#[test]
fn wrong_hashes_are_found() {
    hashes::are_found(&CALL, |i, hash| check_by(&Rules { hash, ..RULES }, i));
}

wrong!(withheld_hashed_without_a_place, 8 => 0, |i| {
    check_by(&Rules { sum: |_, _, _, symbol| sha256(symbol), ..RULES }, i)
});

wrong!(withheld_hashed_with_the_first_members_place, 8 => 0, |i| {
    check_by(
        &Rules { sum: |kind, at, members, symbol| kind.hash(at.layer, members[0], symbol), ..RULES },
        i,
    )
});

wrong!(withheld_hashed_with_the_last_members_place, 8 => 0, |i| {
    let sum: fn(Kind, Place, &[usize], &[u8]) -> [u8; HASH] =
        |kind, at, members, symbol| kind.hash(at.layer, members[members.len() - 1], symbol);
    check_by(&Rules { sum, ..RULES }, i)
});

wrong!(withheld_hashed_with_the_layer_above, 8 => 0, |i| {
    let sum: fn(Kind, Place, &[usize], &[u8]) -> [u8; HASH] =
        |kind, at, _, symbol| kind.hash(at.layer.saturating_sub(1), at.number, symbol);
    check_by(&Rules { sum, ..RULES }, i)
});

// Hashes.

wrong!(no_hash_compared, 7 => 0 | 8, |i| {
    check_by(&Rules { skipped: |_| true, ..RULES }, i)
});

wrong!(withheld_path_unchecked, 7 => 0 | 8, |i| {
    check_by(&Rules { skipped: |look| look.on_withheld_path(), ..RULES }, i)
});

wrong!(top_of_withheld_path_unchecked, 7 => 0 | 8, |i| {
    check_by(&Rules { skipped: |look| look.on_withheld_path() && look.layer() == 0, ..RULES }, i)
});

wrong!(middle_of_withheld_path_unchecked, 7 => 0 | 8, |i| {
    check_by(&Rules { skipped: |look| look.on_withheld_path() && look.layer() == 2, ..RULES }, i)
});

wrong!(members_unchecked, 7 => 0 | 8, |i| {
    check_by(&Rules { skipped: |look| look.is_member(), ..RULES }, i)
});

wrong!(last_given_member_unchecked, 7 => 0 | 8, |i| {
    let skipped: fn(&Look) -> bool =
        |look| look.is_member() && look.position() == look.members.len() - 2;
    check_by(&Rules { skipped, ..RULES }, i)
});

wrong!(eighth_member_unchecked, 7 => 0, |i| {
    check_by(
        &Rules {
            skipped: |look| look.position() == 6 && look.members.len() == 8,
            ..RULES
        },
        i,
    )
});

wrong!(paths_unchecked, 7 => 0 | 8, |i| {
    check_by(&Rules { skipped: |look| !look.is_member(), ..RULES }, i)
});

wrong!(root_unchecked, 7 => 0 | 8, |i| {
    check_by(&Rules { skipped: |look| look.layer() == 0, ..RULES }, i)
});

wrong!(one_layer_unchecked, 7 => 0 | 7 | 8, |i| {
    check_by(&Rules { skipped: |look| look.layer() == 3, ..RULES }, i)
});

wrong!(last_byte_of_a_hash_unchecked, 7 => 0 | 8, |i| {
    check_by(&Rules { compared: 0..HASH - 1, ..RULES }, i)
});

wrong!(root_at_the_start_of_the_record, Difference::Result { .. }, |i| {
    let mut seen = i.clone();
    if matches!(right(i) % 256, 0 | 7 | 8) {
        seen["record"].copy_within(..ROOT, record::HEAD);
    }
    right(&mut seen)
});

// The withheld member.

wrong!(withheld_hash_from_the_first_path, Difference::Result { .. }, |i| {
    check_by(&Rules { withheld_in: |_, height| height.min(2) - 1, ..RULES }, i)
});

wrong!(withheld_hash_from_the_last_given_path, Difference::Result { .. }, |i| {
    let last = |path: usize, height: usize| if height > 1 { path + 1 - height } else { path };
    check_by(&Rules { withheld_in: last, ..RULES }, i)
});

wrong!(last_byte_of_the_withheld_hash, Difference::Result { expected: 0, found: 8 }, |i| {
    check_by(&Rules { withheld: 0..HASH - 1, ..RULES }, i)
});

wrong!(first_byte_of_the_withheld_hash, Difference::Result { expected: 0, found: 8 }, |i| {
    check_by(&Rules { withheld: 1..HASH, ..RULES }, i)
});

wrong!(no_fault_before_hashes, 7 => 8, |i| {
    check_by(&Rules { fault_first: true, ..RULES }, i)
});

// Members.

wrong!(members_of_the_house_table, Difference::Result { .. }, |i| {
    let members = |head: Head, members: Vec<usize>| {
        let house = house_equation(4 << head.layer, head.equation);
        let alike = house.len() == members.len() && house.contains(&head.withheld);
        if alike {
            house
        } else {
            members
        }
    };
    check_by(&Rules { members, ..RULES }, i)
});

wrong!(members_descending, Difference::Result { .. }, |i| {
    let members = |_: Head, members: Vec<usize>| members.into_iter().rev().collect();
    check_by(&Rules { members, ..RULES }, i)
});

// Answers.

wrong!(every_proof_turned_down, Difference::Result { expected: 0, found: 8 }, |i| {
    match right(i) {
        0 => 8,
        r => r,
    }
});

wrong!(every_proof_of_a_lower_layer_turned_down, Difference::Result { expected: 0, .. }, |i| {
    match right(i) {
        0 if i["proof"][3] > 0 => 7,
        r => r,
    }
});

wrong!(no_fault_accepted, Difference::Result { expected: 8, found: 0 }, |i| match right(i) {
    8 => 0,
    r => r,
});

// Deep trees.

wrong_deep!(layer_7_unchecked, 7 => 0 | 7 | 8, |i| {
    check_by(&Rules { skipped: |look| look.layer() == 7, ..RULES }, i)
});

wrong_deep!(end_of_the_longest_path_unchecked, 7 => 0 | 8, |i| {
    let end: fn(&Look) -> bool =
        |look| look.head.layer == 8 && look.on_withheld_path() && look.layer() == 0;
    check_by(&Rules { skipped: end, ..RULES }, i)
});

wrong_deep!(layer_beside_7_of_3_bits, 7 => 7, |i| match right(i) {
    result if result % 256 == 7 => result & !(8 << 8),
    result => result,
});

wrong_deep!(withheld_in_layer_8_from_the_last_given_path, Difference::Result { .. }, |i| {
    let last = |path: usize, height: usize| if height == 9 { path + 1 - height } else { path };
    check_by(&Rules { withheld_in: last, ..RULES }, i)
});
