//! What every repair promises, whatever it was lent: asked of the buffers
//! themselves, without the steps.

use crate::input::Input;
use crate::records::{head, kind, root};
use reference::repair::{End, Repaired};
use reference::table::equations;
use reference::tree::SYMBOL;
use reference::tree::{base_data, committed_hash, exclusive_or, place, symbol_at, symbols};

/// Asserts what 01 says of the buffers after a repair.
pub fn hold(before: &Input, after: &Input, Repaired { end, stored }: Repaired) {
    let layers = equations(before.number("depth"), &before["table"]).expect("a table");
    let last = match end {
        End::Whole | End::Misfilled => layers.len() - 1,
        End::Fault(_) => usize::from(after["output"][3]),
        End::Unavailable(layer) => layer,
        End::Twins(_) => panic!("two symbols of equal hash"),
    };
    let mut filled = 0;
    for (layer, equations) in layers.iter().enumerate().take(last + 1) {
        let entered = Entered { before, after, layer };
        let (gaps, missing) = (entered.gaps(), entered.missing());
        entered.places_hold(&gaps);
        filled += gaps.iter().zip(&missing).filter(|&(&gap, &missing)| gap && !missing).count();
        if layer < last || matches!(end, End::Whole | End::Misfilled) {
            assert!(!missing.contains(&true), "layer {layer} is not complete");
            assert!(equations.iter().all(|members| entered.holds(members)));
        }
        if end == End::Unavailable(layer) {
            assert!(missing.contains(&true), "layer {layer} is complete");
            assert_eq!(missing, largest_stopping_set(equations, gaps));
        }
    }
    assert_eq!(filled, stored, "the gaps now held");
    if matches!(end, End::Whole | End::Misfilled) {
        let length = head(before).expect("a head").length;
        let filling = &base_data(layers.len(), &after["tree"])[length..];
        let other = filling.iter().any(|&byte| byte != 0);
        assert_eq!(other, end == End::Misfilled, "what fills up the block");
    }
    let below = place(last + 1, 0);
    assert!(before["tree"][SYMBOL * below..] == after["tree"][SYMBOL * below..]);
    assert!(before["marks"][below..] == after["marks"][below..]);
}

/// The largest set within gaps that no equation meets exactly once.
pub fn largest_stopping_set(equations: &[Vec<usize>], gaps: Vec<bool>) -> Vec<bool> {
    let mut set = gaps;
    loop {
        let before = set.iter().filter(|&&in_set| in_set).count();
        for members in equations {
            let mut met = members.iter().copied().filter(|&member| set[member]);
            if let (Some(once), None) = (met.next(), met.next()) {
                set[once] = false;
            }
        }
        if set.iter().filter(|&&in_set| in_set).count() == before {
            return set;
        }
    }
}

/// A layer that the repair entered.
struct Entered<'a> {
    before: &'a Input,
    after: &'a Input,
    layer: usize,
}

impl Entered<'_> {
    /// For each symbol, whether it was lent absent or with another hash than
    /// the committed one.
    fn gaps(&self) -> Vec<bool> {
        let lent = |symbol| symbol_at(&self.before["tree"], place(self.layer, symbol));
        (0..symbols(self.layer))
            .map(|symbol| {
                let mark = self.before["marks"][place(self.layer, symbol)];
                mark == 0 || !self.fits(symbol, lent(symbol))
            })
            .collect()
    }

    fn missing(&self) -> Vec<bool> {
        let places = place(self.layer, 0)..place(self.layer + 1, 0);
        self.after["marks"][places].iter().map(|&mark| mark == 0).collect()
    }

    /// A symbol that is no gap is as it was; another is absent and zero, or
    /// has the committed hash.
    fn places_hold(&self, gaps: &[bool]) {
        for (symbol, gap) in gaps.iter().enumerate() {
            let place = place(self.layer, symbol);
            let now = symbol_at(&self.after["tree"], place);
            match (gap, self.after["marks"][place]) {
                (false, mark) => {
                    assert!(mark == 1 && now == symbol_at(&self.before["tree"], place))
                }
                (true, 0) => assert!(now.iter().all(|&byte| byte == 0)),
                (true, _) => assert!(self.fits(symbol, now)),
            }
        }
    }

    fn fits(&self, symbol: usize, bytes: &[u8]) -> bool {
        let (root, tree) = (root(self.after), &self.after["tree"]);
        let kind = kind(self.after).expect("a kind");
        kind.hash(self.layer, symbol, bytes) == committed_hash(root, tree, self.layer, symbol)
    }

    fn holds(&self, members: &[usize]) -> bool {
        let symbol = |&member: &usize| symbol_at(&self.after["tree"], place(self.layer, member));
        exclusive_or(members.iter().map(symbol)).iter().all(|&byte| byte == 0)
    }
}

#[cfg(test)]
mod tests {
    use super::*;
    use crate::random::Random;
    use crate::records::{put_value, LENGTH};
    use crate::repairs::{lose, of, REPAIR};
    use crate::results::ended;
    use crate::volumes::Volume;
    use reference::kind::Kind;
    use reference::table::house;

    /// A tree of depth 2 with losses, before and after its repair, which
    /// leaves the stopping set of 01's case 5.
    fn repaired() -> (Input, Input, Repaired) {
        let mut random = Random::new(1);
        let volume = Volume::new(2, &house(2), &mut random);
        let mut before = of(&volume, &mut random);
        for symbol in [0, 4, 5, 6, 8, 9, 12, 15] {
            lose(&mut before, 0, symbol, &mut random);
        }
        let mut after = before.clone();
        let result = ended((REPAIR.reference)(&mut after)).expect("a repair");
        assert_eq!(result, Repaired { end: End::Unavailable(0), stored: 1 });
        (before, after, result)
    }

    #[test]
    fn the_reference_keeps_them() {
        let (before, after, result) = repaired();
        hold(&before, &after, result);
    }

    #[test]
    #[should_panic(expected = "the gaps now held")]
    fn another_number_stored() {
        let (before, after, result) = repaired();
        hold(&before, &after, Repaired { stored: 2, ..result });
    }

    #[test]
    #[should_panic(expected = "left == right")]
    fn more_missing_than_the_largest_set() {
        let (before, mut after, result) = repaired();
        after["marks"][15] = 0;
        after["tree"][15 * SYMBOL..16 * SYMBOL].fill(0);
        hold(&before, &after, Repaired { stored: 0, ..result });
    }

    #[test]
    #[should_panic(expected = "layer 0 is not complete")]
    fn whole_with_gaps() {
        let (before, after, _) = repaired();
        hold(&before, &after, Repaired { end: End::Whole, stored: 1 });
    }

    /// A whole tree of depth 2, of whose block the record says this length.
    fn whole(length: u32) -> (Input, Input) {
        let mut random = Random::new(2);
        let volume = Volume::filled_with(Kind::Placed, 2, &house(2), &[], &mut random);
        let mut before = of(&volume, &mut random);
        put_value(&mut before, LENGTH, length);
        let mut after = before.clone();
        (REPAIR.reference)(&mut after);
        (before, after)
    }

    #[test]
    #[should_panic(expected = "what fills up the block")]
    fn whole_with_another_filling() {
        let (before, after) = whole(2047);
        hold(&before, &after, Repaired { end: End::Misfilled, stored: 0 });
        hold(&before, &after, Repaired { end: End::Whole, stored: 0 });
    }

    #[test]
    #[should_panic(expected = "what fills up the block")]
    fn misfilled_without_a_filling() {
        let (before, after) = whole(2048);
        hold(&before, &after, Repaired { end: End::Whole, stored: 0 });
        hold(&before, &after, Repaired { end: End::Misfilled, stored: 0 });
    }

    #[test]
    #[should_panic]
    fn a_lower_layer_touched() {
        let (before, mut after, result) = repaired();
        after["marks"][20] = 0;
        hold(&before, &after, result);
    }
}
