//! Wrong repairers in the place of the call, in series of repairs that hold more and more. There
//! is no reference beside them: what a series promises must find each.

use super::filling::ending;
use super::rules::{repair_by, Rules, RULES};
use crate::call::Call;
use crate::comparisons::Comparisons;
use crate::input::Input;
use crate::library::{by, right, Library};
use crate::random::Random;
use crate::repairs::nested::property::{places, Broken};
use crate::repairs::nested::{more_held, series_at, Series};
use crate::repairs::REPAIR;
use crate::results::{ended, repaired};
use reference::repair::{End, Repaired};
use reference::tree::{symbol_at, SYMBOL};
use std::collections::BTreeSet;

/// How many series are made at a depth, at the most.
const MOST: usize = 24;

/// What series at these depths don't keep by a repairer.
fn broken_by(depths: &[usize], repairer: fn(&mut Input) -> u64) -> BTreeSet<Broken> {
    let mut broken = BTreeSet::new();
    for &depth in depths {
        for turn in 0..series_at(depth).min(MOST) {
            let mut random = Random::new((depth << 16 | turn) as u64);
            let series = Series::made(depth, turn, &mut random, |input| {
                let mut after = input.clone();
                let result = repairer(&mut after);
                Ok((after, result))
            });
            broken.extend(series.expect("no failure").broken());
        }
    }
    broken
}

#[test]
fn right_repairers_keep_all() {
    assert_eq!(broken_by(&[1, 2, 3, 4, 6], right), BTreeSet::new());
    assert_eq!(broken_by(&[1, 2, 3, 4, 6], |i| repair_by(&RULES, i)), BTreeSet::new());
}

/// Where the reference is wrong as the call is, what the series promise finds it.
#[test]
#[should_panic(expected = "at depth 1")]
fn a_reference_that_is_wrong_alike() {
    let wrong: fn(&mut Input) -> u64 =
        |i| where_more_is_held(i, 4, &Rules { passed_over: |k, e, _| e == k, ..RULES });
    let call = Call { reference: wrong, also: |_, _, _, _| Ok(()), ..REPAIR };
    let call: &'static Call = Box::leak(Box::new(call));
    let library = Library::right().with(call, by(call, wrong));
    more_held(&mut Comparisons::of(call, &library, Random::new(1))).expect("no difference");
}

/// A test that a wrong repairer does not keep these promises, whatever else it does not keep.
macro_rules! breaks {
    ($name:ident, [$($promise:ident),+], $repairer:expr) => {
        breaks!($name, [1, 2, 3], [$($promise),+], $repairer);
    };
    ($name:ident, $depths:expr, [$($promise:ident),+], $repairer:expr) => {
        #[test]
        fn $name() {
            let broken = broken_by(&$depths, $repairer);
            for promise in [$(Broken::$promise),+] {
                assert!(broken.contains(&promise), "{promise:?} is kept, and not {broken:?}");
            }
        }
    };
}

/// Whether more than so many eighths of the tree are held.
fn is_more(i: &Input, eighths: usize) -> bool {
    8 * i["marks"].iter().filter(|&&mark| mark == 1).count() > eighths * i["marks"].len()
}

/// Repairs by other rules where more than so many eighths are held.
fn where_more_is_held(i: &mut Input, eighths: usize, other: &Rules) -> u64 {
    let rules = if is_more(i, eighths) { other } else { &RULES };
    repair_by(rules, i)
}

/// `right`, and then a change to what it left, by what it was lent and how it ended.
fn changed(i: &mut Input, change: fn(&Input, &mut Input, Repaired)) -> u64 {
    ending(i, |before, i, repair| {
        change(before, i, repair);
        None
    })
}

/// Takes away what a repair left at a place.
fn forget(i: &mut Input, place: usize) {
    i["marks"][place] = 0;
    i["tree"][SYMBOL * place..SYMBOL * (place + 1)].fill(0);
}

// Steps.

breaks!(equation_passed_over_where_more_is_held, [Complete, Held, Layer, Marks], |i| {
    repair_by(&Rules { passed_over: |k, e, held| e == k && held > 2 * k, ..RULES }, i)
});

breaks!(equations_passed_over_where_more_is_held, [Complete, Nearer, Missing, Held], |i| {
    where_more_is_held(i, 4, &Rules { passed_over: |_, e, _| e % 3 == 1, ..RULES })
});

breaks!(equations_passed_over_where_more_is_held_deep_down, [6, 7], [Complete, Held, Layer], |i| {
    where_more_is_held(i, 7, &Rules { passed_over: |k, e, _| k >= 32 && e % 8 == 5, ..RULES })
});

breaks!(gaps_looked_at_first_where_more_is_held, [Nearer, Complete, Layer, Marks], |i| {
    where_more_is_held(i, 4, &Rules { gaps_first: true, ..RULES })
});

breaks!(right_bytes_under_mark_0_held, [Alike, Layer, Marks, Stored], |i| {
    repair_by(&Rules { right_bytes_held: true, ..RULES }, i)
});

breaks!(goes_on_past_an_unavailable_layer, [Marks], |i| {
    repair_by(&Rules { past_unavailable: true, ..RULES }, i)
});

breaks!(top_layer_only_and_the_rest_marked, [Symbol, Tree], |i| {
    repair_by(&Rules { layers: 1, ..RULES }, i)
});

// Ends.

breaks!(misfilled_only_where_nothing_was_stored, [Complete, Filling], |i| {
    ending(i, |_, _, repair| match repair {
        Repaired { end: End::Misfilled, stored: 1.. } => Some(End::Whole),
        _ => None,
    })
});

breaks!(misfilled_only_where_something_was_stored, [Complete, Filling, Turns], |i| {
    ending(i, |_, _, repair| match repair {
        Repaired { end: End::Misfilled, stored: 0 } => Some(End::Whole),
        _ => None,
    })
});

breaks!(fault_in_a_complete_layer, [End, Complete], |i| {
    ending(i, |_, _, repair| match repair {
        Repaired { end: End::Whole, stored: 0 } => Some(End::Fault(780)),
        _ => None,
    })
});

breaks!(twins_in_a_complete_layer, [End, Complete], |i| {
    ending(i, |_, _, repair| match repair {
        Repaired { end: End::Misfilled, stored: 0 } => Some(End::Twins(None)),
        _ => None,
    })
});

breaks!(whole_volumes_refused, [End, Complete], |i| match right(i) {
    0 => 2,
    result => result,
});

breaks!(layer_above_reported_where_more_is_held, [Nearer, Layer], |i| {
    ending(i, |before, _, repair| match repair.end {
        End::Unavailable(layer) if is_more(before, 4) => {
            Some(End::Unavailable(layer.saturating_sub(1)))
        }
        _ => None,
    })
});

breaks!(unavailable_where_nothing_was_stored, [Turns, Layer], |i| {
    ending(i, |_, _, repair| match repair {
        Repaired { end: End::Whole, stored: 0 } => Some(End::Unavailable(0)),
        _ => None,
    })
});

// What is left.

breaks!(lent_page_lost, [Marks, Held], |i| {
    changed(i, |before, i, _| {
        let last = before["marks"].iter().rposition(|&mark| mark == 1);
        last.filter(|_| is_more(before, 4)).into_iter().for_each(|place| forget(i, place));
    })
});

breaks!(page_of_the_stopping_layer_lost_where_more_is_held, [Missing, Held, Marks], |i| {
    changed(i, |before, i, repair| {
        if let End::Unavailable(layer) = repair.end {
            let held = places(layer).find(|&place| i["marks"][place] == 1);
            held.filter(|_| is_more(before, 4)).into_iter().for_each(|place| forget(i, place));
        }
    })
});

breaks!(other_bytes_stored, [Symbol, Tree], |i| {
    changed(i, |before, i, _| {
        let stored = |&place: &usize| before["marks"][place] < i["marks"][place];
        let last = (0..i["marks"].len()).rev().find(stored);
        last.into_iter().for_each(|place| i["tree"][SYMBOL * place + 255] ^= 1);
    })
});

// The symbols stored.

/// `right`, with another number of symbols stored, by what it was lent and left.
fn stored_as(i: &mut Input, other: fn(&Input, &Input, usize) -> usize) -> u64 {
    let before = i.clone();
    let result = right(i);
    let other = |repair: Repaired| Repaired { stored: other(&before, i, repair.stored), ..repair };
    ended(result).map_or(result, |repair| repaired(Ok(other(repair))))
}

breaks!(right_bytes_not_counted, [Stored, Alike], |i| {
    stored_as(i, |before, after, _| {
        let [lent, left] = [before, after].map(|input| (&input["marks"], &input["tree"]));
        let stored = (0..lent.0.len()).filter(|&place| lent.0[place] < left.0[place]);
        stored.filter(|&place| symbol_at(lent.1, place) != symbol_at(left.1, place)).count()
    })
});

breaks!(stored_by_the_output, [Stored, Alike], |i| {
    stored_as(i, |before, _, stored| stored + usize::from(before["output"][0] % 2))
});
