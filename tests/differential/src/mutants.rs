//! Functions that are wrong in one way each. The comparison must find every one
//! of them, in the place where it is wrong. `described` has those that come from
//! the descriptions, `hashes` the hashes of symbols; a call's own are in its module.

pub mod described;
pub mod hashes;

use crate::call::{Ask, Call, Test};
use crate::comparisons::{compare, compare_part, Part};
use crate::difference::Difference;
use crate::input::Input;
use crate::library::{by, by_tests, Function, Library};
use crate::CALLS;
use std::thread;

/// A test that these parts of the comparison find a wrong function, over a copy of what it
/// is lent: it differs as the pattern says; or in its result, as the patterns say of the
/// number expected and of the number found, whatever values go with them. `CALL` is the call.
macro_rules! found_by {
    ($parts:expr, $name:ident, $difference:pat, $body:expr) => {
        #[test]
        fn $name() {
            let body: fn(&mut $crate::input::Input) -> u64 = $body;
            let place = |d: &$crate::difference::Difference| matches!(d, $difference);
            let function = $crate::library::by(&CALL, body);
            $crate::mutants::find_in($parts, &CALL, stringify!($name), function, place).unwrap();
        }
    };
    ($parts:expr, $name:ident, $expected:pat => $found:pat, $body:expr) => {
        #[test]
        fn $name() {
            let body: fn(&mut $crate::input::Input) -> u64 = $body;
            let place = |expected, found| matches!((expected, found), ($expected, $found));
            $crate::mutants::find_number($parts, &CALL, stringify!($name), body, place).unwrap();
        }
    };
}

/// The same of all parts of the comparison.
macro_rules! wrong {
    ($($wrong:tt)*) => {
        $crate::mutants::found_by!($crate::mutants::ALL, $($wrong)*);
    };
}

/// The same of a function that is wrong at deep depths alone, which the comparisons there find.
macro_rules! wrong_deep {
    ($($wrong:tt)*) => {
        $crate::mutants::found_by!($crate::mutants::DEEP_ALONE, $($wrong)*);
    };
}

/// The same of a call that asks the test of a number otherwise.
macro_rules! wrong_test {
    ($name:ident, $number:literal, $difference:pat, $ask:expr) => {
        wrong!($name, $difference, |i| $crate::mutants::asking(i, $number, $ask));
    };
    ($name:ident, $number:literal, $expected:pat => $found:pat, $ask:expr) => {
        wrong!($name, $expected => $found, |i| $crate::mutants::asking(i, $number, $ask));
    };
}

pub(crate) use {found_by, wrong, wrong_deep, wrong_test};

/// The parts that find a function, in their order.
pub const ALL: &[Part] = &[Part::Shallow, Part::Deep];
pub const DEEP_ALONE: &[Part] = &[Part::Deep];

/// Whether the comparison finds a wrong function in its place.
pub fn find(
    call: &'static Call,
    name: &str,
    function: Function,
    place: impl Fn(&Difference) -> bool,
) -> Result<(), String> {
    find_in(ALL, call, name, function, place)
}

/// The same of these parts of the comparison.
pub fn find_in(
    parts: &[Part],
    call: &'static Call,
    name: &str,
    function: Function,
    place: impl Fn(&Difference) -> bool,
) -> Result<(), String> {
    let library = Library::right().with(call, function);
    match parts.iter().try_for_each(|&part| compare_part(call, &library, part).map(|_| ())) {
        Ok(()) => Err(format!("{}, {name}: it passed", call.name)),
        Err(failure) if place(&failure.difference) => Ok(()),
        Err(failure) => Err(format!("{}, {name}: found elsewhere, {failure}", call.name)),
    }
}

/// The same where the result is wrong, by the number expected and the number found.
pub fn find_number(
    parts: &[Part],
    call: &'static Call,
    name: &str,
    body: fn(&mut Input) -> u64,
    place: impl Fn(u64, u64) -> bool,
) -> Result<(), String> {
    find_in(parts, call, name, by(call, body), |difference| match *difference {
        Difference::Result { expected, found } => place(expected % 256, found % 256),
        _ => false,
    })
}

/// Whether a part of the comparison finds nothing wrong with a function.
pub fn pass(part: Part, call: &'static Call, name: &str, function: Function) -> Result<(), String> {
    match compare_part(call, &Library::right().with(call, function), part) {
        Ok(_) => Ok(()),
        Err(failure) => Err(format!("{}, {name}: it was found, {failure}", call.name)),
    }
}

/// A function that must pass at the shallow depths.
pub fn passes(call: &'static Call, body: impl Fn(&mut Input) -> u64 + 'static) {
    pass(Part::Shallow, call, "what is right", by(call, body)).unwrap();
}

/// A function that must pass at the deep ones.
pub fn passes_deep(call: &'static Call, body: impl Fn(&mut Input) -> u64 + 'static) {
    pass(Part::Deep, call, "what is right", by(call, body)).unwrap();
}

/// The tests of a call, one of them asked otherwise.
pub fn asked(call: &Call, number: u64, ask: Ask) -> Vec<Test> {
    let other = |test: &Test| if test.number == number { Test { ask, ..*test } } else { *test };
    call.tests.iter().map(other).collect()
}

/// What a call does that asks one of its tests otherwise.
pub fn asking(input: &mut Input, number: u64, ask: Ask) -> u64 {
    by_tests(input, &asked(input.call, number, ask))
}

/// What is wrong with every call, each asked in a thread.
fn for_every_call(wrong: fn(&'static Call) -> Vec<String>) {
    let calls: Vec<_> = CALLS.iter().map(|&call| thread::spawn(move || wrong(call))).collect();
    let wrong: Vec<String> = calls.into_iter().flat_map(|call| call.join().unwrap()).collect();
    assert!(wrong.is_empty(), "{}", wrong.join("\n"));
}

/// So the descriptions are the reference's.
#[test]
fn the_right_library_passes() {
    for_every_call(|call| {
        let failure = compare(call, &Library::right()).err();
        failure.map(|failure| failure.to_string()).into_iter().collect()
    });
}

#[test]
fn every_mutant_of_a_description_is_found() {
    for_every_call(|call| {
        let mutants = described::mutants(call);
        println!("{}: {} mutants", call.name, mutants.len());
        mutants.into_iter().filter_map(|mutant| mutant.find(call).err()).collect()
    });
}

/// So no pair of tests is called apart that the comparison tells in order.
#[test]
fn what_is_apart_is_never_asked_in_order() {
    for_every_call(|call| {
        let mutants = described::apart(call);
        mutants.into_iter().filter_map(|mutant| mutant.pass(call).err()).collect()
    });
}
