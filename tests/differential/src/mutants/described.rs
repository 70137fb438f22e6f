//! Wrong functions that a description gives.

use crate::call::{Call, Length, Test};
use crate::comparisons::Part;
use crate::difference::Difference;
use crate::input::Input;
use crate::library::{buffers, by, by_tests, right, Function};
use crate::mutants::{asked, find_in, pass, ALL, DEEP_ALONE};
use crate::results::number;
use crate::stops::DEEP;
use cedunmi_sys::Word;
use std::rc::Rc;

/// The place of a byte to change, by the length of the buffer.
pub type At = fn(isize) -> Option<isize>;

const FIRST: At = |len| (len > 0).then_some(0);
const LAST: At = |len| (len > 0).then_some(len - 1);
const INSIDE: [(&str, At); 2] = [("first", FIRST), ("last", LAST)];
const OUTSIDE: [(&str, At); 2] = [("before", |_| Some(-1)), ("after", |len| Some(len))];

pub struct Mutant {
    name: String,
    function: Function,
    place: Place,
    /// Whether it is wrong at a deep size alone.
    deep: bool,
}

/// Where a function is wrong.
#[derive(Clone, Copy)]
enum Place {
    Result,
    /// The result, where this number is expected.
    For(u64),
    /// The result, where it has this number.
    As(u64),
    /// A byte of this buffer.
    Inside(&'static str),
    /// A byte beside this buffer.
    Outside(&'static str),
}

impl Mutant {
    pub fn find(self, call: &'static Call) -> Result<(), String> {
        let parts = if self.deep { DEEP_ALONE } else { ALL };
        find_in(parts, call, &self.name, self.function, |difference| {
            match (difference, self.place) {
                (Difference::Result { .. }, Place::Result) => true,
                (Difference::Result { expected, .. }, Place::For(number)) => {
                    expected % 256 == number
                }
                (Difference::Result { found, .. }, Place::As(number)) => found % 256 == number,
                (Difference::Inside { buffer, .. }, Place::Inside(name)) => *buffer == name,
                (Difference::Outside { buffer, .. }, Place::Outside(name)) => *buffer == name,
                _ => false,
            }
        })
    }

    pub fn pass(self, call: &'static Call) -> Result<(), String> {
        pass(Part::Shallow, call, &self.name, self.function)
    }
}

/// Calls that ask a test after one of which the description says that it cannot
/// be asked then.
pub fn apart(call: &'static Call) -> Vec<Mutant> {
    let mut mutants = Mutants { call, all: Vec::new() };
    mutants.of_orders(|pair| call.apart.contains(&pair));
    mutants.all
}

pub fn mutants(call: &'static Call) -> Vec<Mutant> {
    let mut mutants = Mutants { call, all: Vec::new() };
    mutants.of_results();
    mutants.of_tests();
    mutants.of_orders(|pair| pair.0 != pair.1 && !call.apart.contains(&pair));
    mutants.of_lengths();
    mutants.of_numbers();
    mutants.of_sizes();
    mutants.of_bytes();
    mutants.all
}

struct Mutants {
    call: &'static Call,
    all: Vec<Mutant>,
}

impl Mutants {
    fn add(&mut self, name: impl Into<String>, place: Place, function: Function) {
        self.all.push(Mutant { name: name.into(), function, place, deep: false });
    }

    /// The last one is wrong at this size alone.
    fn at(&mut self, size: usize) {
        self.all.last_mut().expect("a mutant").deep = size >= DEEP;
    }

    /// What is right, but another result where `other` has one for what is lent
    /// and for the right result.
    fn instead(
        &mut self,
        name: impl Into<String>,
        place: Place,
        other: impl Fn(&Input, u64) -> Option<u64> + 'static,
    ) {
        let function = by(self.call, move |i| {
            let before = i.clone();
            let result = right(i);
            other(&before, result).unwrap_or(result)
        });
        self.add(name, place, function);
    }

    /// Other numbers and values.
    fn of_results(&mut self) {
        for number in numbers(self.call) {
            let bits =
                [("as another number", 7), ("with another value", 8), ("with another second", 32)];
            for (what, bit) in bits {
                self.instead(format!("{number} {what}"), Place::For(number), move |_, result| {
                    (result % 256 == number).then_some(result ^ 1 << bit)
                });
            }
        }
    }

    /// Tests left out, or asked otherwise.
    fn of_tests(&mut self) {
        let call = self.call;
        for (t, test) in call.tests.iter().enumerate() {
            let number = test.number;
            let without = by(call, move |i| by_tests(i, but(call, t)));
            self.add(format!("{number} left out"), Place::For(number), without);
            for &(what, ask) in test.wrong {
                let wrong = by(call, move |i| by_tests(i, &asked(call, number, ask)));
                self.add(format!("{number}: {what}"), Place::Result, wrong);
            }
        }
    }

    /// Tests asked too early, by the numbers of the two.
    fn of_orders(&mut self, pairs: impl Fn((u64, u64)) -> bool) {
        let tests = self.call.tests;
        for (t, &Test { number, .. }) in tests.iter().enumerate() {
            for later in tests[t + 1..].iter().filter(|later| pairs((number, later.number))) {
                let name = format!("{number} after {}", later.number);
                self.instead(name, Place::As(later.number), move |i, _| early(i, t, later));
            }
        }
    }

    /// Wrong lengths taken, or cut to a right one, each way of being wrong alone;
    /// limits that are refused.
    fn of_lengths(&mut self) {
        let call = self.call;
        let lengths = call.tests.iter().position(|test| test.number == 2).expect("lengths");
        for (b, buffer) in call.buffers().enumerate() {
            let name = buffer.name;
            for Wrong { what, least, most, step, rest } in wrong_lengths(buffer.length) {
                let so = move |i: &Input, result: u64| {
                    let len = i.buffers[b].len();
                    let hit = (least..=most).contains(&len) && len % step == rest;
                    result == 2 && hit && i.lengths_fit(|other| other != b)
                };
                self.instead(format!("{name} {what} taken"), Place::For(2), move |i, result| {
                    so(i, result).then(|| by_tests(&mut i.clone(), but(call, lengths)))
                });
                if what != SHORT {
                    self.instead(format!("{name} {what} cut"), Place::For(2), move |i, result| {
                        so(i, result).then(|| right(&mut i.cut(|cut| cut == b)))
                    });
                }
            }
            let length = buffer.length;
            for limit in 0..length.limits(call.sizes[0]).len() {
                if length.limits(call.sizes[0])[limit] == usize::MAX {
                    continue;
                }
                self.instead(
                    format!("{name} of its limit {limit} refused"),
                    Place::As(2),
                    move |i, result| {
                        let at = |size| length.limits(size)[limit] == i.buffers[b].len();
                        (result != 1 && i.size().map_or(false, at)).then_some(2)
                    },
                );
            }
        }
    }

    /// Numbers of fewer bits.
    fn of_numbers(&mut self) {
        for (n, name) in self.call.numbers().enumerate() {
            for bits in [8, 16, 32, 63] {
                let function = by(self.call, move |i| {
                    let mut seen = i.clone();
                    seen.numbers[n] &= (1 << bits) - 1;
                    let result = right(&mut seen);
                    i.buffers = seen.buffers;
                    result
                });
                self.add(format!("{name} of {bits} bits"), Place::Result, function);
            }
        }
    }

    /// Sizes that are refused, and such as there are not that are taken where all
    /// else is as for them.
    fn of_sizes(&mut self) {
        let Call { sizes, tests, .. } = *self.call;
        if self.call.numbers().next().is_none() {
            return;
        }
        for size in sizes[0] - 1..sizes[sizes.len() - 1] + 2 {
            let (right, wrong) =
                if sizes.contains(&size) { (0, tests[0].number) } else { (tests[0].number, 0) };
            self.instead(format!("size {size} as {wrong}"), Place::For(right), move |i, result| {
                let asked = i.numbers[0] == size as u64 && result % 256 == right;
                (asked && (right == 0 || fits_size(i, size))).then_some(wrong)
            });
            self.at(size);
        }
    }

    /// Bytes changed inside a buffer and beside it, for each number and, where
    /// the call is done, at each size; buffers not written.
    fn of_bytes(&mut self) {
        let call = self.call;
        for (b, buffer) in call.buffers().enumerate() {
            let name = buffer.name;
            for number in numbers(call) {
                let hit = move |result: u64, _: &[Word]| result % 256 == number;
                for (what, at) in INSIDE {
                    let function = flipping(call, b, at, hit);
                    self.add(format!("{number}, {what} of {name}"), Place::Inside(name), function);
                }
                for (what, at) in OUTSIDE {
                    let function = flipping(call, b, at, hit);
                    self.add(format!("{number}, {what} {name}"), Place::Outside(name), function);
                }
            }
            for &size in call.sizes {
                let function = flipping(call, b, LAST, move |result, words| {
                    let of = |word| !matches!(word, Word::Number(first) if first != size as u64);
                    result % 256 == 0 && of(words[0])
                });
                self.add(format!("{name} at size {size}"), Place::Inside(name), function);
                self.at(size);
            }
            if buffer.written {
                let function = by(call, move |i| {
                    let before = i.buffers[b].clone();
                    let result = right(i);
                    i.buffers[b] = before;
                    result
                });
                self.add(format!("{name} not written"), Place::Inside(name), function);
            }
        }
    }
}

/// Lengths that are wrong in one way: those from `least` to `most` that leave this
/// rest by the step.
struct Wrong {
    what: String,
    least: usize,
    most: usize,
    step: usize,
    rest: usize,
}

/// A length that cannot be cut to a right one.
const SHORT: &str = "too short";

/// The ways in which a length can be wrong.
fn wrong_lengths(length: Length) -> Vec<Wrong> {
    let any = Wrong { what: "of any length".into(), least: 0, most: usize::MAX, step: 1, rest: 0 };
    let (least, most, step) = match length {
        Length::Within { least, most, step } => (least, most, step),
        Length::Of(_) | Length::UpTo(_) => return vec![any],
    };
    let mut ways = Vec::new();
    if least > 0 {
        ways.push(Wrong { what: SHORT.into(), most: least - 1, ..any });
    }
    if most < usize::MAX {
        ways.push(Wrong { what: format!("over {most}"), least: most + 1, step, ..any });
    }
    let rests =
        (1..step).map(|rest| Wrong { what: format!("of rest {rest}"), least, most, step, rest });
    ways.extend(rests);
    ways
}

/// The numbers that a description names.
fn numbers(call: &Call) -> Vec<u64> {
    let mut numbers: Vec<u64> = call.tests.iter().map(|test| test.number).collect();
    numbers.push(0);
    numbers.sort_unstable();
    numbers.dedup();
    numbers
}

/// Whether buffers, and a table where there is one, are those of a size.
fn fits_size(input: &Input, size: usize) -> bool {
    let mut made = input.clone();
    made.make_for(size);
    made.buffers == input.buffers
}

/// The tests of a call but one.
fn but(call: &'static Call, t: usize) -> impl Iterator<Item = &'static Test> {
    call.tests[..t].iter().chain(&call.tests[t + 1..])
}

/// The result where a later test is asked before one that stops the call.
fn early(input: &Input, t: usize, later: &Test) -> Option<u64> {
    let stops = |test: &Test| (test.ask)(input).is_err();
    let stopped = input.call.tests.iter().position(stops) == Some(t);
    (later.ask)(input).err().filter(|_| stopped).map(|stop| number(Err(stop)))
}

/// What is right, and then a byte changed, where the result is a hit.
pub fn flipping(
    call: &'static Call,
    b: usize,
    at: At,
    hit: impl Fn(u64, &[Word]) -> bool + 'static,
) -> Function {
    let right = by(call, right);
    Rc::new(move |words: &[Word]| {
        let result = right(words);
        let (pointer, len) = buffers(words)[b];
        if let Some(at) = at(len as isize).filter(|_| hit(result, words)) {
            // SAFETY: the byte is in the array that the buffer is lent from.
            unsafe { *pointer.offset(at) ^= 1 };
        }
        result
    })
}
