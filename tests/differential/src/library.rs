//! Libraries: the proved one, the one as it must be, and such as have a wrong
//! function.

use crate::call::{Call, Test};
use crate::input::Input;
use crate::results::number;
use crate::CALLS;
use cedunmi_sys::{Declared, Word, FUNCTIONS};
use std::collections::BTreeMap;
use std::rc::Rc;
use std::slice;

pub type Function = Rc<dyn Fn(&[Word]) -> u64>;

/// Functions by their names in the header, after `cmt_`.
#[derive(Clone)]
pub struct Library(BTreeMap<&'static str, Function>);

impl Library {
    /// The proved library.
    pub fn linked() -> Library {
        let function = |&(name, _, function): &Declared| {
            // SAFETY: the pointers go to arrays, each with a length that lies inside its array.
            let function: Function = Rc::new(move |words: &[Word]| unsafe { function(words) });
            (name.strip_prefix("cmt_").unwrap_or(name), function)
        };
        Library(FUNCTIONS.iter().map(function).collect())
    }

    /// The library as it must be, made from the descriptions.
    pub fn right() -> Library {
        Library(CALLS.iter().map(|&call| (call.name, by(call, right))).collect())
    }

    /// The library with another function in the place of one.
    pub fn with(mut self, call: &Call, function: Function) -> Library {
        self.0.insert(call.name, function);
        self
    }

    pub fn function(&self, call: &Call) -> Function {
        self.0[call.name].clone()
    }
}

/// The function that does to what it is lent what `body` does to a copy of it.
pub fn by(call: &'static Call, body: impl Fn(&mut Input) -> u64 + 'static) -> Function {
    Rc::new(move |words: &[Word]| {
        let mut input = read(call, words);
        let result = body(&mut input);
        for ((pointer, len), bytes) in buffers(words).into_iter().zip(&input.buffers) {
            assert_eq!(len, bytes.len());
            // SAFETY: the comparison lends so many bytes there, to be written by nobody else.
            unsafe { slice::from_raw_parts_mut(pointer, len) }.copy_from_slice(bytes);
        }
        result
    })
}

/// The buffers that the words lend.
pub fn buffers(words: &[Word]) -> Vec<(*mut u8, usize)> {
    let lent = words.iter().filter_map(|word| match *word {
        Word::Number(_) => None,
        Word::Read(lent) => Some((lent.pointer as *mut u8, lent.len)),
        Word::Written(lent) => Some((lent.pointer, lent.len)),
    });
    lent.collect()
}

/// A copy of what the words lend.
fn read(call: &'static Call, words: &[Word]) -> Input {
    let numbers = words.iter().filter_map(|word| match *word {
        Word::Number(number) => Some(number),
        _ => None,
    });
    let buffers = buffers(words).into_iter().map(|(pointer, len)| {
        // SAFETY: the comparison lends so many bytes there.
        unsafe { slice::from_raw_parts(pointer, len) }.to_vec()
    });
    Input { call, numbers: numbers.collect(), buffers: buffers.collect() }
}

/// What a call must do by its description: its tests in order, then what the
/// reference does.
pub fn right(input: &mut Input) -> u64 {
    by_tests(input, input.call.tests)
}

/// The same with other tests: what the reference stops, they may not.
pub fn by_tests<'a>(input: &mut Input, tests: impl IntoIterator<Item = &'a Test>) -> u64 {
    match stopped(input, tests) {
        Some(result) => result,
        None => done(input),
    }
}

/// The result of the first test that stops a call.
pub fn stopped<'a>(input: &Input, tests: impl IntoIterator<Item = &'a Test>) -> Option<u64> {
    tests.into_iter().find_map(|test| (test.ask)(input).err()).map(|stop| number(Err(stop)))
}

/// What the reference does to a call, where it does not stop it.
fn done(input: &mut Input) -> u64 {
    let mut after = input.clone();
    match (input.call.reference)(&mut after) {
        result if result % 256 == 0 => {
            *input = after;
            result
        }
        _ => 0,
    }
}
