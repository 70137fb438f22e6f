//! The description of a call: its arguments, their lengths, its tests in order.
//! From it come the calls that every call must be tried with (`comparisons`), the
//! library as it must be (`library`), and wrong ones (`mutants`).

use crate::comparisons::Comparisons;
use crate::difference::Compared;
use crate::input::Input;
use crate::random::Random;
use crate::records;
use crate::results::values;
use cedunmi_sys::{Lent, Word};
use reference::stop::Stop;
use reference::tree::SYMBOL;

pub struct Call {
    /// Its name in the header, after `cmt_`.
    pub name: &'static str,
    /// The sizes that there are: what its first number may be, if it has numbers.
    pub sizes: &'static [usize],
    /// In the order of the header.
    pub arguments: &'static [Argument],
    /// In the order in which they are asked.
    pub tests: &'static [Test],
    /// The numbers of two tests of which the later cannot be asked where the
    /// earlier stops the call.
    pub apart: &'static [(u64, u64)],
    /// A call of a size that no test stops.
    pub good: fn(usize, &mut Random) -> Input,
    /// What the call must do with what it is lent, and return.
    pub reference: fn(&mut Input) -> u64,
    /// What else is asked after a call, of what it was lent and what it left.
    pub also: fn(&mut Comparisons, &Input, &Input, u64) -> Compared,
    /// The comparisons that this call alone has.
    pub own: &'static [Own],
    /// How often a result must come, where that is oftener than each must, or a call
    /// that is counted.
    pub least: &'static [(&'static str, u64)],
    /// The same at the deep sizes.
    pub least_deep: &'static [(&'static str, u64)],
}

pub type Own = fn(&mut Comparisons) -> Compared;

/// What a description need not say.
pub const CALL: Call = Call {
    name: "",
    sizes: &[0],
    arguments: &[],
    tests: &[],
    apart: &[],
    good: |_, _| unreachable!(),
    reference: |_| unreachable!(),
    also: |_, _, _, _| Ok(()),
    own: &[],
    least: &[],
    least_deep: &[],
};

pub enum Argument {
    Number(&'static str),
    Read(&'static str, Length),
    Written(&'static str, Length),
}

/// The length that a buffer must have.
#[derive(Clone, Copy)]
pub enum Length {
    /// The one that the size asks for.
    Of(fn(usize) -> usize),
    /// Any up to the one that the size has.
    UpTo(fn(usize) -> usize),
    /// Any multiple of a step, from the least to the most.
    Within { least: usize, most: usize, step: usize },
}

/// Whether a call passes a test.
pub type Ask = fn(&Input) -> Result<(), Stop>;

/// A test, whose number and values end the call where it is not passed.
#[derive(Clone, Copy)]
pub struct Test {
    pub number: u64,
    /// Also of a call that an earlier test stops: passed, where it cannot be told.
    pub ask: Ask,
    /// Makes a call fail the test, which passes it and all before it.
    pub spoil: fn(&mut Input, &mut Random),
    /// The comparisons that every call with this test has, at each size.
    pub own: &'static [fn(&mut Comparisons, usize) -> Compared],
    pub sorts: Sorts,
    /// Wrong ways to ask it, each with its name.
    #[cfg(test)]
    pub wrong: &'static [(&'static str, Ask)],
}

/// What a test need not say.
pub const TEST: Test = Test {
    number: 0,
    ask: |_| unreachable!(),
    spoil: |_, _| unreachable!(),
    own: &[],
    sorts: Sorts { all: |_| vec![], of: |_, _| None },
    #[cfg(test)]
    wrong: &[],
};

/// The sorts of calls that a test stops, each of which must come.
#[derive(Clone, Copy)]
pub struct Sorts {
    /// Those that there are at a size.
    pub all: fn(usize) -> Vec<String>,
    /// That of a call, which stops with these values.
    pub of: fn(&Input, [usize; 2]) -> Option<String>,
}

/// A buffer of a description.
#[derive(Clone, Copy)]
pub struct Buffer {
    pub name: &'static str,
    pub length: Length,
    pub written: bool,
}

impl Call {
    /// Whether an outcome comes by calls of each kind of volume: not where the call knows of none,
    /// or is stopped since it is told none.
    pub fn comes_by_kinds(&self, outcome: &str) -> bool {
        let told = self.numbers().any(|name| name == "kind");
        records::is_lent(self) || told && outcome != "11"
    }

    /// The sorts of all tests and sizes.
    pub fn sorts(&self) -> impl Iterator<Item = String> + '_ {
        self.sorts_at(self.sizes)
    }

    /// The sorts of all tests at these sizes.
    pub fn sorts_at(&self, sizes: &'static [usize]) -> impl Iterator<Item = String> + '_ {
        let of_test =
            move |test: &'static Test| sizes.iter().flat_map(|&size| (test.sorts.all)(size));
        self.tests.iter().flat_map(of_test)
    }

    /// The sort of a call with this result, if it has one.
    pub fn sort(&self, input: &Input, result: u64) -> Option<String> {
        let mut tests = self.tests.iter().filter(|test| test.number == result % 256);
        tests.find_map(|test| (test.sorts.of)(input, values(result)))
    }

    pub fn buffers(&self) -> impl Iterator<Item = Buffer> {
        self.arguments.iter().filter_map(|argument| match *argument {
            Argument::Number(_) => None,
            Argument::Read(name, length) => Some(Buffer { name, length, written: false }),
            Argument::Written(name, length) => Some(Buffer { name, length, written: true }),
        })
    }

    pub fn numbers(&self) -> impl Iterator<Item = &'static str> {
        self.arguments.iter().filter_map(|argument| match *argument {
            Argument::Number(name) => Some(name),
            _ => None,
        })
    }

    /// The arguments for C.
    pub fn words(&self, numbers: &[u64], buffers: &[(*mut u8, usize)]) -> Vec<Word> {
        let (mut numbers, mut buffers) = (numbers.iter(), buffers.iter());
        let mut words = Vec::new();
        for argument in self.arguments {
            if let Argument::Number(_) = argument {
                words.push(Word::Number(*numbers.next().expect("a number")));
                continue;
            }
            let &(pointer, len) = buffers.next().expect("a buffer");
            words.push(match argument {
                Argument::Read(..) => Word::Read(Lent { pointer, len }),
                _ => Word::Written(Lent { pointer, len }),
            });
        }
        words
    }
}

impl Length {
    /// Whether a length is right, as far as can be told without a size.
    pub fn fits(self, size: Option<usize>, len: usize) -> bool {
        match self {
            Length::Of(right) => size.map_or(true, |size| len == right(size)),
            Length::UpTo(most) => size.map_or(true, |size| len <= most(size)),
            Length::Within { least, most, step } => {
                (least..=most).contains(&len) && len % step == 0
            }
        }
    }

    /// The right lengths that are limits.
    pub fn limits(self, size: usize) -> Vec<usize> {
        match self {
            Length::Of(_) => vec![],
            Length::UpTo(most) => vec![0, most(size)],
            Length::Within { least, most, .. } => vec![least, most],
        }
    }

    /// The longest right length that is not longer, if there is one.
    pub fn cut(self, size: Option<usize>, len: usize) -> usize {
        match (self, size) {
            (Length::Of(most) | Length::UpTo(most), Some(size)) => len.min(most(size)),
            (Length::Of(_) | Length::UpTo(_), None) => len,
            (Length::Within { most, step, .. }, _) => len.min(most) / step * step,
        }
    }

    /// Lengths that are right ones only for another size, or near the limits.
    pub fn edges(self, sizes: &[usize]) -> Vec<usize> {
        match self {
            Length::Of(most) | Length::UpTo(most) => sizes.iter().map(|&s| most(s)).collect(),
            Length::Within { least, most, step } => {
                let near = |limit: usize| [limit.wrapping_sub(1), limit, limit.wrapping_add(1)];
                let beyond = (1..step).map(|more| least + more).chain([most.wrapping_add(step)]);
                let edges = near(least).into_iter().chain(near(most)).chain(beyond);
                edges.filter(|&len| len < 1 << 24).collect()
            }
        }
    }

    /// Gives a buffer another length than it may have at a size.
    pub fn spoil(self, size: usize, buffer: &mut Vec<u8>, random: &mut Random) {
        match self {
            Length::UpTo(most) => {
                buffer.resize(most(size) + [1, SYMBOL, most(size)][random.below(3)], 1)
            }
            Length::Within { least, .. } if least > 0 => buffer.truncate(random.below(least)),
            Length::Within { most, step: 1, .. } => buffer.resize(most + 1, 1),
            _ if random.below(2) == 0 || buffer.pop().is_none() => buffer.push(1),
            _ => {}
        }
    }
}
