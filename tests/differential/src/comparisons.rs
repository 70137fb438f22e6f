//! The comparisons of a call: those of its tests, those that all calls get from
//! their descriptions, then its own; at the deep sizes its own come first.

use crate::call::Call;
use crate::difference::{Compared, Difference, Failure};
use crate::input::Input;
use crate::lent::{Lent, ALIGNMENTS};
use crate::library::{Function, Library};
use crate::met::Met;
use crate::random::Random;
use crate::results::{number, outcome, same};
use crate::stops::{BEYOND, DEEP};
use crate::volumes::some_depth;
use reference::kind::{Kind, KINDS};
use reference::stop::Stop;
use reference::tree::SYMBOL;

const SEED: u64 = 3141;

/// Sets of causes that are tried at each size.
const SETS: usize = 512;

/// Calls of each size that get other lengths.
const TURNS: usize = 2;

/// How often each result that a description names must come at the shallow sizes, and each
/// sort. At the deep ones a sort must come at all.
const LEAST: u64 = 40;
const LEAST_OF_SORT: u64 = 3;

/// How often each result must come at each size.
const LEAST_AT_A_SIZE: u64 = 2;

/// The sizes are compared in two parts: at the deep ones fewer calls are made.
#[derive(Clone, Copy, PartialEq, Eq)]
pub enum Part {
    Shallow,
    Deep,
}

impl Part {
    /// The sizes of a call that are in this part.
    fn sizes(self, call: &Call) -> &'static [usize] {
        let (shallow, deep) = call.sizes.split_at(call.sizes.partition_point(|&s| s < DEEP));
        match self {
            Part::Shallow => shallow,
            Part::Deep => deep,
        }
    }
}

pub struct Comparisons {
    pub call: &'static Call,
    /// Those of the part that is compared.
    pub sizes: &'static [usize],
    pub part: Part,
    pub library: Library,
    pub random: Random,
    pub met: Met,
    function: Function,
}

/// Makes every comparison of a call.
pub fn compare(call: &'static Call, library: &Library) -> Result<Met, Failure> {
    let shallow = compare_part(call, library, Part::Shallow)?;
    let deep = compare_part(call, library, Part::Deep)?;
    Ok(shallow.and(deep))
}

/// Makes every comparison of a call at the sizes of a part. At each size each number and
/// each end must come, and of each kind of volume.
pub fn compare_part(call: &'static Call, library: &Library, part: Part) -> Result<Met, Failure> {
    let mut comparisons = Comparisons::of(call, library, Random::new(SEED));
    comparisons.part = part;
    comparisons.sizes = part.sizes(call);
    if comparisons.sizes.is_empty() {
        return Ok(comparisons.met);
    }
    if part == Part::Deep {
        comparisons.deep_sizes()?;
        comparisons.own()?;
    }
    comparisons.described()?;
    if part == Part::Shallow {
        comparisons.own()?;
    }
    let (sizes, met) = (comparisons.sizes, comparisons.met);
    let numbers = call.tests.iter().map(|test| outcome(test.number));
    let ends = call.least.iter().filter(|(what, _)| what.starts_with("end "));
    let each: Vec<String> = numbers.chain(ends.map(|(what, _)| what.to_string())).collect();
    for (outcome, &size) in each.iter().flat_map(|outcome| sizes.iter().map(move |s| (outcome, s)))
    {
        met.at_sizes.demand(&at_size(outcome, size), LEAST_AT_A_SIZE);
        let kinds = KINDS.into_iter().filter(|_| call.comes_by_kinds(outcome));
        kinds.for_each(|kind| met.at_sizes.demand(&of_kind(outcome, size, kind), 1));
    }
    if part == Part::Shallow {
        each.iter().for_each(|outcome| met.outcomes.demand(outcome, LEAST));
        call.least.iter().for_each(|&(what, least)| met.outcomes.demand(what, least));
    } else {
        call.least_deep.iter().for_each(|&(what, least)| met.outcomes.demand(what, least));
    }
    let least = if part == Part::Shallow { LEAST_OF_SORT } else { 1 };
    call.sorts_at(sizes).for_each(|sort| met.sorts.demand(&sort, least));
    Ok(met)
}

/// An outcome at a size.
fn at_size(outcome: &str, size: usize) -> String {
    format!("{outcome} at size {size}")
}

/// An outcome at a size, of a kind of volume.
pub fn of_kind(outcome: &str, size: usize, kind: Kind) -> String {
    format!("{} of {kind:?} volumes", at_size(outcome, size))
}

/// Numbers that are `low` only where bits are lost.
pub fn large(low: u64) -> [u64; 5] {
    [1 << 8 | low, 1 << 16 | low, 1 << 32 | low, 1 << 63 | low, u64::MAX << 8 | low]
}

impl Comparisons {
    pub fn of(call: &'static Call, library: &Library, random: Random) -> Comparisons {
        let (library, function) = (library.clone(), library.function(call));
        let (sizes, part) = (call.sizes, Part::Shallow);
        Comparisons { call, sizes, part, library, random, met: Met::default(), function }
    }

    pub fn is_deep(&self) -> bool {
        self.part == Part::Deep
    }

    /// How many turns of a comparison whose depths are random: so many, or, of deep ones, fewer.
    pub fn turns(&self, shallow: usize) -> usize {
        if self.is_deep() {
            (shallow >> 7).max(2)
        } else {
            shallow
        }
    }

    /// A depth of the part, the smaller ones more often.
    pub fn some_depth(&mut self) -> usize {
        match self.part {
            Part::Shallow => some_depth(&mut self.random),
            Part::Deep => match self.random.below(15) {
                0..=7 => DEEP,
                8..=11 => DEEP + 1,
                12..=13 => DEEP + 2,
                _ => DEEP + 3,
            },
        }
    }

    /// The sizes that tables are made for: those of the part, and those beside.
    pub fn made_sizes(&self) -> std::ops::RangeInclusive<usize> {
        match self.part {
            Part::Shallow => 0..=DEEP - 1,
            Part::Deep => DEEP..=BEYOND,
        }
    }

    /// A call of a size that no test stops.
    pub fn good(&mut self, size: usize) -> Input {
        (self.call.good)(size, &mut self.random)
    }

    fn own(&mut self) -> Compared {
        self.call.own.iter().try_for_each(|own| own(self))
    }

    /// A good call of each size, and buffers for each, so that a call that is wrong at one of
    /// them is found soon.
    fn deep_sizes(&mut self) -> Compared {
        for &size in self.sizes {
            let good = self.good(size);
            self.make_done("a size", &good)?;
        }
        self.sizes()
    }

    /// A good call of each size and kind, for the same.
    fn each_size(&mut self) -> Compared {
        for &size in self.sizes {
            for good in self.of_each_kind(size) {
                self.make_done("a size", &good)?;
            }
        }
        Ok(())
    }

    fn described(&mut self) -> Compared {
        for &size in self.sizes {
            self.causes(size)?;
            if size == self.sizes[0] && !self.is_deep() {
                self.each_size()?;
            }
            for own in self.call.tests.iter().flat_map(|test| test.own) {
                own(self, size)?;
            }
        }
        if self.is_deep() {
            return self.lengths();
        }
        self.sizes()?;
        self.lengths()?;
        self.alignments()
    }

    /// None and one test failed, of each kind of volume; then every set of tests, or, at a deep
    /// size, each two.
    fn causes(&mut self, size: usize) -> Compared {
        let tests = self.call.tests.len();
        for good in self.of_each_kind(size) {
            self.make_done("nothing is wrong", &good)?;
            for test in 0..tests {
                self.failing(&good, 1 << test)?;
            }
        }
        let (sets, mut good) = (1 << tests, self.good(size));
        if self.is_deep() {
            let mut two = (1..sets).filter(|set: &usize| set.count_ones() == 2);
            return two.try_for_each(|set| self.failing(&good, set));
        }
        for turn in 1..SETS.min(64 * sets).max(sets) {
            if turn % 64 == 0 {
                good = self.good(size);
                self.make_done("nothing is wrong", &good)?;
            }
            if turn % sets > 0 {
                self.failing(&good, turn % sets)?;
            }
        }
        Ok(())
    }

    /// A good call in which a set of tests is failed.
    fn failing(&mut self, good: &Input, set: usize) -> Compared {
        let mut input = good.clone();
        let tests = self.call.tests.iter().enumerate().rev();
        for (_, test) in tests.filter(|&(t, _)| set >> t & 1 == 1) {
            (test.spoil)(&mut input, &mut self.random);
        }
        self.make("several causes", &input).map(|_| ())
    }

    /// A good call, and where there are kinds of it one of each.
    pub fn of_each_kind(&mut self, size: usize) -> Vec<Input> {
        let first = self.good(size);
        let mut goods = vec![first];
        while let Some(other) = goods[0].kind().map(Kind::other).filter(|_| goods.len() == 1) {
            let good = self.good(size);
            goods.extend(Some(good).filter(|good| good.kind() == Some(other)));
        }
        goods
    }

    /// Buffers for one size, also for those beside all, asked for each size, and
    /// for some that there are not.
    fn sizes(&mut self) -> Compared {
        let beside = self.sizes_and_beside();
        if self.call.numbers().count() == 0 {
            return Ok(());
        }
        let made = beside.iter().filter(|size| self.made_sizes().contains(size));
        let made: Vec<usize> = made.copied().collect();
        for made_for in made.repeat(if self.is_deep() { 1 } else { 2 }) {
            let mut input = self.made_for(made_for);
            let asked = (0..=beside[beside.len() - 1] as u64 + 1)
                .chain(large(made_for as u64))
                .chain([u64::MAX]);
            for size in asked {
                input.numbers[0] = size;
                self.make("a size", &input)?;
            }
        }
        Ok(())
    }

    fn sizes_and_beside(&self) -> Vec<usize> {
        let sizes = self.call.sizes;
        let (first, last) = (sizes[0], sizes[sizes.len() - 1]);
        first.checked_sub(1).into_iter().chain(sizes.iter().copied()).chain([last + 1]).collect()
    }

    /// A good call, or, beside all sizes, one that would be good if there were
    /// that size.
    fn made_for(&mut self, size: usize) -> Input {
        let sizes = self.call.sizes;
        let mut input = self.good(size.clamp(sizes[0], sizes[sizes.len() - 1]));
        if !sizes.contains(&size) {
            input.make_for(size);
        }
        input
    }

    /// One buffer of another length.
    fn lengths(&mut self) -> Compared {
        let sizes = self.sizes_and_beside();
        let turns = if self.is_deep() { 1 } else { TURNS };
        for &size in self.sizes {
            for turn in 0..turns * self.call.buffers().count() {
                let good = self.good(size);
                let b = turn / turns;
                let buffer = self.call.buffers().nth(b).expect("a buffer");
                let len = good.buffers[b].len();
                let others = other_lengths(len).into_iter().chain(buffer.length.edges(&sizes));
                for other in others.filter(|&other| other != len) {
                    let mut input = good.clone();
                    input.buffers[b].resize(other, 1);
                    self.make("a length", &input)?;
                }
            }
        }
        Ok(())
    }

    /// Each buffer at each alignment.
    fn alignments(&mut self) -> Compared {
        let input = self.good(self.call.sizes[0]);
        for buffer in 0..input.buffers.len() {
            for alignment in 0..ALIGNMENTS {
                self.make_at("an alignment", &input, |b| (b == buffer).then_some(alignment))?;
            }
        }
        Ok(())
    }

    /// The result of a call, if it is the reference's.
    pub fn make(&mut self, what: &str, input: &Input) -> Result<u64, Failure> {
        self.make_at(what, input, |_| None).map(|(_, result)| result)
    }

    /// A call that must be done, or accepted.
    pub fn make_done(&mut self, what: &str, input: &Input) -> Compared {
        let result = self.make(what, input)?;
        assert_eq!(result % 256, 0, "a call that nothing stops: {what}, {}", input.description());
        Ok(())
    }

    /// A call that must come to this. Such calls are counted by what they are.
    pub fn make_so(&mut self, what: &str, input: &Input, expected: Result<(), Stop>) -> Compared {
        let result = self.make(what, input)?;
        assert_eq!(result, number(expected), "{what}, {}", input.description());
        self.met.outcomes.count(what);
        Ok(())
    }

    /// What a call left, and its result, with some buffers at chosen alignments.
    pub fn make_at(
        &mut self,
        what: &str,
        input: &Input,
        alignment: impl Fn(usize) -> Option<usize>,
    ) -> Result<(Input, u64), Failure> {
        self.met.made += 1;
        let mut after = input.clone();
        let result = (self.call.reference)(&mut after);
        self.count(&outcome(result), input);
        if let Some(sort) = self.call.sort(input, result) {
            self.met.sorts.count(&sort);
        }
        self.lend(input, &after, result, alignment).map_err(|difference| Failure {
            call: format!("{what}: {}", input.description()),
            difference,
        })?;
        (self.call.also)(self, input, &after, result)?;
        Ok((after, result))
    }

    /// Counts what came of a call, also at its size, and of its kind of volume.
    pub fn count(&mut self, what: &str, input: &Input) {
        self.met.outcomes.count(what);
        if let Some(size) = input.size() {
            self.met.at_sizes.count(&at_size(what, size));
            let kind = input.kind().map(|kind| of_kind(what, size, kind));
            kind.into_iter().for_each(|of_kind| self.met.at_sizes.count(&of_kind));
        }
    }

    /// Makes a call on lent copies, and compares the result and every byte.
    pub fn lend(
        &mut self,
        before: &Input,
        after: &Input,
        expected: u64,
        alignment: impl Fn(usize) -> Option<usize>,
    ) -> Result<(), Difference> {
        let mut lent = Vec::new();
        for (b, (buffer, bytes)) in self.call.buffers().zip(&before.buffers).enumerate() {
            let random = self.random.below(ALIGNMENTS);
            lent.push(Lent::new(buffer.name, bytes, alignment(b).unwrap_or(random)));
        }
        let pointers: Vec<_> = lent.iter_mut().map(|lent| (lent.pointer(), lent.len())).collect();
        same(expected, (self.function)(&self.call.words(&before.numbers, &pointers)))?;
        lent.iter().zip(&after.buffers).try_for_each(|(lent, bytes)| lent.check(bytes))
    }
}

/// Other lengths than a buffer has: by one, by a symbol, far shorter, longer.
fn other_lengths(len: usize) -> Vec<usize> {
    let lengths = [len.wrapping_sub(1), len + 1, len.wrapping_sub(SYMBOL), len + SYMBOL];
    lengths.into_iter().filter(|&l| l < 1 << 30).chain([0, 2 * len + 4]).collect()
}
