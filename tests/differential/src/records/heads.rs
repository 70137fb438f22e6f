//! Test 11, that the head of a record is in form and for the call's depth.

use super::{head, put_kind, put_value, word, COUNT, DEPTH, LARGEST, LENGTH};
use crate::call::{Sorts, Test, TEST};
use crate::comparisons::Comparisons;
use crate::difference::Compared;
use crate::input::Input;
use crate::random::Random;
use crate::stops::{turns, DEEP};
use crate::volumes::lengths;
use reference::record::{Head, HEAD, KINDS};
use reference::stop::Stop;
use reference::tree::{block_len, ROOT};

pub const RECORD: Test = Test {
    number: 11,
    ask: |i| match (i.size(), i["record"].get(..HEAD)) {
        (Some(depth), Some(head)) => Head::read(depth, head).map(|_| ()),
        _ => Ok(()),
    },
    spoil: |i, random| spoil(i, random.below(CAUSES.len()), random),
    own: &[bits, kinds, values, roots_alone, later_tests],
    sorts: Sorts {
        all: |depth| CAUSES.iter().chain([&SEVERAL]).map(|cause| sort(depth, cause)).collect(),
        of: |i, _| {
            let causes = causes(i);
            let cause = if let [one] = causes[..] { CAUSES[one] } else { SEVERAL };
            Some(sort(i.size()?, cause))
        },
    },
    #[cfg(test)]
    wrong: super::mutants::HEADS,
    ..TEST
};

const CAUSES: [&str; 6] = [
    "kind 10 in the first word",
    "kind 11 in the first word",
    "the second kind",
    "the third kind",
    "another depth",
    "the length",
];
const SEVERAL: &str = "several of these";

fn sort(depth: usize, cause: &str) -> String {
    format!("a wrong record at depth {depth}: {cause}")
}

/// What is wrong with the head of a call.
fn causes(input: &Input) -> Vec<usize> {
    let (depth, head) = match (input.size(), head(input)) {
        (Some(depth), Some(head)) => (depth, head),
        _ => return Vec::new(),
    };
    let [first, second, third] = [0, 1, 2].map(|index| word(&input["record"], index) >> 30);
    let wrong = [
        first == 2,
        first == 3,
        !KINDS[1].contains(&second),
        !KINDS[2].contains(&third),
        head.depth != depth,
        head.length > block_len(depth),
    ];
    (0..CAUSES.len()).filter(|&cause| wrong[cause]).collect()
}

/// Makes a head wrong in one way.
fn spoil(input: &mut Input, cause: usize, random: &mut Random) {
    let depth = input.number("depth") as usize;
    match cause {
        0 | 1 => put_kind(input, DEPTH, 2 + cause as u32),
        2 => put_kind(input, LENGTH, KINDS[LENGTH][0] ^ (1 + random.below(3)) as u32),
        3 => put_kind(input, COUNT, KINDS[COUNT][0] ^ (1 + random.below(3)) as u32),
        4 => {
            let others = other_depths(depth);
            put_value(input, DEPTH, others[random.below(others.len())]);
        }
        _ => {
            let long = too_long(depth);
            put_value(input, LENGTH, long[random.below(long.len())]);
        }
    }
}

/// Depths that are another: near, and such as are the same only where bits are lost.
fn other_depths(depth: usize) -> Vec<u32> {
    let near = (0..12).filter(|&near| near != depth as u32);
    near.chain([8, 16, 24, 29].map(|bit| depth as u32 | 1 << bit)).chain([LARGEST]).collect()
}

/// Lengths over the longest block's: near, of the next depth's, and such as are a block's only
/// where bits are lost.
fn too_long(depth: usize) -> Vec<u32> {
    let most = block_len(depth) as u32;
    let near = [most + 1, most + 2, most + 255, most + 256, 2 * most];
    near.into_iter().chain([24, 29].map(|bit| 1 << bit)).chain([LARGEST - 1, LARGEST]).collect()
}

/// Each bit of the head, or, of a deep depth, each fifth.
fn bits(c: &mut Comparisons, depth: usize) -> Compared {
    let right = c.good(depth);
    for bit in (depth % 5..8 * HEAD).step_by(if depth < DEEP { 1 } else { 5 }) {
        let mut input = right.clone();
        input["record"][bit / 8] ^= 0x80 >> (bit % 8);
        c.make("a bit of the record's head", &input)?;
    }
    Ok(())
}

/// Each word of the head with each kind, or, of a deep depth, one or all with a wrong one.
fn kinds(c: &mut Comparisons, depth: usize) -> Compared {
    let right = c.good(depth);
    for kinds in 0..1 << 6 {
        let kinds = [0, 2, 4].map(|bit| kinds >> bit & 3);
        let wrong = (0..3).filter(|&index| !KINDS[index].contains(&kinds[index])).count();
        if depth >= DEEP && wrong > 1 && kinds != [0; 3] {
            continue;
        }
        let mut input = right.clone();
        (0..3).for_each(|index| put_kind(&mut input, index, kinds[index]));
        make_wrong(c, "kinds of the record", &input, wrong > 0)?;
    }
    Ok(())
}

/// Each length at a limit, and each depth that is near. The number of words may be any. Of a deep
/// depth some of them, and the lengths beside the longest block's.
fn values(c: &mut Comparisons, depth: usize) -> Compared {
    let right = c.good(depth);
    let step = if depth < DEEP { 1 } else { 4 };
    let long = too_long(depth).into_iter().map(|length| (LENGTH, length, true)).step_by(step);
    let fits = lengths(depth).into_iter().map(|length| (LENGTH, length as u32, false));
    let fits = fits.rev().step_by(step);
    let depths = other_depths(depth).into_iter().map(|other| (DEPTH, other, true)).step_by(step);
    let counts = [0, LARGEST].into_iter().map(|count| (COUNT, count, false));
    for (index, value, wrong) in long.chain(fits).chain(depths).chain(counts) {
        let mut input = right.clone();
        put_value(&mut input, index, value);
        make_wrong(c, "a value of the record", &input, wrong)?;
    }
    Ok(())
}

/// A call that must stop with 11, or not with it.
fn make_wrong(c: &mut Comparisons, what: &str, input: &Input, wrong: bool) -> Compared {
    let result = c.make(what, input)?;
    assert_eq!(result == RECORD.number, wrong, "{what}, {}", input.description());
    Ok(())
}

/// A root of 512 bytes without a head, as it was lent before there were records; a head alone.
fn roots_alone(c: &mut Comparisons, depth: usize) -> Compared {
    let right = c.good(depth);
    for (from, to) in [(HEAD, HEAD + ROOT), (0, ROOT), (0, HEAD), (0, 12)] {
        let mut input = right.clone();
        input["record"] = right["record"][from..to].to_vec();
        c.make_so("a root without a head", &input, Err(Stop::Length))?;
    }
    Ok(())
}

/// Each later test failed too: 11 comes before it.
fn later_tests(c: &mut Comparisons, depth: usize) -> Compared {
    let later = c.call.tests.iter().skip_while(|test| test.number != RECORD.number).skip(1);
    for test in later {
        for turn in 0..turns(depth, CAUSES.len()) {
            let mut input = c.good(depth);
            (test.spoil)(&mut input, &mut c.random);
            spoil(&mut input, turn % CAUSES.len(), &mut c.random);
            c.make_so("a wrong record and a later cause", &input, Err(Stop::WrongRecord))?;
        }
    }
    Ok(())
}
