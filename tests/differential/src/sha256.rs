//! `cmt_sha256` beside the reference and the system's own tool.

#[cfg(test)]
mod mutants;

use crate::call::Argument::{Read, Written};
use crate::call::{Call, Length, CALL};
use crate::comparisons::Comparisons;
use crate::difference::{Compared, Failure};
use crate::input::Input;
use crate::lent::ALIGNMENTS;
use crate::messages::{lengths, Content, CONTENTS, EDGES, LONGEST, TOO_LONG};
use crate::random::Random;
use crate::stops::LENGTHS;
use crate::system;
use reference::sha256::sha256;

pub static SHA256: Call = Call {
    name: "sha256",
    arguments: &[
        Read("message", Length::Within { least: 0, most: LONGEST, step: 1 }),
        Written("digest", Length::Of(|_| DIGEST)),
    ],
    tests: &[LENGTHS],
    good: |_, random| {
        let len = random.below(300);
        hashed(Content::Random, len, random)
    },
    reference: |i| {
        if i["message"].len() > LONGEST || i["digest"].len() != DIGEST {
            return 2;
        }
        i["digest"] = sha256(&i["message"]).to_vec();
        0
    },
    own: &[every_length, every_alignment, random_lengths, refusals, system_tool],
    least: &[("end 0", 6000), ("2", 150)],
    ..CALL
};

pub const DIGEST: usize = 32;
const WRONG_DIGESTS: [usize; 5] = [0, 1, 31, 33, 64];

/// A message of this kind, and a buffer for its digest.
fn hashed(content: Content, len: usize, random: &mut Random) -> Input {
    let message = content.message(len, random);
    Input::new(&SHA256, [], [message, random.bytes(DIGEST)])
}

fn every_length(c: &mut Comparisons) -> Compared {
    for len in lengths() {
        for content in CONTENTS {
            let input = hashed(content, len, &mut c.random);
            c.make_done("a length", &input)?;
        }
    }
    Ok(())
}

fn every_alignment(c: &mut Comparisons) -> Compared {
    for len in EDGES {
        let input = hashed(Content::Random, len, &mut c.random);
        for alignment in 0..ALIGNMENTS {
            for buffer in 0..2 {
                c.make_at("an alignment", &input, |b| {
                    Some(if b == buffer { alignment } else { 0 })
                })?;
            }
        }
    }
    Ok(())
}

fn random_lengths(c: &mut Comparisons) -> Compared {
    for limit in [1 << 10, 1 << 14, 1 << 17] {
        for _ in 0..200 {
            let len = c.random.below(limit);
            let input = hashed(Content::Random, len, &mut c.random);
            c.make_done("a random length", &input)?;
        }
    }
    Ok(())
}

/// A message that is too long, a digest of a wrong length, and both.
fn refusals(c: &mut Comparisons) -> Compared {
    for len in TOO_LONG.into_iter().chain(EDGES).chain([LONGEST]) {
        for digest in WRONG_DIGESTS.into_iter().chain([DIGEST]) {
            let mut input = hashed(Content::Random, len, &mut c.random);
            input["digest"].resize(digest, 1);
            c.make("a length", &input)?;
        }
    }
    Ok(())
}

/// The system's tool in the place of the reference.
fn system_tool(c: &mut Comparisons) -> Compared {
    for len in EDGES.into_iter().chain([65_537, LONGEST]) {
        for content in [Content::Counting, Content::Random] {
            let input = hashed(content, len, &mut c.random);
            let mut after = input.clone();
            after["digest"] = system::sha256(&input["message"]).to_vec();
            c.met.made += 1;
            c.lend(&input, &after, 0, |_| None)
                .map_err(|difference| Failure { call: input.description(), difference })?;
        }
    }
    Ok(())
}
