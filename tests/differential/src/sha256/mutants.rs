//! Wrong hashers.

use super::{system_tool, DIGEST, LONGEST, SHA256 as CALL};
use crate::comparisons::Comparisons;
use crate::difference::Difference;
use crate::input::Input;
use crate::library::{buffers, by, right, Library};
use crate::mutants::described::flipping;
use crate::mutants::{find, wrong};
use crate::random::Random;

/// `right`, and then a change to the digest, where the message is a hit.
fn right_but(i: &mut Input, hit: impl Fn(&[u8]) -> bool) -> u64 {
    let result = right(i);
    if result == 0 && hit(&i["message"]) {
        i["digest"][0] ^= 1;
    }
    result
}

wrong!(at_one_length, Difference::Inside { buffer: "digest", at: 0, .. }, |i| {
    right_but(i, |message| message.len() == 4087)
});

wrong!(length_of_16_bits, Difference::Inside { buffer: "digest", at: 0, .. }, |i| {
    right_but(i, |message| message.len() >= 1 << 16)
});

wrong!(two_wrong_lengths_taken, Difference::Result { expected: 2, found: 0 }, |i| {
    if i["message"].len() > LONGEST && i["digest"].len() != DIGEST {
        return 0;
    }
    right(i)
});

#[test]
fn at_one_alignment() {
    let function = flipping(
        &CALL,
        1,
        |_| Some(0),
        |result, words| {
            let (message, len) = buffers(words)[0];
            result == 0 && len == 1000 && message as usize % 64 == 61
        },
    );
    let place = |d: &Difference| matches!(d, Difference::Inside { buffer: "digest", at: 0, .. });
    find(&CALL, "at one alignment", function, place).unwrap();
}

#[test]
fn writes_where_an_empty_digest_is() {
    let function = flipping(&CALL, 1, |_| Some(0), |_, words| buffers(words)[1].1 == 0);
    let place = |d: &Difference| matches!(d, Difference::Outside { buffer: "digest", at: 0 });
    find(&CALL, "where an empty digest is", function, place).unwrap();
}

/// The system's tool finds what the reference would not.
#[test]
fn system_tool_finds_a_wrong_digest() {
    let library = Library::right().with(&CALL, by(&CALL, |i| right_but(i, |_| true)));
    let mut comparisons = Comparisons::of(&CALL, &library, Random::new(1));
    let failure = system_tool(&mut comparisons).expect_err("it passed");
    assert!(matches!(failure.difference, Difference::Inside { buffer: "digest", at: 0, .. }));
}
