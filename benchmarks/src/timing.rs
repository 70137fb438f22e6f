//! Hashers timed in turns, so that what else the machine does falls on all of
//! them alike.

use crate::clock;
use crate::sha256::{Hasher, HASHERS};

/// The timed lengths, each with the number of messages in one trial.
const LENGTHS: [(usize, usize); 2] = [(256, 2048), (1 << 20, 1)];

/// The bytes that messages are cut from.
fn bytes() -> Vec<u8> {
    (0..1u32 << 20).map(|i| (i.wrapping_mul(2_654_435_761) >> 13) as u8).collect()
}

/// Fails unless all hashers give the same digests.
pub fn check() -> Result<(), String> {
    let bytes = bytes();
    for len in (0..400).chain([1 << 20]) {
        let digests = HASHERS.iter().map(|hasher| digest(hasher, &bytes[..len]));
        if !digests.clone().zip(digests.skip(1)).all(|(one, next)| one == next) {
            return Err(format!("digests differ at length {len}"));
        }
    }
    Ok(())
}

fn digest(hasher: &Hasher, message: &[u8]) -> [u8; 32] {
    let mut digest = [0; 32];
    (hasher.hash)(message, &mut digest);
    digest
}

/// Prints the shortest time of each hasher and length over the trials.
pub fn time(trials: usize, hashers: &[&Hasher]) -> Result<(), String> {
    let bytes = bytes();
    let mut best = vec![[f64::INFINITY; LENGTHS.len()]; hashers.len()];
    for _ in 0..trials {
        for (hasher, best) in hashers.iter().zip(&mut best) {
            for ((len, times), best) in LENGTHS.into_iter().zip(best) {
                let start = clock::now();
                hash(hasher, &bytes[..len], times);
                *best = best.min((clock::now() - start) / times as f64);
            }
        }
    }
    for (hasher, best) in hashers.iter().zip(&best) {
        for ((len, _), best) in LENGTHS.iter().zip(best) {
            println!("{} {len} {best:.1}", hasher.name);
        }
    }
    Ok(())
}

/// Hashes one message many times.
pub fn work(hasher: &Hasher, len: usize, times: usize) -> Result<(), String> {
    let bytes = bytes();
    let message = bytes.get(..len).ok_or(format!("{len}: at most {}", bytes.len()))?;
    hash(hasher, message, times);
    Ok(())
}

fn hash(hasher: &Hasher, message: &[u8], times: usize) {
    let mut digest = [0; 32];
    for _ in 0..times {
        (hasher.hash)(message, &mut digest);
    }
}
