//! The program that `benchmarks/run` times and counts.
//!
//!     benchmarks check                  whether all hashers give the same digests, and the worst tables are as they are described
//!     benchmarks time TRIALS NAME..     prints NAME, LENGTH and the fewest nanoseconds a message
//!     benchmarks work NAME LENGTH N     hashes N messages and prints nothing
//!     benchmarks table TRIALS           prints NAME, WORDS and the fewest nanoseconds to read a table
//!     benchmarks tree TRIALS            prints NAME, DEPTH, BYTES and the fewest nanoseconds to write a tree
//!     benchmarks repair TRIALS          prints NAME, CASE, DEPTH, SYMBOLS and the fewest nanoseconds to repair a tree
//!     benchmarks searches               prints CASE, DEPTH, SYMBOLS and the equations that a search looks at that goes back
//!     benchmarks checks TRIALS          prints NAME, proof, long or sample, DEPTH, BYTES and the fewest nanoseconds to check it
//!     benchmarks kinds TRIALS           prints plain or placed, CALL, DEPTH and the fewest nanoseconds of the call by a volume of that kind
//!
//! With BENCHMARKS_DEPTH set to a depth, the library's calls alone are timed, to that depth.

mod checks;
mod clock;
mod depths;
mod kinds;
mod openssl;
mod repair;
mod sha256;
mod table;
mod timing;
mod tree;
mod turns;
mod volume;

use linear::worst;
use std::process::ExitCode;

const USAGE: &str = "usage: check | time TRIALS NAME.. | work NAME LENGTH N | table TRIALS | \
    tree TRIALS | repair TRIALS | searches | checks TRIALS | kinds TRIALS";

fn main() -> ExitCode {
    let words: Vec<String> = std::env::args().skip(1).collect();
    let words: Vec<&str> = words.iter().map(String::as_str).collect();
    match run(&words) {
        Ok(()) => ExitCode::SUCCESS,
        Err(message) => {
            eprintln!("benchmarks: {message}");
            ExitCode::FAILURE
        }
    }
}

fn run(words: &[&str]) -> Result<(), String> {
    match words {
        ["check"] => timing::check().and_then(|()| worst::check()),
        ["time", trials, names @ ..] => timing::time(number(trials)?, &hashers(names)?),
        ["work", name, len, times] => timing::work(hasher(name)?, number(len)?, number(times)?),
        ["table", trials] => table::time(number(trials)?),
        ["tree", trials] => tree::time(number(trials)?),
        ["repair", trials] => repair::time(number(trials)?),
        ["searches"] => repair::count(),
        ["checks", trials] => checks::time(number(trials)?),
        ["kinds", trials] => kinds::time(number(trials)?),
        _ => Err(USAGE.to_string()),
    }
}

fn number(word: &str) -> Result<usize, String> {
    word.parse().map_err(|_| format!("{word}: not a number"))
}

fn hasher(name: &str) -> Result<&'static sha256::Hasher, String> {
    let named = sha256::HASHERS.iter().find(|hasher| hasher.name == name);
    named.ok_or_else(|| format!("{name}: no such hasher"))
}

fn hashers(names: &[&str]) -> Result<Vec<&'static sha256::Hasher>, String> {
    names.iter().map(|name| hasher(name)).collect()
}
