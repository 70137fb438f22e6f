//! Makes all comparisons. It stops at the first difference.

use differential::comparisons::compare;
use differential::difference::Failure;
use differential::library::Library;
use differential::met::Met;
use differential::{listing, CALLS};
use std::process::ExitCode;

fn all() -> Result<(), (&'static str, Failure)> {
    let library = Library::linked();
    let report = |name, result: Result<Met, Failure>| {
        result.map(|met| println!("differential: {name}: {met}")).map_err(|failure| (name, failure))
    };
    CALLS.iter().try_for_each(|call| report(call.name, compare(call, &library)))?;
    report("listing", listing::compare(listing::program))
}

fn main() -> ExitCode {
    match all() {
        Ok(()) => ExitCode::SUCCESS,
        Err((name, failure)) => {
            eprintln!("differential: {name}: {failure}");
            ExitCode::FAILURE
        }
    }
}
