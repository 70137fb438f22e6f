//! `check [DEPTH] RECORD TABLE TREE MARKS`

use super::Done;
use crate::answer::{self, Shown};
use crate::arguments::Arguments;
use crate::attempt::Attempt;
use crate::input::Reader;
use crate::said;

pub fn run(arguments: &Arguments) -> Done {
    let (depth, words) = arguments.take_after_depth()?;
    let mut reader = Reader::new(arguments.options.quiet);
    let attempt = Attempt::read(&mut reader, depth, words)?;
    let after = attempt.repair()?;
    if !arguments.options.quiet {
        said::report(&after.report(&Shown::Nowhere))?;
    }
    Ok(answer::status_as_is(&after.repaired))
}
