//! `explain NUMBER`

use super::Done;
use crate::arguments::{decimal, Arguments};
use crate::explain;
use crate::failure::Failure;
use crate::said;

pub fn run(arguments: &Arguments) -> Done {
    let [number] = arguments.take()?;
    let number = decimal("NUMBER", number)?;
    let known = "numbers are 0 to 14, and the exit statuses of cedunmi help";
    said::report(&explain::of(number).ok_or_else(|| Failure::usage(known))?)?;
    Ok(0)
}
