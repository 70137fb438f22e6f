//! The commands: each reads its files, makes a call, and writes what the call gives.

mod check;
mod check_proof;
mod check_sample;
mod check_table;
mod code;
mod explain;
mod help;
mod in_place;
mod read;
mod recode;
mod record;
mod repair;
mod sample;
mod sha256;
mod table;
mod typed;

use crate::arguments::Arguments;
use crate::failure::Failure;
use crate::said;

/// The exit status of a command that did its work.
pub type Done = Result<u8, Failure>;

pub fn run(arguments: &Arguments) -> Done {
    match arguments.command {
        "table" if arguments.options.for_volume => table::for_volume(arguments),
        "table" => table::run(arguments),
        "check-table" => check_table::run(arguments),
        "code" => code::run(arguments),
        "recode" => recode::run(arguments),
        "record" => record::run(arguments),
        "typed" => typed::run(arguments),
        "sample" => sample::run(arguments),
        "check-sample" => check_sample::run(arguments),
        "check" => check::run(arguments),
        "repair" if arguments.options.in_place => in_place::run(arguments),
        "repair" => repair::run(arguments),
        "check-proof" => check_proof::run(arguments),
        "read" if arguments.options.unverified => read::unverified(arguments),
        "read" => read::run(arguments),
        "explain" => explain::run(arguments),
        "sha256" => sha256::run(arguments),
        "version" => told(arguments, concat!("cedunmi ", env!("CARGO_PKG_VERSION"))),
        _ => help::run(arguments),
    }
}

/// A report of one line, and all is well.
fn told(arguments: &Arguments, line: &str) -> Done {
    if !arguments.options.quiet {
        said::report(&format!("{line}\n"))?;
    }
    Ok(0)
}

/// The same where files have been written.
fn made(arguments: &Arguments, line: &str) -> Done {
    told(arguments, line).map_err(Failure::placed)
}
