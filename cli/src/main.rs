//! The command `cedunmi`: reads files, makes a call of the proved library, and writes what it gives, whole or
//! not at all. `help.txt` is its manual in short.

#![forbid(unsafe_code)]

mod answer;
mod arguments;
mod attempt;
mod commands;
mod coverage;
mod depths;
mod explain;
mod failure;
mod help;
mod input;
mod kind;
mod members;
mod name;
mod output;
mod paths;
mod printed;
mod progress;
mod record;
mod report;
mod said;
mod typed;
mod volume;

use arguments::Arguments;
use std::process::exit;

fn main() {
    cedunmi_system::ignore_size_limit();
    let words = std::env::args_os().skip(1).collect();
    let status = match Arguments::parse(words).and_then(|arguments| commands::run(&arguments)) {
        Ok(status) => status,
        Err(failure) => {
            said::failure(&failure);
            failure.status
        }
    };
    exit(i32::from(status));
}
