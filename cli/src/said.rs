//! What is said: reports on standard output, failures and remarks on standard error.

use crate::failure::{words, Failure, NOT_WRITTEN};
use std::io::{self, ErrorKind, Write};

/// Lines for standard error. Where nobody can be told, nothing is said.
pub fn remark(line: &str) {
    let _ = writeln!(io::stderr().lock(), "cedunmi: {line}");
}

pub fn failure(failure: &Failure) {
    failure.lines.iter().for_each(|line| remark(line));
}

/// A report. That nobody reads it to its end is no failure.
pub fn report(text: &str) -> Result<(), Failure> {
    match written(text.as_bytes()) {
        Err(error) if error.kind() == ErrorKind::BrokenPipe => Ok(()),
        other => other.map_err(|error| not_written(&error)),
    }
}

/// What a command gives on standard output, all of it.
pub fn data(bytes: &[u8]) -> Result<(), Failure> {
    written(bytes).map_err(|error| not_written(&error))
}

fn written(bytes: &[u8]) -> io::Result<()> {
    cedunmi_system::output()?.write_all(bytes)
}

fn not_written(error: &io::Error) -> Failure {
    Failure::new(NOT_WRITTEN, format!("standard output: {}", words(error)))
}
