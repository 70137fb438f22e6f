//! Programs, run on bytes that come on standard input.

use std::ffi::OsStr;
use std::io::{self, Write};
use std::process::{Command, Output, Stdio};

/// What a program prints, which must end well and say nothing else.
pub fn run(program: impl AsRef<OsStr>, input: &[u8]) -> Vec<u8> {
    let name = program.as_ref().to_string_lossy();
    let ended = output(program.as_ref(), input).unwrap_or_else(|e| panic!("{name}: {e}"));
    let (status, said) = (ended.status, String::from_utf8_lossy(&ended.stderr));
    assert!(status.success() && said.is_empty(), "{name}: {status}, and said: {said}");
    ended.stdout
}

fn output(program: &OsStr, input: &[u8]) -> io::Result<Output> {
    let mut running = Command::new(program)
        .stdin(Stdio::piped())
        .stdout(Stdio::piped())
        .stderr(Stdio::piped())
        .spawn()?;
    running.stdin.take().expect("a pipe").write_all(input)?;
    running.wait_with_output()
}
