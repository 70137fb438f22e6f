//! `sha256 FILE`

use super::Done;
use crate::arguments::Arguments;
use crate::input::{stopped, Reader};
use crate::kind::Kind;
use crate::printed::hex;
use crate::said;
use std::ffi::OsStr;
use std::os::unix::ffi::OsStrExt;

pub fn run(arguments: &Arguments) -> Done {
    let [word] = arguments.take()?;
    let input = Reader::new(arguments.options.quiet).read(word, Kind::Message)?;
    let digest = cedunmi::sha256(&input.bytes).map_err(|stop| stopped(stop, 1, &[&input]))?;
    said::data(&line(&digest, word))?;
    Ok(0)
}

/// The line that the system's sha256sum prints: of a name with one of three bytes, it begins with a backslash, and
/// these are escaped.
fn line(digest: &[u8], name: &OsStr) -> Vec<u8> {
    let mut line = Vec::new();
    if name.as_bytes().iter().any(|byte| b"\\\n\r".contains(byte)) {
        line.push(b'\\');
    }
    line.extend(hex(digest).bytes());
    line.extend(b"  ");
    for byte in name.as_bytes() {
        match byte {
            b'\\' => line.extend(b"\\\\"),
            b'\n' => line.extend(b"\\n"),
            b'\r' => line.extend(b"\\r"),
            _ => line.push(*byte),
        }
    }
    line.push(b'\n');
    line
}
