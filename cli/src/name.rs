//! Names of files, which may have any byte, as they are shown.

use std::ffi::OsStr;
use std::os::unix::ffi::OsStrExt;

/// The name as it is where every character can be seen; else in quotes, with the others as escapes.
pub fn shown(name: impl AsRef<OsStr>) -> String {
    let name = name.as_ref();
    match name.to_str() {
        Some(text) if !text.is_empty() && !text.chars().any(hidden) => text.to_string(),
        _ => format!("\"{}\"", escaped(name)),
    }
}

fn hidden(c: char) -> bool {
    c.is_control()
        || matches!(c, '\u{200b}'..='\u{200f}' | '\u{2028}'..='\u{202e}' | '\u{2066}'..='\u{2069}')
}

fn escaped(name: &OsStr) -> String {
    let mut text = String::new();
    for &byte in name.as_bytes() {
        match byte {
            b'\n' => text.push_str("\\n"),
            b'\\' | b'"' => text.extend(['\\', byte.into()]),
            b' '..=b'~' => text.push(byte.into()),
            _ => text.push_str(&format!("\\x{byte:02x}")),
        }
    }
    text
}

#[cfg(test)]
mod tests {
    use super::*;

    #[test]
    fn names_are_shown_in_one_line() {
        assert_eq!(shown("a b\\c"), "a b\\c");
        assert_eq!(shown("é"), "é");
        assert_eq!(shown("a\nb"), "\"a\\nb\"");
        assert_eq!(shown(OsStr::from_bytes(b"\xff\"\x1b[1m")), "\"\\xff\\\"\\x1b[1m\"");
        assert_eq!(shown(""), "\"\"");
        for byte in 1..=255u8 {
            assert!(!shown(OsStr::from_bytes(&[byte])).contains(|c: char| c.is_control()));
        }
    }
}
