//! The system's own SHA-256.

use crate::programs;

/// The digest that `sha256sum` prints for a message on its standard input.
pub fn sha256(message: &[u8]) -> [u8; 32] {
    let line = programs::run("sha256sum", message);
    let line = String::from_utf8_lossy(&line);
    let mut digest = [0; 32];
    for (i, byte) in digest.iter_mut().enumerate() {
        let digits = line.get(2 * i..2 * i + 2).expect("sha256sum: a digest");
        *byte = u8::from_str_radix(digits, 16).expect("sha256sum: a digest");
    }
    digest
}
