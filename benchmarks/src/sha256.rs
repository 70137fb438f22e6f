//! The implementations of SHA-256 that are compared.

use crate::openssl;
use sha2::{Digest, Sha256};

pub struct Hasher {
    pub name: &'static str,
    pub hash: fn(&[u8], &mut [u8; 32]),
}

pub static HASHERS: [Hasher; 4] = [
    Hasher { name: "cedunmi", hash: cedunmi },
    Hasher { name: "reference", hash: reference },
    Hasher { name: "rustcrypto", hash: rustcrypto },
    Hasher { name: "openssl", hash: openssl::sha256 },
];

fn cedunmi(message: &[u8], digest: &mut [u8; 32]) {
    cedunmi_sys::cmt_sha256(message, digest);
}

fn reference(message: &[u8], digest: &mut [u8; 32]) {
    *digest = reference::sha256::sha256(message);
}

fn rustcrypto(message: &[u8], digest: &mut [u8; 32]) {
    *digest = Sha256::digest(message).into();
}
