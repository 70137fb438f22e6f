//! OpenSSL's SHA-256, by the functions of <openssl/sha.h> that set up nothing
//! else: for short messages they are its fastest.

use std::os::raw::{c_int, c_uint, c_void};

/// `SHA256_CTX`.
#[repr(C)]
struct Context {
    h: [c_uint; 8],
    length: [c_uint; 2],
    data: [c_uint; 16],
    used: c_uint,
    digest_len: c_uint,
}

#[link(name = "crypto")]
extern "C" {
    fn SHA256_Init(context: *mut Context) -> c_int;
    fn SHA256_Update(context: *mut Context, data: *const c_void, len: usize) -> c_int;
    fn SHA256_Final(digest: *mut u8, context: *mut Context) -> c_int;
}

pub fn sha256(message: &[u8], digest: &mut [u8; 32]) {
    let mut context = Context { h: [0; 8], length: [0; 2], data: [0; 16], used: 0, digest_len: 0 };
    // SAFETY: the context is laid out as OpenSSL's; the message's pointer goes with its length;
    // SHA-256's digest has 32 bytes.
    unsafe {
        SHA256_Init(&mut context);
        SHA256_Update(&mut context, message.as_ptr().cast(), message.len());
        SHA256_Final(digest.as_mut_ptr(), &mut context);
    }
}
