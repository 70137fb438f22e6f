//! A fuzz target for each call of the library. What libFuzzer makes is read as a
//! recipe for what the call is lent, and the call is compared with the reference
//! as `differential` does. A difference ends the process, which libFuzzer reports.

mod calls;
mod edits;
mod recipe;

#[cfg(test)]
mod tests;

use calls::TARGETS;
use differential::library::Library;
use recipe::Recipe;
use std::ffi::CStr;
use std::os::raw::{c_char, c_int};
use std::process::exit;
use std::slice;
use std::sync::atomic::{AtomicUsize, Ordering};

const OPTION: &str = "--call=";

/// The call that this process fuzzes: its index in `TARGETS`.
static CALL: AtomicUsize = AtomicUsize::new(0);

thread_local!(static LIBRARY: Library = Library::linked());

/// Reads the option that names the call.
///
/// # Safety
/// The pointers are those to the arguments of `main`.
#[no_mangle]
pub unsafe extern "C" fn LLVMFuzzerInitialize(
    count: *const c_int,
    arguments: *const *const *const c_char,
) -> c_int {
    let words = slice::from_raw_parts(*arguments, *count as usize);
    let named =
        words.iter().find_map(|&word| CStr::from_ptr(word).to_str().ok()?.strip_prefix(OPTION));
    match TARGETS.iter().position(|target| Some(target.call.name) == named) {
        Some(index) => CALL.store(index, Ordering::Relaxed),
        None => {
            let names: Vec<&str> = TARGETS.iter().map(|target| target.call.name).collect();
            eprintln!("fuzz: {OPTION} must be one of {}", names.join(" "));
            exit(2);
        }
    }
    0
}

/// Makes the call that the bytes describe.
///
/// # Safety
/// The pointer goes to as many bytes as the length says.
#[no_mangle]
pub unsafe extern "C" fn LLVMFuzzerTestOneInput(bytes: *const u8, len: usize) -> c_int {
    let bytes = if len == 0 { &[] } else { slice::from_raw_parts(bytes, len) };
    let target = TARGETS[CALL.load(Ordering::Relaxed)];
    let made = LIBRARY.with(|library| target.make(library, &mut Recipe::new(bytes)));
    if let Err(failure) = made {
        eprintln!("fuzz: {failure}");
        std::process::abort();
    }
    0
}
