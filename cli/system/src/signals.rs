//! Signals.

use std::os::raw::c_int;

extern "C" {
    fn signal(number: c_int, action: usize) -> usize;
    fn pthread_sigmask(how: c_int, set: *const Signals, old: *mut Signals) -> c_int;
}

const SIG_IGN: usize = 1;
const SIG_BLOCK: c_int = 0;
const SIG_SETMASK: c_int = 2;

/// Sent where a file grows over a limit; it ends a program that does not ignore it.
const SIGXFSZ: c_int = 25;

/// Signals that don't wait: SIGILL, SIGTRAP, SIGABRT, SIGBUS, SIGFPE, SIGSEGV and SIGSYS, which a fault sends; SIGCHLD,
/// SIGCONT, SIGTSTP, SIGTTIN and SIGTTOU, which end nothing.
const NOW: [u32; 12] = [4, 5, 6, 7, 8, 11, 31, 17, 18, 20, 21, 22];

/// A set of signals: bit n−1 is that of signal n.
#[repr(C)]
struct Signals([u64; 16]);

/// All but those.
fn waiting() -> Signals {
    let mut set = Signals([0; 16]);
    set.0[0] = NOW.iter().fold(u64::MAX, |set, number| set & !(1 << (number - 1)));
    set
}

/// Makes of a limit on the size of files an error of the write that meets it.
pub fn ignore_size_limit() {
    // SAFETY: to ignore a signal runs no code of ours.
    unsafe { signal(SIGXFSZ, SIG_IGN) };
}

/// Signals that would end the program wait until this is dropped.
pub struct Held(Signals);

impl Held {
    pub fn begin() -> Held {
        let mut before = Signals([0; 16]);
        // SAFETY: both sets are as large as the C library's.
        unsafe { pthread_sigmask(SIG_BLOCK, &waiting(), &mut before) };
        Held(before)
    }
}

impl Drop for Held {
    fn drop(&mut self) {
        // SAFETY: this is what was there before; there is no place for what is there now.
        unsafe { pthread_sigmask(SIG_SETMASK, &self.0, std::ptr::null_mut()) };
    }
}
