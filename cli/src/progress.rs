//! What is being waited for, told after half a second.

use crate::said;
use std::sync::mpsc::{channel, RecvTimeoutError};
use std::thread;
use std::time::Duration;

/// Does something that may take long, and tells a terminal so.
pub fn during<T>(quiet: bool, what: &str, work: impl FnOnce() -> T) -> T {
    told(quiet || !cedunmi_system::terminal(), what, work)
}

/// The same, and tells whoever reads standard error.
pub fn told<T>(quiet: bool, what: &str, work: impl FnOnce() -> T) -> T {
    if quiet {
        return work();
    }
    let (ended, waiting) = channel::<()>();
    let line = format!("{what} ..");
    // Where no thread can be had, nothing is told.
    let watch = thread::Builder::new().spawn(move || {
        if waiting.recv_timeout(Duration::from_millis(500)) == Err(RecvTimeoutError::Timeout) {
            said::remark(&line);
        }
    });
    let answer = work();
    drop(ended);
    let _ = watch.map(thread::JoinHandle::join);
    answer
}
