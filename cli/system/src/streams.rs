//! The standard streams as files, so that no error is lost: the standard library's own take a stream that can't be
//! read or written for an empty one.

use std::fs::File;
use std::io;
use std::os::raw::c_int;
use std::os::unix::io::AsFd;
use std::sync::atomic::{AtomicBool, Ordering};

extern "C" {
    fn fcntl(file: c_int, command: c_int) -> c_int;
    fn isatty(file: c_int) -> c_int;
}

const F_GETFD: c_int = 1;
const STDIN: c_int = 0;
const STDOUT: c_int = 1;
const STDERR: c_int = 2;

static INPUT_CLOSED: AtomicBool = AtomicBool::new(false);
static OUTPUT_CLOSED: AtomicBool = AtomicBool::new(false);

/// Runs before Rust's own start, which opens /dev/null where a stream is closed.
extern "C" fn look() {
    let closed = |stream| {
        // SAFETY: it takes any number.
        unsafe { fcntl(stream, F_GETFD) < 0 }
    };
    INPUT_CLOSED.store(closed(STDIN), Ordering::Relaxed);
    OUTPUT_CLOSED.store(closed(STDOUT), Ordering::Relaxed);
}

#[used]
#[link_section = ".init_array"]
static LOOK: extern "C" fn() = look;

fn stream(closed: &AtomicBool, stream: impl AsFd) -> io::Result<File> {
    const EBADF: i32 = 9;
    if closed.load(Ordering::Relaxed) {
        return Err(io::Error::from_raw_os_error(EBADF));
    }
    Ok(File::from(stream.as_fd().try_clone_to_owned()?))
}

/// Standard input.
pub fn input() -> io::Result<File> {
    stream(&INPUT_CLOSED, io::stdin())
}

/// Standard output.
pub fn output() -> io::Result<File> {
    stream(&OUTPUT_CLOSED, io::stdout())
}

/// Whether standard error is a terminal.
pub fn terminal() -> bool {
    // SAFETY: it takes any number.
    unsafe { isatty(STDERR) == 1 }
}
