//! What ends a command before its end: a status, and lines for standard error.

use cedunmi::Stop;
use std::io;

/// Exit statuses that are no number of a call, as sysexits.h has them.
pub const USAGE: u8 = 64;
pub const SLIP: u8 = 65;
pub const UNREADABLE: u8 = 66;
pub const UNKNOWN: u8 = 70;
pub const NOT_MADE: u8 = 73;
pub const NOT_WRITTEN: u8 = 74;

/// `check` and `read`: the tree is damaged, and a repair makes it whole.
pub const DAMAGED: u8 = 30;
/// The ends of a repair begin here, with 30 added to their number.
pub const ENDS: u8 = 30;

#[derive(Debug)]
pub struct Failure {
    pub status: u8,
    pub lines: Vec<String>,
}

impl Failure {
    pub fn new(status: u8, line: impl Into<String>) -> Failure {
        Failure { status, lines: vec![line.into()] }
    }

    pub fn usage(line: impl Into<String>) -> Failure {
        Failure::new(USAGE, line)
    }

    /// A failure of the system while a file is made or written: some say that there is no room.
    pub fn system(name: &str, error: &io::Error, otherwise: u8) -> Failure {
        const EIO: i32 = 5;
        const EFBIG: i32 = 27;
        const ENOSPC: i32 = 28;
        const EDQUOT: i32 = 122;
        let status = match error.raw_os_error() {
            Some(EIO | EFBIG | ENOSPC | EDQUOT) => NOT_WRITTEN,
            _ => otherwise,
        };
        Failure::new(status, format!("{name}: {}", words(error)))
    }

    /// A call that stopped.
    pub fn stopped(stop: Stop) -> Failure {
        match stop {
            Stop::Unknown { .. } => Failure::new(UNKNOWN, stop.to_string()),
            _ => Failure::numbered(stop, &stop.to_string()),
        }
    }

    /// A stop in words of our own, with its number.
    pub fn numbered(stop: Stop, words: &str) -> Failure {
        let number = stop.number();
        Failure::new(number, format!("{words} (number {number}: cedunmi explain {number})"))
    }

    /// What failed after files were written.
    pub fn placed(self) -> Failure {
        self.and("the files are in their places")
    }

    pub fn and(mut self, line: impl Into<String>) -> Failure {
        self.lines.push(line.into());
        self
    }
}

/// What the system says, without its number.
pub fn words(error: &io::Error) -> String {
    let text = error.to_string();
    match text.find(" (os error") {
        Some(at) => text[..at].to_string(),
        None => text,
    }
}
