//! A folder that is open: whatever happens to the names that led to it, and to links, what is done by a name is done
//! in this folder.

use std::ffi::{CString, OsStr, OsString};
use std::fs::{self, File, Metadata, OpenOptions};
use std::io::{self, ErrorKind};
use std::os::raw::{c_char, c_int, c_uint};
use std::os::unix::ffi::OsStrExt;
use std::os::unix::fs::OpenOptionsExt;
use std::os::unix::io::{AsRawFd, FromRawFd};
use std::path::{Path, PathBuf};

extern "C" {
    fn openat(folder: c_int, name: *const c_char, flags: c_int, ...) -> c_int;
    fn mkdirat(folder: c_int, name: *const c_char, mode: c_uint) -> c_int;
    fn unlinkat(folder: c_int, name: *const c_char, flags: c_int) -> c_int;
    fn linkat(
        old: c_int,
        from: *const c_char,
        new: c_int,
        to: *const c_char,
        flags: c_int,
    ) -> c_int;
    fn renameat2(
        old: c_int,
        from: *const c_char,
        new: c_int,
        to: *const c_char,
        flags: c_uint,
    ) -> c_int;
    fn flock(file: c_int, operation: c_int) -> c_int;
    fn fchown(file: c_int, owner: c_uint, group: c_uint) -> c_int;
    fn geteuid() -> c_uint;
}

const O_WRONLY: c_int = 0o1;
const O_CREAT: c_int = 0o100;
const O_EXCL: c_int = 0o200;
const O_DIRECTORY: c_int = 0o200_000;
const O_NOFOLLOW: c_int = 0o400_000;
const O_CLOEXEC: c_int = 0o2_000_000;
const O_PATH: c_int = 0o10_000_000;
const AT_REMOVEDIR: c_int = 0x200;
const LOCK_EX: c_int = 2;
const LOCK_NB: c_int = 4;

/// How a name is changed, in one step.
#[derive(Clone, Copy, Debug)]
pub enum Rename {
    /// What bears the other name goes.
    Replace = 0,
    /// The other name must be free.
    New = 1,
    /// What bears the other name then bears the first.
    Exchange = 2,
}

#[derive(Debug)]
pub struct Folder {
    file: File,
    path: PathBuf,
}

/// What a call answers that is not negative; one that was interrupted is made again.
fn answer(call: impl Fn() -> c_int) -> io::Result<c_int> {
    loop {
        match call() {
            answer if answer >= 0 => return Ok(answer),
            _ => {}
        }
        let error = io::Error::last_os_error();
        if error.kind() != ErrorKind::Interrupted {
            return Err(error);
        }
    }
}

fn done(call: impl Fn() -> c_int) -> io::Result<()> {
    answer(call).map(|_| ())
}

fn text(name: &OsStr) -> io::Result<CString> {
    Ok(CString::new(name.as_bytes())?)
}

impl Folder {
    pub fn open(path: &Path) -> io::Result<Folder> {
        let file = OpenOptions::new().read(true).custom_flags(O_DIRECTORY).open(path)?;
        Ok(Folder { file, path: path.to_path_buf() })
    }

    /// The path by which it was opened.
    pub fn path(&self) -> &Path {
        &self.path
    }

    pub fn metadata(&self) -> io::Result<Metadata> {
        self.file.metadata()
    }

    /// Waits until nobody else has its lock, which ends when it is closed.
    pub fn lock(&self) -> io::Result<()> {
        // SAFETY: the folder is open.
        done(|| unsafe { flock(self.file.as_raw_fd(), LOCK_EX) })
    }

    /// Whether somebody else has its lock; if not, we have it now.
    pub fn is_locked(&self) -> bool {
        // SAFETY: the folder is open.
        let locked = done(|| unsafe { flock(self.file.as_raw_fd(), LOCK_EX | LOCK_NB) });
        matches!(locked, Err(error) if error.kind() == ErrorKind::WouldBlock)
    }

    /// Puts its names on the disk; not every file system knows how.
    pub fn sync(&self) -> io::Result<()> {
        const EINVAL: i32 = 22;
        match self.file.sync_all() {
            Err(error) if error.raw_os_error() == Some(EINVAL) => Ok(()),
            other => other,
        }
    }

    pub fn as_file(&self) -> &File {
        &self.file
    }

    fn opened(&self, name: &OsStr, flags: c_int, mode: c_uint) -> io::Result<File> {
        let (name, here, flags) =
            (text(name)?, self.file.as_raw_fd(), flags | O_NOFOLLOW | O_CLOEXEC);
        // SAFETY: the name ends with a NUL and lives until the call has ended; what is opened is nobody else's.
        let opened = answer(|| unsafe { openat(here, name.as_ptr(), flags, mode) })?;
        Ok(unsafe { File::from_raw_fd(opened) })
    }

    /// What bears a name, if anything does; of a link, the link.
    pub fn look(&self, name: &OsStr) -> io::Result<Option<Metadata>> {
        match self.opened(name, O_PATH, 0) {
            Ok(file) => file.metadata().map(Some),
            Err(error) if error.kind() == ErrorKind::NotFound => Ok(None),
            Err(error) => Err(error),
        }
    }

    /// A file to read, which is no link.
    pub fn read(&self, name: &OsStr) -> io::Result<File> {
        self.opened(name, 0, 0)
    }

    /// A file to write, under a name that was free.
    pub fn create(&self, name: &OsStr, mode: u32) -> io::Result<File> {
        self.opened(name, O_WRONLY | O_CREAT | O_EXCL, mode)
    }

    /// A new folder, under a name that was free.
    pub fn make(&self, name: &OsStr, mode: u32) -> io::Result<()> {
        let name = text(name)?;
        // SAFETY: the name ends with a NUL and lives until the call has ended.
        done(|| unsafe { mkdirat(self.file.as_raw_fd(), name.as_ptr(), mode) })
    }

    /// A folder in it, which is no link.
    pub fn enter(&self, name: &OsStr) -> io::Result<Folder> {
        Ok(Folder { file: self.opened(name, O_DIRECTORY, 0)?, path: self.path.join(name) })
    }

    /// The names in it, by the path that led to it.
    pub fn names(&self) -> io::Result<Vec<OsString>> {
        fs::read_dir(&self.path)?.map(|entry| Ok(entry?.file_name())).collect()
    }

    pub fn rename(&self, from: &OsStr, to: &OsStr, how: Rename) -> io::Result<()> {
        let (from, to, here) = (text(from)?, text(to)?, self.file.as_raw_fd());
        // SAFETY: both names end with a NUL and live until the call has ended.
        done(|| unsafe { renameat2(here, from.as_ptr(), here, to.as_ptr(), how as c_uint) })
    }

    /// Gives a file a second name, which must be free.
    pub fn link(&self, from: &OsStr, to: &OsStr) -> io::Result<()> {
        let (from, to, here) = (text(from)?, text(to)?, self.file.as_raw_fd());
        // SAFETY: both names end with a NUL and live until the call has ended.
        done(|| unsafe { linkat(here, from.as_ptr(), here, to.as_ptr(), 0) })
    }

    pub fn remove(&self, name: &OsStr) -> io::Result<()> {
        self.unlink(name, 0)
    }

    /// Takes away a folder, which must be empty.
    pub fn remove_folder(&self, name: &OsStr) -> io::Result<()> {
        self.unlink(name, AT_REMOVEDIR)
    }

    fn unlink(&self, name: &OsStr, flags: c_int) -> io::Result<()> {
        let name = text(name)?;
        // SAFETY: the name ends with a NUL and lives until the call has ended.
        done(|| unsafe { unlinkat(self.file.as_raw_fd(), name.as_ptr(), flags) })
    }

    /// Whether it belongs to who runs the program.
    pub fn is_ours(&self) -> io::Result<bool> {
        use std::os::unix::fs::MetadataExt;
        // SAFETY: it takes nothing.
        Ok(self.metadata()?.uid() == unsafe { geteuid() })
    }
}

/// Gives a file to an owner and a group, or to the group alone, as the system lets us: whether it has the group.
pub fn give(file: &File, owner: u32, group: u32) -> bool {
    const AS_IT_IS: c_uint = c_uint::MAX;
    let own = |owner| {
        // SAFETY: the file is open.
        done(|| unsafe { fchown(file.as_raw_fd(), owner, group) }).is_ok()
    };
    own(owner) || own(AS_IT_IS)
}
