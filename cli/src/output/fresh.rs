//! New files and folders under names that nobody can foretell.

use super::old::{Old, Rights};
use cedunmi_system::Folder;
use std::collections::hash_map::RandomState;
use std::ffi::{OsStr, OsString};
use std::fs::File;
use std::hash::{BuildHasher, Hasher};
use std::io::{self, ErrorKind, Write};

const TRIES: usize = 100;

/// A name of 64 random bits: the standard library takes its hasher's keys from the system's random numbers.
pub fn name() -> OsString {
    format!(".cedunmi-{:016x}", RandomState::new().build_hasher().finish()).into()
}

/// Makes something under a name that was free.
fn make<T>(with: impl Fn(&OsStr) -> io::Result<T>) -> io::Result<(OsString, T)> {
    let mut fresh = name();
    for _ in 0..TRIES {
        match with(&fresh) {
            Err(error) if error.kind() == ErrorKind::AlreadyExists => fresh = name(),
            other => return other.map(|made| (fresh, made)),
        }
    }
    Err(ErrorKind::AlreadyExists.into())
}

/// A new file. Where it gets rights in the end, nobody else has any until then.
pub fn file(folder: &Folder, rights: Option<Rights>) -> io::Result<(OsString, File)> {
    make(|name| folder.create(name, rights.map_or(0o666, |_| 0o600)))
}

/// A new folder, alike, to be entered.
pub fn folder(folder: &Folder, rights: Option<Rights>) -> io::Result<OsString> {
    make(|name| folder.make(name, rights.map_or(0o777, |_| 0o700))).map(|(name, ())| name)
}

/// Writes a file, so that it is on the disk.
pub fn fill(mut file: File, bytes: &[u8], rights: Option<Rights>) -> io::Result<()> {
    file.write_all(bytes)?;
    if let Some(rights) = rights {
        rights.give(&file)?;
    }
    file.sync_all()
}

/// Enters a folder that was just made; one that somebody put in its place is not ours.
pub fn enter(parent: &Folder, name: &OsStr) -> io::Result<Folder> {
    let folder = parent.enter(name)?;
    match folder.is_ours()? {
        true => Ok(folder),
        false => Err(ErrorKind::PermissionDenied.into()),
    }
}

/// Writes the files of a new folder.
pub fn fill_folder(folder: &Folder, files: &[(&str, &[u8])], old: Option<&Old>) -> io::Result<()> {
    for (name, bytes) in files {
        let rights = old.and_then(|old| old.rights_of(name));
        let file = folder.create(OsStr::new(name), rights.map_or(0o666, |_| 0o600))?;
        fill(file, bytes, rights)?;
    }
    if let Some(old) = old {
        old.rights.give(folder.as_file())?;
    }
    folder.sync()
}

/// Takes away a folder with no files but of these names, the folder itself being open.
pub fn remove_folder(
    parent: &Folder,
    name: &OsStr,
    folder: Option<&Folder>,
    names: &[&str],
) -> io::Result<()> {
    for held in names {
        if let Some(folder) = folder {
            // What is not there need not go; what can't go keeps the folder.
            let _ = folder.remove(OsStr::new(held));
        }
    }
    parent.remove_folder(name)
}
