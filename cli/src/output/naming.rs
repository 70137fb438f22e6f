//! Names given in one step, or, where the file system does not know how, in the nearest that it does.

use super::fresh;
use super::old::Rights;
use crate::failure::words;
use crate::input::identity;
use crate::name::shown;
use cedunmi_system::{Folder, Rename};
use std::ffi::{OsStr, OsString};
use std::io::{self, ErrorKind};

/// What became of what bore the name.
pub enum Placed {
    /// The name was free.
    New,
    /// It bears this name now.
    Old(OsString),
    /// A copy of it does, on a file system that has neither exchanges nor second names; of what, is told by its inode.
    Copy(OsString, (u64, u64)),
}

/// Whether the file system doesn't know how to change names so.
fn unknown(error: &io::Error) -> bool {
    const EINVAL: i32 = 22;
    const ENOSYS: i32 = 38;
    const EOPNOTSUPP: i32 = 95;
    matches!(error.raw_os_error(), Some(EINVAL | ENOSYS | EOPNOTSUPP))
}

/// Whether it has no second names.
fn unlinked(error: &io::Error) -> bool {
    const EPERM: i32 = 1;
    unknown(error) || error.raw_os_error() == Some(EPERM)
}

/// Gives something a name that must be free. Without a step for that a folder replaces no more than an empty one, and
/// a file gets a second name first.
pub fn place_new(folder: &Folder, from: &OsStr, to: &OsStr, is_folder: bool) -> io::Result<()> {
    match folder.rename(from, to, Rename::New) {
        Err(error) if !unknown(&error) => return Err(error),
        Err(_) if is_folder => return folder.rename(from, to, Rename::Replace),
        Err(_) => {}
        Ok(()) => return Ok(()),
    }
    match folder.link(from, to) {
        Err(error) if unlinked(&error) => match folder.look(to)? {
            Some(_) => Err(ErrorKind::AlreadyExists.into()),
            None => folder.rename(from, to, Rename::Replace),
        },
        other => {
            other?;
            folder.remove(from).or_else(|error| folder.remove(to).and(Err(error)))
        }
    }
}

/// Gives something the name of what is there.
pub fn exchange(folder: &Folder, from: &OsStr, to: &OsStr, is_folder: bool) -> io::Result<Placed> {
    match folder.rename(from, to, Rename::Exchange) {
        Err(error) if unknown(&error) => exchange_in_steps(folder, from, to, is_folder),
        other => other.map(|()| Placed::Old(from.to_os_string())),
    }
}

/// A file is replaced in one step all the same, once it has a second name, or a copy; a folder's name is free for a
/// moment.
fn exchange_in_steps(
    folder: &Folder,
    from: &OsStr,
    to: &OsStr,
    is_folder: bool,
) -> io::Result<Placed> {
    let aside = fresh::name();
    if is_folder {
        folder.rename(to, &aside, Rename::Replace)?;
        let renamed = folder.rename(from, to, Rename::Replace);
        renamed.or_else(|error| put_back(folder, &aside, to).and(Err(error)))?;
        return Ok(Placed::Old(aside));
    }
    let placed = match folder.link(to, &aside) {
        Err(error) if unlinked(&error) => Placed::Copy(aside.clone(), copy(folder, to, &aside)?),
        other => other.map(|()| Placed::Old(aside.clone()))?,
    };
    let renamed = folder.rename(from, to, Rename::Replace);
    renamed.or_else(|error| folder.remove(&aside).and(Err(error)))?;
    Ok(placed)
}

fn put_back(folder: &Folder, aside: &OsStr, to: &OsStr) -> io::Result<()> {
    let kept = |error: io::Error| {
        let text = format!("{}; what was there is kept as {}", words(&error), shown(aside));
        io::Error::new(error.kind(), text)
    };
    folder.rename(aside, to, Rename::Replace).map_err(kept)
}

/// Copies a file, with its rights; what was copied.
fn copy(folder: &Folder, from: &OsStr, to: &OsStr) -> io::Result<(u64, u64)> {
    let mut old = folder.read(from)?;
    let metadata = old.metadata()?;
    let mut new = folder.create(to, 0o600)?;
    let copied = io::copy(&mut old, &mut new)
        .and_then(|_| Rights::of(&metadata).give(&new))
        .and_then(|()| new.sync_all());
    copied.or_else(|error| folder.remove(to).and(Err(error)))?;
    Ok(identity(&metadata))
}
