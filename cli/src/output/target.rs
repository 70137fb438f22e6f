//! Where something may be put, and in place of what.

use super::locks::Locks;
use super::old::{Old, Rights};
use crate::failure::{Failure, NOT_MADE};
use crate::input::{identity, Input};
use crate::name::shown;
use cedunmi_system::Folder;
use std::collections::{BTreeMap, BTreeSet};
use std::ffi::{OsStr, OsString};
use std::fs::{self, Metadata};
use std::os::unix::ffi::OsStrExt;
use std::path::{Component, Path, PathBuf};
use std::rc::Rc;

/// A name for an output in a folder that is open and locked, and what stands there now.
#[derive(Debug)]
pub struct Target {
    /// The name as it was given.
    pub shown: String,
    pub folder: Rc<Folder>,
    pub name: OsString,
    pub old: Option<Old>,
    /// Those that the new one gets: of the old one.
    pub rights: Option<Rights>,
    /// The names that the files of a folder may have; of a file none.
    pub names: &'static [&'static str],
}

pub fn refused(name: &str, why: &str) -> Failure {
    Failure::new(NOT_MADE, format!("{name}: {why}"))
}

fn is_input(metadata: &Metadata, inputs: &[&Input]) -> bool {
    inputs.iter().any(|input| input.identity == identity(metadata))
}

/// The folder that a path is in, and its name there.
fn split(path: &Path) -> Option<(PathBuf, OsString)> {
    let path: PathBuf = path.components().filter(|part| *part != Component::CurDir).collect();
    let name = path.file_name()?.to_os_string();
    let parent = path.parent().filter(|parent| !parent.as_os_str().is_empty());
    Some((parent.unwrap_or_else(|| Path::new(".")).to_path_buf(), name))
}

/// The folder and the name of a file.
pub fn place(word: &OsStr) -> Result<(PathBuf, OsString), Failure> {
    let named =
        !matches!(word.as_bytes().rsplit(|byte| *byte == b'/').next(), Some(b"" | b"." | b".."));
    split(Path::new(word))
        .filter(|_| named)
        .ok_or_else(|| refused(&shown(word), "it is no name of a file"))
}

/// The folder and the name of a folder, which may be written as `.` or `..`.
pub fn folder_place(word: &OsStr) -> Result<(PathBuf, OsString), Failure> {
    let path = Path::new(word);
    let place = match split(path) {
        None => fs::canonicalize(path).ok().and_then(|path| split(&path)),
        place => place,
    };
    place.ok_or_else(|| refused(&shown(word), "it is no name of a folder"))
}

/// Sees that no two outputs have one name.
pub fn apart<'a>(targets: impl Iterator<Item = &'a Target>) -> Result<(), Failure> {
    let mut names = BTreeSet::new();
    for target in targets {
        let folder = target
            .folder
            .metadata()
            .map_err(|error| Failure::system(&target.shown, &error, NOT_MADE))?;
        if !names.insert((identity(&folder), &target.name)) {
            return Err(refused(&target.shown, "two outputs have this name"));
        }
    }
    Ok(())
}

impl Target {
    /// A name for a file, in a folder of these.
    pub fn file(
        word: &OsStr,
        force: bool,
        inputs: &[&Input],
        locks: &Locks,
    ) -> Result<Target, Failure> {
        let (target, here) = Target::at(word, place(word)?, locks)?;
        let old = match here {
            None => None,
            Some(metadata) => {
                let why = never_replaced(&metadata, inputs)
                    .or_else(|| (!force).then_some("a file is there already; --force replaces it"));
                if let Some(why) = why {
                    return Err(refused(&target.shown, why));
                }
                Some(Old::file(&metadata))
            }
        };
        Ok(Target { rights: old.as_ref().map(|old| old.rights), old, ..target })
    }

    /// A name for a folder with files of these names: one that is there is replaced if it has no others.
    pub fn folder(
        word: &OsStr,
        names: &'static [&'static str],
        force: bool,
        inputs: &[&Input],
        locks: &Locks,
    ) -> Result<Target, Failure> {
        let (target, here) = Target::at(word, folder_place(word)?, locks)?;
        let old = match here {
            None => None,
            Some(metadata) => Some(target.old_folder(&metadata, names, force, inputs, locks)?),
        };
        Ok(Target { rights: old.as_ref().map(|old| old.rights), old, names, ..target })
    }

    /// A name in a folder, and what bears it.
    fn at(
        word: &OsStr,
        place: (PathBuf, OsString),
        locks: &Locks,
    ) -> Result<(Target, Option<Metadata>), Failure> {
        let (shown, (parent, name)) = (shown(word), place);
        let folder =
            locks.folder(&parent).ok_or_else(|| refused(&shown, "its folder is not locked"))?;
        let here = folder.look(&name).map_err(|error| Failure::system(&shown, &error, NOT_MADE))?;
        Ok((Target { shown, folder, name, old: None, rights: None, names: &[] }, here))
    }

    /// A folder that is there, if it may be replaced.
    fn old_folder(
        &self,
        here: &Metadata,
        names: &'static [&'static str],
        force: bool,
        inputs: &[&Input],
        locks: &Locks,
    ) -> Result<Old, Failure> {
        let refused = |why: &str| refused(&self.shown, why);
        if !here.is_dir() {
            return Err(refused("it is there, and is no folder"));
        }
        // Where even this can't be looked at, it is another folder.
        if fs::metadata(".").map_or(false, |started| identity(&started) == identity(here)) {
            return Err(refused("it is the folder that this command was started in"));
        }
        let itself = locks.folder(&self.folder.path().join(&self.name));
        let folder = itself.ok_or_else(|| refused("it was not there a moment ago"))?;
        let files = self.old_files(&folder, names, inputs)?;
        if !files.is_empty() && !force {
            return Err(refused("a folder is there already, with files; --force replaces one that this command made"));
        }
        Ok(Old { folder: Some((folder, files)), ..Old::file(here) })
    }

    /// The files of a folder that may be replaced, with their rights: of these names, and no inputs.
    fn old_files(
        &self,
        folder: &Folder,
        names: &'static [&'static str],
        inputs: &[&Input],
    ) -> Result<BTreeMap<&'static str, Rights>, Failure> {
        let failed = |error| Failure::system(&self.shown, &error, NOT_MADE);
        let mut files = BTreeMap::new();
        for held in folder.names().map_err(failed)? {
            let metadata = folder.look(&held).map_err(failed)?;
            let known = names.iter().find(|name| held == **name);
            match (metadata, known) {
                (Some(metadata), _) if is_input(&metadata, inputs) => {
                    let why = format!("its file {} is an input of this command too", shown(held));
                    return Err(refused(&self.shown, &why));
                }
                (Some(metadata), Some(name)) if metadata.is_file() => {
                    files.insert(*name, Rights::of(&metadata));
                }
                _ => {
                    let why =
                        format!("it holds {}, which this command does not write", shown(held));
                    return Err(refused(&self.shown, &why));
                }
            }
        }
        Ok(files)
    }
}

/// Why this is not replaced by a file, whatever the options are.
fn never_replaced(metadata: &Metadata, inputs: &[&Input]) -> Option<&'static str> {
    if is_input(metadata, inputs) {
        Some("it is an input of this command too")
    } else if metadata.file_type().is_symlink() {
        Some("a link is there, which is neither followed nor replaced; give the name that it leads to")
    } else if metadata.is_dir() {
        Some("a folder is there")
    } else if !metadata.is_file() {
        Some("a device, or something else that is no file, is there")
    } else {
        None
    }
}
