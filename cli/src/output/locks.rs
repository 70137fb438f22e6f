//! Folders that no other command writes meanwhile.

use crate::failure::{Failure, NOT_MADE};
use crate::input::identity;
use crate::name::shown;
use crate::progress;
use cedunmi_system::Folder;
use std::collections::BTreeMap;
use std::io;
use std::path::{Path, PathBuf};
use std::rc::Rc;

/// Open folders with their locks, which end when nobody holds them any more.
pub struct Locks(BTreeMap<PathBuf, Rc<Folder>>);

impl Locks {
    /// Waits for the lock of each folder, in one order for all commands, so that no two wait for each other. A
    /// file system that has no locks is used without: names are changed in one step there too.
    pub fn of(paths: &[PathBuf], quiet: bool) -> Result<Locks, Failure> {
        loop {
            let opened = paths.iter().map(|path| Ok((path.clone(), Rc::new(open(path)?))));
            let locks = Locks(opened.collect::<Result<_, Failure>>()?);
            locks.wait(quiet)?;
            if locks.are_there()? {
                return Ok(locks);
            }
        }
    }

    fn wait(&self, quiet: bool) -> Result<(), Failure> {
        let mut folders = BTreeMap::new();
        for (path, folder) in &self.0 {
            let metadata = folder.metadata().map_err(|error| failed(path, &error))?;
            folders.entry(identity(&metadata)).or_insert(folder);
        }
        for folder in folders.values().filter(|folder| folder.is_locked()) {
            let what = format!("waiting for another command in {}", shown(folder.path()));
            let _ = progress::told(quiet, &what, || folder.lock());
        }
        Ok(())
    }

    /// Whether the names still lead to these folders: another may have come in the place of one meanwhile.
    fn are_there(&self) -> Result<bool, Failure> {
        for (path, folder) in &self.0 {
            let failed = |error| failed(path, &error);
            let (now, then) =
                (std::fs::metadata(path).map_err(failed)?, folder.metadata().map_err(failed)?);
            if identity(&now) != identity(&then) {
                return Ok(false);
            }
        }
        Ok(true)
    }

    /// The folder of a path, which was given when these were made.
    pub fn folder(&self, path: &Path) -> Option<Rc<Folder>> {
        self.0.get(path).cloned()
    }
}

fn open(path: &Path) -> Result<Folder, Failure> {
    Folder::open(path).map_err(|error| failed(path, &error))
}

fn failed(path: &Path, error: &io::Error) -> Failure {
    Failure::system(&format!("the folder {}", shown(path)), error, NOT_MADE)
}
