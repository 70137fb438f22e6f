//! Several outputs put in their places, so that a failure at any step leaves all as it was.

use super::naming::{exchange, place_new, Placed};
use super::target::{refused, Target};
use super::{fresh, Content};
use crate::failure::{words, Failure, NOT_MADE, NOT_WRITTEN};
use crate::input::identity;
use crate::name::shown;
use crate::said;
use cedunmi_system::{Folder, Rename};
use std::collections::BTreeSet;
use std::ffi::OsString;
use std::io::{self, ErrorKind};

/// What is written beside its place, and what is in its place already. Dropped, all is taken back.
#[derive(Default)]
pub struct Placing<'a> {
    beside: Vec<Beside<'a>>,
    placed: Vec<Placed>,
}

/// An output under its first name.
struct Beside<'a> {
    target: &'a Target,
    name: OsString,
    made: Made,
}

/// What was made for it, by which it is known again.
enum Made {
    File(Option<(u64, u64)>),
    /// A folder that could not be entered is empty.
    Folder(Option<Folder>),
}

impl<'a> Placing<'a> {
    /// Writes an output beside its place.
    pub fn write(&mut self, target: &'a Target, content: Content) -> Result<(), Failure> {
        let rights = target.rights;
        let not_made = |error| Failure::system(&target.shown, &error, NOT_MADE);
        let filled = match content {
            Content::File(bytes) => {
                let (name, file) = fresh::file(&target.folder, rights).map_err(not_made)?;
                let made = Made::File(file.metadata().ok().map(|metadata| identity(&metadata)));
                self.beside.push(Beside { target, name, made });
                fresh::fill(file, bytes, rights)
            }
            Content::Folder(files) => {
                let name = fresh::folder(&target.folder, rights).map_err(not_made)?;
                self.beside.push(Beside { target, name, made: Made::Folder(None) });
                let beside = self.beside.last_mut().expect("it was pushed");
                let folder = fresh::enter(&target.folder, &beside.name).map_err(not_made)?;
                let filled = fresh::fill_folder(&folder, files, target.old.as_ref());
                beside.made = Made::Folder(Some(folder));
                filled
            }
        };
        filled.map_err(|error| Failure::system(&target.shown, &error, NOT_WRITTEN))
    }

    /// Changes the names, one after the other; then what was replaced goes.
    pub fn place_all(mut self) -> Result<(), Failure> {
        for at in 0..self.beside.len() {
            let placed = self.beside[at].place()?;
            self.placed.push(placed);
            self.beside[at].is_old(&self.placed[at])?;
        }
        self.sync()?;
        let beside = std::mem::take(&mut self.beside);
        for (beside, placed) in beside.iter().zip(std::mem::take(&mut self.placed)) {
            beside.discard(&placed);
        }
        Ok(())
    }

    /// Puts the names on the disk, each folder's once.
    fn sync(&self) -> Result<(), Failure> {
        let mut folders = BTreeSet::new();
        for Beside { target, .. } in &self.beside {
            let failed = |error| Failure::system(&target.shown, &error, NOT_WRITTEN);
            let metadata = target.folder.metadata().map_err(failed)?;
            if folders.insert(identity(&metadata)) {
                target.folder.sync().map_err(failed)?;
            }
        }
        Ok(())
    }
}

impl Beside<'_> {
    fn is_folder(&self) -> bool {
        matches!(self.made, Made::Folder(_))
    }

    /// Gives it its name.
    fn place(&self) -> Result<Placed, Failure> {
        let (folder, to) = (&self.target.folder, &self.target.name);
        let placed = match self.target.old {
            None => place_new(folder, &self.name, to, self.is_folder()).map(|()| Placed::New),
            Some(_) => exchange(folder, &self.name, to, self.is_folder()),
        };
        placed.map_err(|error| Failure::system(&self.target.shown, &error, NOT_MADE))
    }

    /// Sees that what was replaced is what was looked at before.
    fn is_old(&self, placed: &Placed) -> Result<(), Failure> {
        let Target { folder, names, shown, old, .. } = self.target;
        let is_old = match (placed, old) {
            (Placed::Old(name), Some(old)) => old.bears(folder, name, names),
            (Placed::Copy(_, copied), Some(old)) => Ok(*copied == old.identity),
            _ => Ok(true),
        };
        match is_old {
            Ok(true) => Ok(()),
            Ok(false) => Err(refused(shown, "something else was put there meanwhile")),
            Err(error) => Err(Failure::system(shown, &error, NOT_MADE)),
        }
    }

    /// Takes away what was replaced; where that fails, it stays under its odd name.
    fn discard(&self, placed: &Placed) {
        let Target { folder, names, shown: name, old: was, .. } = self.target;
        let old = match placed {
            Placed::New => return,
            Placed::Old(old) | Placed::Copy(old, _) => old,
        };
        let gone = match was.as_ref().and_then(|was| was.folder.as_ref()) {
            None => folder.remove(old),
            Some((itself, _)) => fresh::remove_folder(folder, old, Some(itself), names),
        };
        tell(gone, || format!("{name}: what was there is kept as {}", shown(old)));
    }

    /// Whether somebody has put something else in its place.
    fn gone(&self) -> bool {
        let made = match &self.made {
            Made::File(made) => *made,
            Made::Folder(folder) => {
                let metadata = folder.as_ref().and_then(|folder| folder.metadata().ok());
                metadata.map(|metadata| identity(&metadata))
            }
        };
        let there = self.target.folder.look(&self.target.name).ok();
        let there = there.map(|there| there.map(|metadata| identity(&metadata)));
        matches!((made, there), (Some(_), Some(there)) if there != made)
    }

    /// Takes its name back: whether it bears its first name again.
    fn take_back(&self, placed: &Placed) -> bool {
        let (folder, to) = (&self.target.folder, &self.target.name);
        if self.gone() {
            return false;
        }
        let back = match placed {
            Placed::New => folder.rename(to, &self.name, Rename::Replace),
            Placed::Old(old) if *old == self.name => folder.rename(old, to, Rename::Exchange),
            Placed::Old(old) if self.is_folder() => {
                let freed = folder.rename(to, &self.name, Rename::Replace);
                freed.and_then(|()| folder.rename(old, to, Rename::Replace))
            }
            Placed::Old(old) | Placed::Copy(old, _) => folder.rename(old, to, Rename::Replace),
        };
        let done = back.is_ok();
        tell(back, || format!("{}: it could not be put back", self.target.shown));
        done
    }

    /// Takes away what was written.
    fn remove(&self) {
        let folder = &self.target.folder;
        let gone = match &self.made {
            Made::File(_) => folder.remove(&self.name),
            Made::Folder(made) => {
                fresh::remove_folder(folder, &self.name, made.as_ref(), self.target.names)
            }
        };
        tell(gone, || format!("{} is left in {}", shown(&self.name), shown(folder.path())));
    }
}

impl Drop for Placing<'_> {
    fn drop(&mut self) {
        for (at, beside) in self.beside.iter().enumerate().rev() {
            if self.placed.get(at).map_or(true, |placed| beside.take_back(placed)) {
                beside.remove();
            }
        }
    }
}

/// Says what could not be done; that something is not there any more is nothing to say.
fn tell(done: io::Result<()>, what: impl FnOnce() -> String) {
    match done {
        Err(error) if error.kind() != ErrorKind::NotFound => {
            said::remark(&format!("{}: {}", what(), words(&error)))
        }
        _ => {}
    }
}
