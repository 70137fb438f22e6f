//! What stands where an output is to be put.

use crate::input::identity;
use cedunmi_system::{give, Folder};
use std::collections::BTreeMap;
use std::ffi::OsStr;
use std::fs::{File, Metadata, Permissions};
use std::io;
use std::os::unix::fs::{MetadataExt, PermissionsExt};
use std::rc::Rc;

/// Who may do what with a file or a folder.
#[derive(Clone, Copy, Debug)]
pub struct Rights {
    owner: u32,
    group: u32,
    mode: u32,
}

impl Rights {
    /// Nothing is run in another's name: of the mode the nine bits alone.
    pub fn of(metadata: &Metadata) -> Rights {
        Rights { owner: metadata.uid(), group: metadata.gid(), mode: metadata.mode() & 0o777 }
    }

    /// Gives the new one the rights of the old one; where it can't have its group, the group has none.
    pub fn give(self, file: &File) -> io::Result<()> {
        let grouped = give(file, self.owner, self.group) || file.metadata()?.gid() == self.group;
        let mode = if grouped { self.mode } else { self.mode & !0o070 };
        file.set_permissions(Permissions::from_mode(mode))
    }
}

/// A file or a folder that is replaced.
#[derive(Debug)]
pub struct Old {
    /// Its device, and the number of its inode.
    pub identity: (u64, u64),
    pub rights: Rights,
    /// Of a folder, itself, open and locked, and the rights of its files.
    pub folder: Option<(Rc<Folder>, BTreeMap<&'static str, Rights>)>,
}

impl Old {
    pub fn file(metadata: &Metadata) -> Old {
        Old { identity: identity(metadata), rights: Rights::of(metadata), folder: None }
    }

    /// The rights that a file of this name had, in a folder.
    pub fn rights_of(&self, name: &str) -> Option<Rights> {
        self.folder.as_ref().and_then(|(_, files)| files.get(name).copied())
    }

    /// Whether this is what bears a name, and, of a folder, has no files but of these names.
    pub fn bears(&self, folder: &Folder, name: &OsStr, names: &[&str]) -> io::Result<bool> {
        let there = folder.look(name)?;
        if there.map(|metadata| identity(&metadata)) != Some(self.identity) {
            return Ok(false);
        }
        if self.folder.is_none() {
            return Ok(true);
        }
        let held = folder.enter(name)?.names()?;
        Ok(held.iter().all(|held| names.iter().any(|known| held == known)))
    }
}
