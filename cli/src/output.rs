//! What is written: a file, or a folder of files, whole or not at all. Everything is first written beside its
//! place under a new name, and all of it is on the disk before the first name is changed.

mod fresh;
mod locks;
mod naming;
mod old;
mod placing;
mod target;

use crate::arguments::Options;
use crate::failure::Failure;
use crate::input::Input;
use crate::said;
pub use locks::Locks;
use std::ffi::OsStr;
pub use target::{place, refused, Target};

/// What a target is to hold.
#[derive(Clone, Copy)]
pub enum Content<'a> {
    File(&'a [u8]),
    Folder(&'a [(&'static str, &'a [u8])]),
}

/// Where a command's one output goes.
pub enum Output {
    Standard,
    Target(Target),
}

impl Output {
    /// The file of this name, `-` being standard output, where it may be written beside these inputs.
    pub fn file(word: &OsStr, options: Options, inputs: &[&Input]) -> Result<Output, Failure> {
        if word == "-" {
            return Ok(Output::Standard);
        }
        let locks = Locks::of(&[target::place(word)?.0], options.quiet)?;
        Ok(Output::Target(Target::file(word, options.force, inputs, &locks)?))
    }

    /// The folder of this name, which is to have files of these names.
    pub fn folder(
        word: &OsStr,
        names: &'static [&'static str],
        options: Options,
        inputs: &[&Input],
    ) -> Result<Output, Failure> {
        if word == "-" {
            return Err(Failure::usage(
                "FOLDER can't be standard output; a folder of this name is ./-",
            ));
        }
        let locks = Output::folder_locks(word, options.quiet)?;
        Ok(Output::Target(Target::folder(word, names, options.force, inputs, &locks)?))
    }

    /// The locks of the folder that a folder is in, and of itself where it is there, which may come while we wait.
    fn folder_locks(word: &OsStr, quiet: bool) -> Result<Locks, Failure> {
        let (parent, name) = target::folder_place(word)?;
        let itself = parent.join(name);
        loop {
            let there = itself.is_dir();
            let folders = [parent.clone(), itself.clone()];
            let locks = Locks::of(&folders[..1 + usize::from(there)], quiet)?;
            if there == itself.is_dir() {
                return Ok(locks);
            }
        }
    }

    pub fn put(self, content: Content) -> Result<(), Failure> {
        match (self, content) {
            (Output::Standard, Content::File(bytes)) => said::data(bytes),
            (Output::Standard, Content::Folder(_)) => unreachable!("a folder has a name"),
            (Output::Target(target), content) => put_all(&[(target, content)]),
        }
    }
}

/// Puts all of these in their places, in their order, or none.
pub fn put_all(outputs: &[(Target, Content)]) -> Result<(), Failure> {
    target::apart(outputs.iter().map(|(target, _)| target))?;
    let _signals = cedunmi_system::Held::begin();
    let mut placing = placing::Placing::default();
    for (target, content) in outputs {
        placing.write(target, *content)?;
    }
    placing.place_all()
}
