//! `repair --in-place [DEPTH] RECORD TABLE TREE MARKS PROOF`

use super::Done;
use crate::answer::{self, Shown};
use crate::arguments::{Arguments, Options};
use crate::attempt::{After, Attempt};
use crate::depths;
use crate::failure::Failure;
use crate::input::{Input, Reader};
use crate::kind::Kind;
use crate::name::shown;
use crate::output::{place, put_all, refused, Content, Locks, Target};
use crate::report::Pages;
use crate::said;
use std::ffi::{OsStr, OsString};

pub fn run(arguments: &Arguments) -> Done {
    let (depth, words): (_, [&OsStr; 5]) = arguments.take_after_depth()?;
    let [_, _, tree, marks, proof] = words;
    if [tree, marks, proof].iter().any(|word| *word == "-") {
        return Err(Failure::usage("with --in-place TREE, MARKS and PROOF are files"));
    }
    let (attempt, locks) = read(depth, words, arguments.options)?;
    let replacing = [
        replaced(&attempt, tree, &attempt.tree, &locks)?,
        replaced(&attempt, marks, &attempt.marks, &locks)?,
    ];
    // An input is never written, whether there is a proof or not.
    Target::file(proof, true, &attempt.inputs(), &locks)?;
    let after = attempt.repair()?;
    if lost(&after) {
        return not_written(&after, arguments.options.quiet);
    }
    put(&after, [tree, marks, proof], replacing, arguments.options, &locks)?;
    after.tell(arguments.options.quiet, &shown(proof))
}

/// What is read, the tree and its marks when nobody else can write them any more.
fn read(
    depth: Option<&OsStr>,
    words: [&OsStr; 5],
    options: Options,
) -> Result<(Attempt, Locks), Failure> {
    let [record, table, tree, marks, proof] = words;
    let mut reader = Reader::new(options.quiet);
    let depth = depths::given(depth)?;
    let (record, table) = (reader.read(record, Kind::Record)?, reader.read(table, Kind::Table)?);
    let locks = Locks::of(&[place(tree)?.0, place(marks)?.0, place(proof)?.0], options.quiet)?;
    let (tree, marks) = (reader.read(tree, Kind::Tree)?, reader.read(marks, Kind::Marks)?);
    let depth = depths::of_record(depth, &record)?;
    Ok((Attempt { depth, record, table, tree, marks }, locks))
}

/// A file that is to be replaced by what came of it: it must still be the one that was read.
fn replaced(
    attempt: &Attempt,
    word: &OsStr,
    input: &Input,
    locks: &Locks,
) -> Result<Target, Failure> {
    let others: Vec<&Input> =
        attempt.inputs().into_iter().filter(|other| !std::ptr::eq(*other, input)).collect();
    let target = Target::file(word, true, &others, locks)?;
    match &target.old {
        Some(old) if old.identity == input.identity => Ok(target),
        _ => Err(refused(&input.name, "it is not the file that was read any more")),
    }
}

/// Whether fewer pages are held than before: by a record of another volume most are bad copies.
fn lost(after: &After) -> bool {
    let held = |pages: Pages| pages.marks.iter().filter(|mark| **mark == 1).count();
    held(after.now()) < held(after.before())
}

/// Tells why nothing is written.
fn not_written(after: &After, quiet: bool) -> Done {
    if !quiet {
        said::report(&after.report(&Shown::Nowhere))?;
    }
    let to_do = after.by_kind();
    let to_do = to_do.as_deref().unwrap_or("bring pages first, or repair into a FOLDER");
    said::remark(&format!("nothing was written: fewer pages would be held than before; {to_do}"));
    Ok(answer::status(&after.repaired.end))
}

/// Copies of the old files and the proof come first, then the tree, then the marks: stopped between the last two, the
/// old marks call no page held that the old tree did not hold.
fn put(
    after: &After,
    words: [&OsStr; 3],
    replacing: [Target; 2],
    options: Options,
    locks: &Locks,
) -> Result<(), Failure> {
    let ([tree, marks, proof], [new_tree, new_marks]) = (words, replacing);
    let (before, now) = (after.before(), after.now());
    let beside = |word: &OsStr| Target::file(word, options.force, &after.attempt.inputs(), locks);
    let copy =
        |word: &OsStr, old: &Target| Ok(Target { rights: old.rights, ..beside(&kept(word))? });
    let mut outputs = Vec::new();
    if before != now {
        outputs.push((copy(tree, &new_tree)?, Content::File(before.tree)));
        outputs.push((copy(marks, &new_marks)?, Content::File(before.marks)));
    }
    if let Some((_, bytes)) = after.shown() {
        outputs.push((beside(proof)?, Content::File(bytes)));
    }
    if before != now {
        outputs.push((new_tree, Content::File(now.tree)));
        outputs.push((new_marks, Content::File(now.marks)));
    }
    put_all(&outputs)
}

/// The name of the copy that is kept of an old file.
fn kept(name: &OsStr) -> OsString {
    let mut kept = name.to_os_string();
    kept.push("~");
    kept
}
