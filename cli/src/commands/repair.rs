//! `repair [DEPTH] RECORD TABLE TREE MARKS FOLDER`

use super::Done;
use crate::arguments::Arguments;
use crate::attempt::{Attempt, PROOF, TWINS};
use crate::input::Reader;
use crate::name::shown;
use crate::output::{Content, Output};
use std::path::Path;

const TREE: &str = "tree";
const MARKS: &str = "marks";

pub fn run(arguments: &Arguments) -> Done {
    let (depth, [record, table, tree, marks, folder]) = arguments.take_after_depth()?;
    let mut reader = Reader::new(arguments.options.quiet);
    let attempt = Attempt::read(&mut reader, depth, [record, table, tree, marks])?;
    let names = &[TREE, MARKS, PROOF, TWINS];
    let output = Output::folder(folder, names, arguments.options, &attempt.inputs())?;
    let after = attempt.repair()?;
    let mut files: Vec<(&str, &[u8])> = vec![(TREE, &after.tree), (MARKS, &after.marks)];
    files.extend(after.shown());
    output.put(Content::Folder(&files))?;
    let name = Path::new(folder).join(after.shown().map_or("", |(name, _)| name));
    after.tell(arguments.options.quiet, &shown(name))
}
