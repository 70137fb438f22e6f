//! `code [DEPTH] TABLE VOLUME FOLDER`, and `code --plain [DEPTH] TABLE VOLUME FOLDER`

use super::{made, Done};
use crate::arguments::Arguments;
use crate::depths;
use crate::failure::Failure;
use crate::input::{stopped, Reader};
use crate::kind::Kind;
use crate::output::{Content, Output};
use crate::volume::called;
use cedunmi::Coded;

pub const FILES: [&str; 3] = ["tree", "marks", "record"];

pub fn run(arguments: &Arguments) -> Done {
    let (depth, [table, volume, folder]) = arguments.take_after_depth()?;
    let depth = depths::given(depth)?;
    let mut reader = Reader::new(arguments.options.quiet);
    let table = reader.read(table, Kind::Table)?;
    let volume = reader.read(volume, Kind::Volume)?;
    let inputs = [&table, &volume];
    let output = Output::folder(folder, &FILES, arguments.options, &inputs)?;
    let depth = depths::of_table(depth, &table);
    let kind = match arguments.options.plain {
        true => cedunmi::Kind::Plain,
        false => cedunmi::Kind::Placed,
    };
    let coded = cedunmi::code(depth, kind, &table.bytes, &volume.bytes)
        .map_err(|stop| stopped(stop, depth, &inputs))?;
    put(output, &coded)?;
    made(arguments, &format!("coded: {}", called(kind)))
}

/// Puts a coded volume into its folder.
pub fn put(output: Output, coded: &Coded) -> Result<(), Failure> {
    let [tree, marks, record] = FILES;
    let files: [(&str, &[u8]); 3] =
        [(tree, &coded.tree), (marks, &coded.marks), (record, &coded.record)];
    output.put(Content::Folder(&files))
}
