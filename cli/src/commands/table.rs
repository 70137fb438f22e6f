//! `table DEPTH TABLE`, and `table --for VOLUME TABLE`

use super::Done;
use crate::arguments::{decimal, Arguments};
use crate::failure::Failure;
use crate::input::{stopped, Input, Reader};
use crate::kind::Kind;
use crate::output::{Content, Output};
use cedunmi::{Depth, Stop};
use std::ffi::OsStr;

pub fn run(arguments: &Arguments) -> Done {
    let [depth, table] = arguments.take()?;
    let depth = decimal("DEPTH", depth)?;
    write(arguments, depth, table, &[])
}

/// The table of the least depth that holds a volume.
pub fn for_volume(arguments: &Arguments) -> Done {
    let [volume, table] = arguments.take()?;
    let volume = Reader::new(arguments.options.quiet).read(volume, Kind::Volume)?;
    let depth = Depth::least(volume.bytes.len());
    let most = Depth::MAX.layers() as u64;
    let depth = depth.ok_or_else(|| stopped(Stop::WrongLength, most, &[&volume]))?;
    write(arguments, depth.layers() as u64, table, &[&volume])
}

fn write(arguments: &Arguments, depth: u64, table: &OsStr, inputs: &[&Input]) -> Done {
    let output = Output::file(table, arguments.options, inputs)?;
    let bytes = cedunmi::house_table(depth).map_err(Failure::stopped)?;
    output.put(Content::File(&bytes))?;
    Ok(0)
}
