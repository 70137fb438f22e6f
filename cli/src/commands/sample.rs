//! `sample [DEPTH] NUMBER TREE MARKS SAMPLE`

use super::Done;
use crate::arguments::{decimal, Arguments};
use crate::depths;
use crate::input::{stopped_at, Reader};
use crate::kind::Kind;
use crate::output::{Content, Output};
use cedunmi::Depth;

pub fn run(arguments: &Arguments) -> Done {
    let (depth, [number, tree, marks, sample]) = arguments.take_after_depth()?;
    let (depth, number) = (depths::given(depth)?, decimal("NUMBER", number)?);
    let mut reader = Reader::new(arguments.options.quiet);
    let tree = reader.read(tree, Kind::Tree)?;
    let marks = reader.read(marks, Kind::Marks)?;
    let depth = depths::of_tree(depth, &tree)?;
    let inputs = [&tree, &marks];
    let output = Output::file(sample, arguments.options, &inputs)?;
    let place = |depth: Depth, index| depth.sampled_place(number as usize, index);
    let bytes = cedunmi::take_sample(depth, number, &tree.bytes, &marks.bytes)
        .map_err(|stop| stopped_at(stop, depth, &inputs, place))?;
    output.put(Content::File(&bytes))?;
    Ok(0)
}
