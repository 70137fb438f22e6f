//! `read [DEPTH] RECORD TABLE TREE MARKS VOLUME`, and `read --unverified [DEPTH] RECORD TREE MARKS VOLUME`

use super::Done;
use crate::answer;
use crate::arguments::Arguments;
use crate::attempt::{After, Attempt};
use crate::depths;
use crate::failure::Failure;
use crate::input::{stopped_at, Reader};
use crate::kind::Kind;
use crate::output::{Content, Output};
use crate::said;
use cedunmi::{Depth, End};

/// Reads what a repair in memory gives, so that the volume is the one of record and table.
pub fn run(arguments: &Arguments) -> Done {
    let (depth, [record, table, tree, marks, volume]) = arguments.take_after_depth()?;
    let mut reader = Reader::new(arguments.options.quiet);
    let attempt = Attempt::read(&mut reader, depth, [record, table, tree, marks])?;
    let output = Output::file(volume, arguments.options, &attempt.inputs())?;
    let after = attempt.repair()?;
    let status = answer::status_as_is(&after.repaired);
    if !matches!(after.repaired.end, End::Whole | End::Misfilled) {
        let failure = Failure::new(status, format!("the volume was not read: {}", after.ended()));
        return Err(failure.and(
            "cedunmi check says more; read --unverified reads it unchecked: its bytes may be wrong",
        ));
    }
    let bytes =
        cedunmi::read_block(attempt.depth, &attempt.record.bytes, &after.tree, &after.marks)
            .map_err(Failure::stopped)?;
    output.put(Content::File(&bytes))?;
    if !arguments.options.quiet {
        remarks(&after).iter().for_each(|line| said::remark(line));
    }
    Ok(status)
}

/// What to say of a volume that is right, of a tree that is not.
fn remarks(after: &After) -> Vec<String> {
    let mut lines = Vec::new();
    if after.repaired.stored != 0 {
        let lacked = after.lacked();
        lines.push(format!(
            "the volume is right by record and table, but the tree is damaged: {lacked}; repair it"
        ));
    }
    if after.repaired.end == End::Misfilled {
        lines.push("the volume is right by record and table, but misfilled: what fills it up isn't zero: cedunmi explain 43".to_string());
    }
    lines
}

pub fn unverified(arguments: &Arguments) -> Done {
    let (depth, [record, tree, marks, volume]) = arguments.take_after_depth()?;
    let depth = depths::given(depth)?;
    let mut reader = Reader::new(arguments.options.quiet);
    let record = reader.read(record, Kind::Record)?;
    let tree = reader.read(tree, Kind::Tree)?;
    let marks = reader.read(marks, Kind::Marks)?;
    let depth = depths::of_record(depth, &record)?;
    let inputs = [&record, &tree, &marks];
    let output = Output::file(volume, arguments.options, &inputs)?;
    let place = |depth: Depth, number| depth.places(depth.layers() - 1).start + number;
    let bytes = cedunmi::read_block(depth, &record.bytes, &tree.bytes, &marks.bytes)
        .map_err(|stop| stopped_at(stop, depth, &inputs, place))?;
    output.put(Content::File(&bytes))?;
    Ok(0)
}
