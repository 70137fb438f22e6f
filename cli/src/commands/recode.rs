//! `recode [DEPTH] RECORD TABLE TREE MARKS FOLDER`

use super::{code, made, Done};
use crate::arguments::Arguments;
use crate::attempt::Attempt;
use crate::failure::Failure;
use crate::input::{stopped, Reader};
use crate::name::shown;
use crate::output::Output;
use crate::volume::called;
use cedunmi::{End, Record, Stop};
use std::path::Path;

pub fn run(arguments: &Arguments) -> Done {
    let (depth, [record, table, tree, marks, folder]) = arguments.take_after_depth()?;
    let mut reader = Reader::new(arguments.options.quiet);
    let source = Attempt::read(&mut reader, depth, [record, table, tree, marks])?;
    let inputs = source.inputs();
    let output = Output::folder(folder, &code::FILES, arguments.options, &inputs)?;
    let [record, table, tree, marks] = inputs.map(|input| &input.bytes[..]);
    let recoded = cedunmi::recode(source.depth, record, table, tree, marks);
    let recoded = recoded.map_err(|stop| match stop {
        Stop::NotWhole => not_whole(&source),
        _ => stopped(stop, source.depth, &inputs),
    })?;
    let kind = Record::read(record).map_err(Failure::stopped)?.kind;
    code::put(output, &recoded)?;
    let (from, to) = (called(kind), called(kind.other()));
    let record = shown(Path::new(folder).join("record"));
    let then = format!("print {record} for the manual, and keep the old volume until it is there");
    made(arguments, &format!("recoded: from {from}, to {to}\n{then}"))
}

/// What a repair would have to do first, or why none would help.
fn not_whole(source: &Attempt) -> Failure {
    let failure = Failure::stopped(Stop::NotWhole);
    let after = match source.repair() {
        Ok(after) => after,
        Err(_) => return failure,
    };
    let failure = match after.repaired.end {
        End::Whole => failure.and(format!(
            "a repair makes it whole: {}; repair it, and recode what that leaves",
            after.lacked()
        )),
        _ => failure.and(format!("a repair would end so: {}", after.ended())),
    };
    let more = match after.repaired.end {
        End::Misfilled => {
            "; see first that the record's length is the manual's: cedunmi explain 43"
        }
        _ => "",
    };
    failure.and(format!("cedunmi check says more{more}"))
}
