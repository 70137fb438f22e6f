//! `record RECORD`

use super::Done;
use crate::arguments::Arguments;
use crate::depths;
use crate::input::{stopped, Reader};
use crate::kind::Kind;
use crate::printed;
use crate::said;

pub fn run(arguments: &Arguments) -> Done {
    let [record] = arguments.take()?;
    let record = Reader::new(arguments.options.quiet).read(record, Kind::Record)?;
    let depth = depths::of_record(None, &record)?;
    let text = printed::print(&record.bytes).map_err(|stop| stopped(stop, depth, &[&record]))?;
    said::data(text.as_bytes())?;
    Ok(0)
}
