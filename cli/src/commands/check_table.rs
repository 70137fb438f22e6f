//! `check-table [DEPTH] TABLE`

use super::{told, Done};
use crate::arguments::Arguments;
use crate::depths;
use crate::input::{stopped, Reader};
use crate::kind::Kind;

pub fn run(arguments: &Arguments) -> Done {
    let (depth, [table]) = arguments.take_after_depth()?;
    let given = depths::given(depth)?;
    let table = Reader::new(arguments.options.quiet).read(table, Kind::Table)?;
    let depth = depths::of_table(given, &table);
    cedunmi::check_table(depth, &table.bytes).map_err(|stop| stopped(stop, depth, &[&table]))?;
    let found = given.map_or(format!(" at depth {depth}"), |_| String::new());
    let line = format!(
        "accepted: the table is well-formed{found}, with each data page in two equations or more"
    );
    told(arguments, &line)
}
