//! `check-sample [DEPTH] NUMBER RECORD SAMPLE`

use super::{told, Done};
use crate::arguments::{decimal, Arguments};
use crate::depths;
use crate::input::{stopped, Reader};
use crate::kind::Kind;
use crate::paths::{self, File};

pub fn run(arguments: &Arguments) -> Done {
    let (depth, [number, record, sample]) = arguments.take_after_depth()?;
    let (depth, number) = (depths::given(depth)?, decimal("NUMBER", number)?);
    let mut reader = Reader::new(arguments.options.quiet);
    let record = reader.read(record, Kind::Record)?;
    let sample = reader.read(sample, Kind::Sample)?;
    let depth = depths::of_record(depth, &record)?;
    let inputs = [&record, &sample];
    let file = File { name: &sample.name, bytes: &sample.bytes };
    let broken = |stop| paths::of_sample(stop, number, &record.bytes, file);
    cedunmi::check_sample(depth, number, &record.bytes, &sample.bytes)
        .map_err(|stop| broken(stop).unwrap_or_else(|| stopped(stop, depth, &inputs)))?;
    told(arguments, "accepted: every hash leads to the root")
}
