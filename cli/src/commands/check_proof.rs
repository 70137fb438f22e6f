//! `check-proof [DEPTH] RECORD TABLE PROOF`

use super::{told, Done};
use crate::arguments::Arguments;
use crate::depths;
use crate::input::{stopped, Reader};
use crate::kind::Kind;
use crate::paths::{self, File};

pub fn run(arguments: &Arguments) -> Done {
    let (depth, [record, table, proof]) = arguments.take_after_depth()?;
    let depth = depths::given(depth)?;
    let mut reader = Reader::new(arguments.options.quiet);
    let record = reader.read(record, Kind::Record)?;
    let table = reader.read(table, Kind::Table)?;
    let proof = reader.read(proof, Kind::Proof)?;
    let depth = depths::of_record(depth, &record)?;
    let inputs = [&record, &table, &proof];
    let file = File { name: &proof.name, bytes: &proof.bytes };
    let broken = |stop| paths::of_proof(stop, &record.bytes, &table.bytes, file);
    cedunmi::check_proof(depth, &record.bytes, &table.bytes, &proof.bytes)
        .map_err(|stop| broken(stop).unwrap_or_else(|| stopped(stop, depth, &inputs)))?;
    told(arguments, "accepted: the volume with this record was not coded as this table says")
}
