//! A repair, attempted on a copy in memory: what `repair`, `check` and `read` begin with.

use crate::answer::{self, Compared, Shown};
use crate::depths;
use crate::failure::Failure;
use crate::input::{stopped, Input, Reader};
use crate::kind::Kind;
use crate::report::{lacked, Pages};
use crate::said;
use cedunmi::{Depth, End, Repaired, Stop};
use std::ffi::OsStr;

/// The names of what a repair shows, in a folder.
pub const PROOF: &str = "proof";
pub const TWINS: &str = "twins";

/// What a repair is attempted on.
pub struct Attempt {
    pub depth: u64,
    pub record: Input,
    pub table: Input,
    pub tree: Input,
    pub marks: Input,
}

/// What came of it.
pub struct After<'a> {
    pub attempt: &'a Attempt,
    depth: Depth,
    pub tree: Vec<u8>,
    pub marks: Vec<u8>,
    pub repaired: Repaired,
}

impl Attempt {
    pub fn read(
        reader: &mut Reader,
        depth: Option<&OsStr>,
        words: [&OsStr; 4],
    ) -> Result<Attempt, Failure> {
        let (depth, [record, table, tree, marks]) = (depths::given(depth)?, words);
        let record = reader.read(record, Kind::Record)?;
        let table = reader.read(table, Kind::Table)?;
        let tree = reader.read(tree, Kind::Tree)?;
        let marks = reader.read(marks, Kind::Marks)?;
        let depth = depths::of_record(depth, &record)?;
        Ok(Attempt { depth, record, table, tree, marks })
    }

    pub fn inputs(&self) -> [&Input; 4] {
        [&self.record, &self.table, &self.tree, &self.marks]
    }

    /// Repairs a copy.
    pub fn repair(&self) -> Result<After<'_>, Failure> {
        let stop = |stop| stopped(stop, self.depth, &self.inputs());
        let (mut tree, mut marks) = (self.tree.bytes.clone(), self.marks.bytes.clone());
        let (record, table) = (&self.record.bytes, &self.table.bytes);
        let repaired =
            cedunmi::repair(self.depth, record, table, &mut tree, &mut marks).map_err(stop)?;
        let depth = Depth::new(self.depth).ok_or(Stop::WrongDepth).map_err(stop)?;
        Ok(After { attempt: self, depth, tree, marks, repaired })
    }
}

impl After<'_> {
    pub fn before(&self) -> Pages<'_> {
        Pages { tree: &self.attempt.tree.bytes, marks: &self.attempt.marks.bytes }
    }

    pub fn now(&self) -> Pages<'_> {
        Pages { tree: &self.tree, marks: &self.marks }
    }

    fn compared(&self) -> Compared<'_> {
        let record = &self.attempt.record.bytes;
        Compared { depth: self.depth, record, before: self.before(), after: self.now() }
    }

    pub fn report(&self, shown: &Shown) -> String {
        answer::report(&self.repaired, &self.compared(), shown)
    }

    /// The end in one line.
    pub fn ended(&self) -> String {
        answer::ended(&self.repaired.end, &self.compared(), &Shown::Nowhere)
    }

    /// Where it is for the record's kind that the top layer is lost, that it is.
    pub fn by_kind(&self) -> Option<String> {
        self.compared().by_kind(&self.repaired.end)
    }

    /// How many pages were absent, and how many bad, in words.
    pub fn lacked(&self) -> String {
        let (absent, bad) = lacked(self.depth, self.before(), self.now());
        let plural = if absent == 1 { "" } else { "s" };
        format!("{absent} page{plural} absent, {bad} bad")
    }

    /// What a repair shows beside the tree: the name that it has in a folder, and its bytes.
    pub fn shown(&self) -> Option<(&'static str, &[u8])> {
        match &self.repaired.end {
            End::Fault { proof } => Some((PROOF, proof)),
            End::Twins { symbols, .. } => Some((TWINS, symbols)),
            _ => None,
        }
    }

    /// Tells what was done, with what was shown in the file of this name.
    pub fn tell(&self, quiet: bool, name: &str) -> Result<u8, Failure> {
        if !quiet {
            said::report(&self.report(&Shown::In(name))).map_err(Failure::placed)?;
        }
        Ok(answer::status(&self.repaired.end))
    }
}
