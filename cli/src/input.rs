//! Files that are read.

use crate::coverage::open_to_loss;
use crate::depths;
use crate::failure::{Failure, NOT_MADE, UNREADABLE};
use crate::kind::Kind;
use crate::name::shown;
use crate::progress;
use crate::record;
use cedunmi::{Depth, Record, Stop, ROOT_BYTES};
use std::ffi::OsStr;
use std::fs::{File, Metadata};
use std::io::{self, Read as _};
use std::os::unix::fs::MetadataExt;

/// A file that was read, as far as a call can take it.
pub struct Input {
    pub name: String,
    pub kind: Kind,
    pub bytes: Vec<u8>,
    /// The length of the whole, where it is a file.
    whole: Option<u64>,
    /// The device and the number of its inode.
    pub identity: (u64, u64),
}

pub fn identity(metadata: &Metadata) -> (u64, u64) {
    (metadata.dev(), metadata.ino())
}

/// Reads the files of a command, standard input once at most.
pub struct Reader {
    quiet: bool,
    standard: bool,
    /// Where standard output leads, if that is a file.
    output: Option<(u64, u64)>,
}

impl Reader {
    pub fn new(quiet: bool) -> Reader {
        let output = cedunmi_system::output().and_then(|file| file.metadata());
        let output = output.ok().filter(Metadata::is_file).map(|metadata| identity(&metadata));
        Reader { quiet, standard: false, output }
    }

    /// Reads a file of a kind; `-` is standard input. One that standard output leads to would be changed by what is
    /// printed, and is refused.
    pub fn read(&mut self, word: &OsStr, kind: Kind) -> Result<Input, Failure> {
        let name = if word == "-" { "standard input".to_string() } else { shown(word) };
        if word == "-" && std::mem::replace(&mut self.standard, true) {
            return Err(Failure::usage("standard input can be one file alone"));
        }
        let read = progress::during(self.quiet, &format!("reading {name}"), || capped(word, kind));
        let (bytes, metadata) = read.map_err(|error| Failure::system(&name, &error, UNREADABLE))?;
        if self.output == Some(identity(&metadata)) {
            return Err(Failure::new(
                NOT_MADE,
                format!("{name}: standard output leads to this input"),
            ));
        }
        let whole = Some(metadata.len()).filter(|_| metadata.is_file());
        Ok(Input { name, kind, bytes, whole, identity: identity(&metadata) })
    }
}

/// The first bytes, one more than the kind can have where there are so many, and what the system says of the file.
fn capped(word: &OsStr, kind: Kind) -> io::Result<(Vec<u8>, Metadata)> {
    let file = if word == "-" { cedunmi_system::input()? } else { File::open(word)? };
    let metadata = file.metadata()?;
    let most = kind.most() as u64 + 1;
    let mut bytes = Vec::with_capacity(metadata.len().min(most) as usize + 1);
    file.take(most).read_to_end(&mut bytes)?;
    Ok((bytes, metadata))
}

impl Input {
    /// Its length, as far as that is known.
    pub fn len(&self) -> u64 {
        let read = self.bytes.len() as u64;
        self.whole.map_or(read, |whole| whole.max(read))
    }

    /// The same in words.
    pub fn has(&self) -> String {
        let len = self.len();
        let more =
            if self.whole.is_none() && len > self.kind.most() as u64 { " or more" } else { "" };
        format!("{} has {len} bytes{more}", self.name)
    }

    /// A line that says how long this file is and how long it should be, if it has a wrong length.
    fn wrong_length(&self, depth: Depth) -> Option<String> {
        let wanted = self.kind.wanted(depth, self.len())?;
        let hint = match self.kind {
            Kind::Record if self.is_print() => ": cedunmi typed makes one of a print",
            Kind::Record if self.len() == ROOT_BYTES as u64 => {
                "; it is a root, as it was before there were records: code the volume again, or \
                 make its record of what is known (cedunmi(1), RECORDS ON PAPER)"
            }
            _ => "",
        };
        Some(format!("{}; {wanted}{hint}", self.has()))
    }

    /// Whether it begins as a print does, with comments or without.
    fn is_print(&self) -> bool {
        self.bytes.starts_with(b"#") || self.bytes.to_ascii_lowercase().starts_with(b"depth")
    }

    /// Of a record that was refused, what is wrong with it.
    fn wrong_record(&self, depth: u64) -> Option<String> {
        record::wrong(&self.name, self.of_kind(Kind::Record)?, depth)
    }

    /// Which table it is, or which one it names.
    fn table(&self) -> Option<String> {
        match self.of_kind(Kind::Table) {
            Some(table) => record::is(&self.name, table),
            None => self.named(),
        }
    }

    /// Of a record, which table it names.
    fn named(&self) -> Option<String> {
        record::named(&self.name, self.of_kind(Kind::Record)?)
    }

    /// Its bytes, if it is of this kind.
    fn of_kind(&self, kind: Kind) -> Option<&[u8]> {
        Some(&self.bytes[..]).filter(|_| self.kind == kind)
    }

    /// Of a table that is one of another depth, which; whether it covers every page or not.
    fn other_depth(&self) -> Option<String> {
        let table = self.of_kind(Kind::Table)?;
        let well_formed = |checked| matches!(checked, Ok(()) | Err(Stop::Uncovered { .. }));
        let mut layers = depths::all().map(Depth::layers);
        let depth =
            layers.find(|layers| well_formed(cedunmi::check_table(*layers as u64, table)))?;
        Some(format!("{} is a table of depth {depth}", self.name))
    }

    /// Of a table that leaves this page in fewer than two equations, what becomes of the page.
    fn uncovered(&self, layer: usize, page: usize) -> Option<String> {
        open_to_loss(&self.name, self.of_kind(Kind::Table)?, layer, page)
    }

    /// Of marks that were typed, what they should be.
    fn characters(&self) -> Option<String> {
        let marks = self.of_kind(Kind::Marks)?;
        marks.iter().all(|byte| b"01\n".contains(byte)).then(|| {
            format!("{} has the characters 0 and 1: marks are the bytes 0 and 1", self.name)
        })
    }
}

/// A call on these files that stopped, with what may have been meant.
pub fn stopped(stop: Stop, depth: u64, inputs: &[&Input]) -> Failure {
    let lines = match stop {
        Stop::WrongLength => {
            Depth::new(depth).map_or(Vec::new(), |depth| wrong_lengths(depth, inputs))
        }
        Stop::WrongTable { .. } => inputs
            .iter()
            .filter_map(|input| input.other_depth().or_else(|| input.named()))
            .collect(),
        Stop::Uncovered { layer, symbol } => {
            let (layer, page) = (layer as usize, symbol as usize);
            inputs.iter().filter_map(|input| input.uncovered(layer, page)).collect()
        }
        Stop::WrongMark { .. } => inputs.iter().filter_map(|input| input.characters()).collect(),
        Stop::WrongRecord => inputs.iter().filter_map(|input| input.wrong_record(depth)).collect(),
        Stop::OtherTable => {
            let tables = inputs.iter().filter_map(|input| input.table());
            tables.chain(miscounted(inputs)).collect()
        }
        Stop::WrongNumber => Depth::new(depth).map(base_numbers).into_iter().collect(),
        _ => Vec::new(),
    };
    lines.into_iter().fold(Failure::stopped(stop), Failure::and)
}

/// Where the record has the hash of the table all the same, what is wrong with the record.
fn miscounted(inputs: &[&Input]) -> Option<String> {
    let table = inputs.iter().find_map(|input| input.of_kind(Kind::Table))?;
    let record = inputs.iter().find(|input| input.kind == Kind::Record)?;
    record::miscounted(&record.name, &record.bytes, table)
}

/// Which numbers base pages have.
fn base_numbers(depth: Depth) -> String {
    let last = depth.places(depth.layers() - 1).len() - 1;
    format!("at depth {} base pages have the numbers 0 to {last}", depth.layers())
}

/// Which of the files have a wrong length; a fault proof, whose length its head demands, if no other has.
fn wrong_lengths(depth: Depth, inputs: &[&Input]) -> Vec<String> {
    let of = |proof: bool| {
        let kind = inputs.iter().filter(move |input| (input.kind == Kind::Proof) == proof);
        kind.filter_map(|input| input.wrong_length(depth)).collect::<Vec<_>>()
    };
    let others = of(false);
    match others.is_empty() {
        true => of(true),
        false => others.into_iter().chain(two_depths(depth, inputs)).collect(),
    }
}

/// Where the record is of this depth, and tree or sample are as long as those of another: both.
fn two_depths(depth: Depth, inputs: &[&Input]) -> Option<String> {
    let of_depth = |input: &Input| {
        let record = input.of_kind(Kind::Record).map(Record::read);
        matches!(record, Some(Ok(record)) if record.depth == depth)
    };
    let record = inputs.iter().find(|input| of_depth(input))?;
    let (said, named) = (depth.layers(), &record.name);
    let mut sized = inputs.iter().filter(|input| matches!(input.kind, Kind::Tree | Kind::Sample));
    sized.find_map(|input| {
        let fits = |depth: &Depth| input.kind.wanted(*depth, input.len()).is_none();
        let other = depths::all().find(fits).filter(|other| *other != depth)?;
        let (kind, _) = input.kind.sized(other)?;
        let (name, other) = (&input.name, other.layers());
        Some(format!("{named} says depth {said}; {name} is as long as a {kind} of depth {other}"))
    })
}

/// The same of a call that names an absent page in its own way: which page of the tree it is.
pub fn stopped_at(
    stop: Stop,
    depth: u64,
    inputs: &[&Input],
    place: impl Fn(Depth, usize) -> usize,
) -> Failure {
    match (stop, Depth::new(depth)) {
        (Stop::Absent { number }, Some(depth)) => {
            let page = place(depth, number as usize);
            Failure::numbered(stop, &format!("{}: page {page}", stop.meaning()))
        }
        _ => stopped(stop, depth, inputs),
    }
}
