//! Reading the house table, beside the reference and beside hashing, and reading a long table.

use crate::depths::{calls, depths};
use crate::turns::{each, shortest, Work};
use crate::volume::{hash, house, long};
use reference::table::{self, to_bytes, write, Layers};
use reference::tree::{tree_symbols, SYMBOL};

/// A table as it is lent.
struct Lent {
    depth: u64,
    bytes: Vec<u8>,
}

impl Lent {
    fn new(layers: &Layers) -> Lent {
        Lent { depth: layers.len() as u64, bytes: to_bytes(&write(layers)) }
    }

    /// Reads in one trial.
    fn times(&self) -> usize {
        calls(64, self.depth)
    }

    fn read(&self) {
        assert_eq!(cedunmi_sys::cmt_table_check(self.depth, &self.bytes), 0);
    }
}

const WORK: [Work<Lent>; 3] = [
    ("cedunmi", |t| each(t.times(), || t.read())),
    ("reference", |t| each(t.times(), || assert!(table::check_bytes(t.depth, &t.bytes).is_ok()))),
    ("sixteenth", |t| each(t.times(), || hash(&[0; SYMBOL], tree_symbols(t.depth as usize) / 16))),
];

const LONG: [Work<Lent>; 1] = [("long", |t| each(t.times(), || t.read()))];

/// Prints name, words and the shortest time of each over the trials, taken in turns.
pub fn time(trials: usize) -> Result<(), String> {
    for depth in depths() {
        print(trials, &WORK, Lent::new(&house(depth)));
        print(trials, &LONG, Lent::new(&long(depth)));
    }
    Ok(())
}

fn print(trials: usize, works: &[Work<Lent>], mut lent: Lent) {
    for (name, best) in shortest(trials, lent.depth, works, &mut lent) {
        println!("{name} {} {best:.1}", lent.bytes.len() / 4);
    }
}
