//! Writing trees with the house table, beside the reference and beside hashing alone, and with a long table.

use crate::depths::{calls, depths};
use crate::turns::{each, shortest, Work};
use crate::volume::{code, hash, hash_table, house, long, write_plainly, Volume, PLAIN};

/// Trees in one trial.
fn times(v: &Volume) -> usize {
    calls(8, v.depth)
}

const WORK: [Work<Volume>; 4] = [
    ("cedunmi", |v| each(times(v), || code(PLAIN, v))),
    ("reference", |v| each(times(v), || write_plainly(v))),
    ("hashes", |v| {
        each(times(v), || {
            hash(&v.tree, v.marks.len());
            hash_table(&v.table);
        })
    }),
    ("naming", |v| each(times(v), || hash_table(&v.table))),
];

const LONG: [Work<Volume>; 2] = [
    ("long", |v| each(times(v), || code(PLAIN, v))),
    ("long-naming", |v| each(times(v), || hash_table(&v.table))),
];

/// Prints name, depth, bytes of the block and the shortest time of each over the trials, taken in turns.
pub fn time(trials: usize) -> Result<(), String> {
    for depth in depths() {
        print(trials, &WORK, Volume::new(&house(depth)));
        print(trials, &LONG, Volume::new(&long(depth)));
    }
    Ok(())
}

fn print(trials: usize, works: &[Work<Volume>], mut volume: Volume) {
    for (name, best) in shortest(trials, volume.depth, works, &mut volume) {
        println!("{name} {} {} {best:.1}", volume.depth, volume.block.len());
    }
}
