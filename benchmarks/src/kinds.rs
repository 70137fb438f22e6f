//! Volumes with places beside plain ones: writing, repairing and checking with the house table, and recoding one to the other.

use crate::checks::{Checked, HOUSE_END};
use crate::depths::{calls, depths};
use crate::repair::{lent, Lent};
use crate::turns::{each, shortest, Work};
use crate::volume::{code, coded, house, Volume, PLACED, PLAIN};
use linear::lossy::Lossy;

/// What is timed, of both kinds.
struct Both<S> {
    plain: S,
    placed: S,
}

impl<S> Both<S> {
    fn new(of_kind: impl Fn(u64) -> S) -> Both<S> {
        Both { plain: of_kind(PLAIN), placed: of_kind(PLACED) }
    }
}

/// A volume, and the buffers that it is recoded into.
struct Recoded {
    from: Volume,
    to: Volume,
}

impl Recoded {
    fn new(kind: u64, depth: usize) -> Recoded {
        Recoded { from: coded(kind, &house(depth)), to: Volume::new(&house(depth)) }
    }

    /// The nanoseconds to make the other kind of it.
    fn time(&mut self) -> f64 {
        let (v, to) = (&self.from, &mut self.to);
        let (tree, marks, record) = (&mut to.tree, &mut to.marks, &mut to.record);
        each(calls(4, v.depth), || {
            let result = cedunmi_sys::cmt_recode(
                v.depth, &v.record, &v.table, &v.tree, &v.marks, tree, marks, record,
            );
            assert_eq!(result, 0);
        })
    }
}

fn write(kind: u64, volume: &mut Volume) -> f64 {
    each(calls(8, volume.depth), || code(kind, volume))
}

const WRITE: [Work<Both<Volume>>; 2] = [
    ("plain", |both| write(PLAIN, &mut both.plain)),
    ("placed", |both| write(PLACED, &mut both.placed)),
];
const REPAIR: [Work<Both<Lent>>; 2] = [
    ("plain", |both| both.plain.timed(Lent::cedunmi)),
    ("placed", |both| both.placed.timed(Lent::cedunmi)),
];
const PROOF: [Work<Both<Checked>>; 2] =
    [("plain", |both| both.plain.proof_time()), ("placed", |both| both.placed.proof_time())];
const SAMPLE: [Work<Both<Checked>>; 2] =
    [("plain", |both| both.plain.sample_time()), ("placed", |both| both.placed.sample_time())];
const RECODE: [Work<Both<Recoded>>; 2] =
    [("plain", |both| both.plain.time()), ("placed", |both| both.placed.time())];

/// Prints the kind, what is done, the depth and the shortest time over the trials, taken in turns.
pub fn time(trials: usize) -> Result<(), String> {
    for depth in depths() {
        print(trials, depth, "write", &WRITE, |_| Volume::new(&house(depth)));
        print(trials, depth, "whole", &REPAIR, |kind| lent(kind, Lossy::new(house(depth))));
        print(trials, depth, "lossy", &REPAIR, |kind| lent(kind, Lossy::whole(depth, 250)));
        let proof = |kind| Checked::longest_proof(kind, house(depth), HOUSE_END);
        print(trials, depth, "proof", &PROOF, proof);
        print(trials, depth, "sample", &SAMPLE, |kind| Checked::sample(kind, depth));
        print(trials, depth, "recode", &RECODE, |kind| Recoded::new(kind, depth));
    }
    Ok(())
}

fn print<S>(
    trials: usize,
    depth: usize,
    what: &str,
    works: &[Work<Both<S>>],
    of_kind: impl Fn(u64) -> S,
) {
    let mut both = Both::new(of_kind);
    for (kind, best) in shortest(trials, depth as u64, works, &mut both) {
        println!("{kind} {what} {depth} {best:.1}");
    }
}
