//! Repairing trees with the house table, beside the reference and beside hashing alone, and with the worst tables.

use crate::depths::{calls, depths, offered};
use crate::turns::{each, shortest, Work};
use crate::volume::{
    code, coded, forget_hash, hash, hash_table, house, of_kind, with_table, Volume, PLAIN,
};
use linear::lossy::Lossy;
use linear::search::looked_at;
use linear::worst::{self, Chain};
use reference::proof::proof_len;
use reference::repair::{output_len, repair, End, Repaired};
use reference::tree::place;

/// A tree as it is lent, and the buffers that are.
pub struct Lent {
    pub volume: Volume,
    tree: Vec<u8>,
    marks: Vec<u8>,
    output: Vec<u8>,
    /// What its repair gives.
    result: u64,
    /// The hashes of symbols that no repair can do without: of each that is held
    /// in a layer that is entered, and of each that is formed.
    hashes: usize,
}

impl Lent {
    fn new(volume: Volume, Repaired { end, stored }: Repaired) -> Lent {
        let depth = volume.depth as usize;
        let (number, more, layers) = match end {
            End::Whole => (0, 0, depth),
            End::Fault(bytes) => (1, bytes, depth),
            End::Unavailable(layer) => (2, layer, layer + 1),
            End::Twins(_) => (3, 0, depth),
            End::Misfilled => (13, 0, depth),
        };
        let held = volume.marks[..place(layers, 0)].iter().filter(|&&mark| mark == 1).count();
        Lent {
            tree: volume.tree.clone(),
            marks: volume.marks.clone(),
            output: vec![0; output_len(depth)],
            result: number << 8 | (stored as u64) << 32 | (more as u64) << 48,
            hashes: held + stored + usize::from(number == 1),
            volume,
        }
    }

    /// Puts back what a repair changed, and lets the reference hash the table again.
    fn put_back(&mut self) {
        forget_hash();
        self.tree.copy_from_slice(&self.volume.tree);
        self.marks.copy_from_slice(&self.volume.marks);
    }

    pub fn cedunmi(&mut self) {
        let Lent { volume: v, tree, marks, output, .. } = self;
        let result = cedunmi_sys::cmt_repair(v.depth, &v.record, &v.table, tree, marks, output);
        assert_eq!(result, self.result);
    }

    fn reference(&mut self) {
        let Lent { volume: v, tree, marks, output, .. } = self;
        let done = repair(v.depth, &v.record, &v.table, tree, marks, output).expect("a repair");
        assert_eq!(done.stored as u64, self.result >> 32 & 0xffff);
    }

    /// Repairs in one trial.
    fn times(&self) -> usize {
        calls(4, self.volume.depth)
    }

    /// The nanoseconds of a repair, of some, each on what was lent.
    pub fn timed(&mut self, run: fn(&mut Lent)) -> f64 {
        let mut sum = 0.0;
        for _ in 0..self.times() {
            self.put_back();
            sum += each(1, || run(self));
        }
        sum / self.times() as f64
    }
}

const WORK: [Work<Lent>; 4] = [
    ("cedunmi", |lent| lent.timed(Lent::cedunmi)),
    ("reference", |lent| lent.timed(Lent::reference)),
    ("hashes", |lent| {
        each(lent.times(), || {
            hash(&lent.volume.tree, lent.hashes);
            hash_table(&lent.volume.table);
        })
    }),
    ("naming", |lent| each(lent.times(), || hash_table(&lent.volume.table))),
];

/// A name, and a table with what is lost.
type Case = (&'static str, fn(usize) -> Lossy);
const HOUSE: [Case; 5] = [
    ("0", |depth| Lossy::new(house(depth))),
    ("12.4", |depth| Lossy::whole(depth, 124)),
    ("25", |depth| Lossy::whole(depth, 250)),
    ("47", |depth| Lossy::whole(depth, 470)),
    ("stopping", |depth| Lossy::stopping(depth, 470)),
];
const WORST: [Case; 8] = [
    ("up-0", |depth| Lossy::new(worst::layers(depth, Chain::Up, 470))),
    ("up-12.4", |depth| Lossy::worst(depth, Chain::Up, 124)),
    ("up-25", |depth| Lossy::worst(depth, Chain::Up, 250)),
    ("up-47", |depth| Lossy::worst(depth, Chain::Up, 470)),
    ("down-0", |depth| Lossy::new(worst::layers(depth, Chain::Down, 470))),
    ("down-12.4", |depth| Lossy::worst(depth, Chain::Down, 124)),
    ("down-25", |depth| Lossy::worst(depth, Chain::Down, 250)),
    ("down-47", |depth| Lossy::worst(depth, Chain::Down, 470)),
];

/// A tree of a kind, as it is lent.
pub fn lent(kind: u64, lossy: Lossy) -> Lent {
    let repaired = lossy.repaired();
    Lent::new(of_kind(kind, lossy.written()), repaired)
}

/// A tree of the house table, with a table that has another member in its last equation, which the record names: by it, the tree has a
/// fault in its base.
fn fault(depth: usize) -> Lent {
    let mut layers = house(depth);
    let coded = coded(PLAIN, &layers);
    let last = layers.last_mut().and_then(|equations| equations.last_mut()).expect("an equation");
    last[0] -= 1;
    let end = End::Fault(proof_len(depth - 1, last.len()));
    Lent::new(with_table(coded, &layers), Repaired { end, stored: 0 })
}

/// A tree of no bytes: all of its block is filling, which a repair looks at.
fn empty(depth: usize) -> Lent {
    let mut volume = Volume::new(&house(depth));
    volume.block.clear();
    code(PLAIN, &mut volume);
    Lent::new(volume, Repaired { end: End::Whole, stored: 0 })
}

/// Prints name, case, depth, symbols and the shortest time of each over the trials, taken in turns.
pub fn time(trials: usize) -> Result<(), String> {
    for depth in depths() {
        for (case, of_depth) in HOUSE.into_iter().chain(WORST) {
            print(trials, case, lent(PLAIN, of_depth(depth)));
        }
        print(trials, "fault", fault(depth));
        if offered("empty", depth as u64) {
            print(trials, "empty", empty(depth));
        }
    }
    Ok(())
}

fn print(trials: usize, case: &str, mut lent: Lent) {
    let (depth, symbols) = (lent.volume.depth, lent.marks.len());
    for (name, best) in shortest(trials, depth, &WORK, &mut lent) {
        println!("{name} {case} {depth} {symbols} {best:.1}");
    }
}

/// Prints case, depth, symbols, and the equations that a search looks at in all layers that goes back after each store.
pub fn count() -> Result<(), String> {
    for depth in depths() {
        for (case, of_depth) in HOUSE.into_iter().chain(WORST) {
            let Lossy { layers, absent } = of_depth(depth);
            let symbols: usize = absent.iter().map(Vec::len).sum();
            let looked: usize = layers.iter().zip(&absent).map(|(e, a)| looked_at(e, a)).sum();
            println!("{case} {depth} {symbols} {looked}");
        }
    }
    Ok(())
}
