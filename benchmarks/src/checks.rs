//! Checking the longest fault proof, with a table like the house table and with a long one, and a sample, beside the reference, beside
//! hashing alone and beside reading and hashing the table alone.

use crate::depths::{calls, depths};
use crate::turns::{each, shortest, Work};
use crate::volume::{
    coded, forget_hash, hash, hash_table, house, long, with_end, with_table, Volume, PLAIN,
};
use reference::proof::{self, Head};
use reference::sample;
use reference::table::Layers;

/// The sampled base symbol.
const NUMBER: u64 = 13;

/// The other members in the last equation, for a tree of the house table and for one of the long table.
pub const HOUSE_END: [usize; 7] = [0, 1, 2, 3, 4, 5, 7];
const LONG_END: [usize; 7] = [1, 2, 3, 4, 5, 6, 7];

/// A sample, or a proof, with the tree that it is of.
pub struct Checked {
    pub volume: Volume,
    pub bytes: Vec<u8>,
    hashes: usize,
}

impl Checked {
    /// A proof of a tree of a kind that is coded by a table, by the same table with these members beside the last one in its last
    /// equation: the record names that.
    pub fn longest_proof(kind: u64, table: Layers, members: [usize; 7]) -> Checked {
        let coded = coded(kind, &table);
        let layers = with_end(table, &members);
        let volume = with_table(coded, &layers);
        let (layer, equation) = (layers.len() - 1, layers[layers.len() - 1].len() - 1);
        let members = &layers[layer][equation];
        let head = Head { layer, equation, withheld: members[members.len() - 1] };
        let bytes = proof::write(head, members, &volume.tree);
        // The hash of the exclusive-or, too.
        let hashes = head.symbols(members).len() + 1;
        Checked { volume, bytes, hashes }
    }

    pub fn sample(kind: u64, depth: usize) -> Checked {
        let v = coded(kind, &house(depth));
        let mut bytes = vec![0; sample::sample_len(depth)];
        let taken = cedunmi_sys::cmt_sample_take(v.depth, NUMBER, &v.tree, &v.marks, &mut bytes);
        assert_eq!(taken, 0);
        Checked { volume: v, bytes, hashes: 2 * depth - 1 }
    }

    /// Checks in one trial.
    fn times(&self) -> usize {
        calls(16, self.volume.depth)
    }

    /// The nanoseconds of a check of the proof.
    pub fn proof_time(&mut self) -> f64 {
        let Checked { volume: v, bytes, .. } = &*self;
        each(self.times(), || {
            assert_eq!(cedunmi_sys::cmt_proof_check(v.depth, &v.record, &v.table, bytes), 0);
        })
    }

    /// The nanoseconds of a check of the sample.
    pub fn sample_time(&mut self) -> f64 {
        let Checked { volume: v, bytes, .. } = &*self;
        each(self.times(), || {
            assert_eq!(cedunmi_sys::cmt_sample_check(v.depth, NUMBER, &v.record, bytes), 0);
        })
    }
}

const PROOF: [Work<Checked>; 5] = [
    ("cedunmi", Checked::proof_time),
    ("reference", |c| {
        let Checked { volume: v, bytes, .. } = &*c;
        each(c.times(), || {
            forget_hash();
            assert!(proof::check(v.depth, &v.record, &v.table, bytes).is_ok());
        })
    }),
    HASHES,
    ("reading", |c| {
        let v = &c.volume;
        each(c.times(), || assert_eq!(cedunmi_sys::cmt_table_check(v.depth, &v.table), 0))
    }),
    ("naming", |c| each(c.times(), || hash_table(&c.volume.table))),
];

const SAMPLE: [Work<Checked>; 3] = [
    ("cedunmi", Checked::sample_time),
    ("reference", |c| {
        let Checked { volume: v, bytes, .. } = &*c;
        each(c.times(), || assert!(sample::check(v.depth, NUMBER, &v.record, bytes).is_ok()))
    }),
    HASHES,
];

const HASHES: Work<Checked> = ("hashes", |c| each(c.times(), || hash(&c.volume.tree, c.hashes)));

/// Prints name, what is checked, depth, its bytes and the shortest time of each over the trials, taken in turns.
pub fn time(trials: usize) -> Result<(), String> {
    for depth in depths() {
        print(trials, "proof", &PROOF, Checked::longest_proof(PLAIN, house(depth), HOUSE_END));
        print(trials, "long", &PROOF, Checked::longest_proof(PLAIN, long(depth), LONG_END));
        print(trials, "sample", &SAMPLE, Checked::sample(PLAIN, depth));
    }
    Ok(())
}

fn print(trials: usize, what: &str, works: &[Work<Checked>], mut checked: Checked) {
    let depth = checked.volume.depth;
    for (name, best) in shortest(trials, depth, works, &mut checked) {
        println!("{name} {what} {depth} {} {best:.1}", checked.bytes.len());
    }
}
