//! The kinds of volume: in words, and what shows that a record is of another kind than what came with it.

use crate::report::Pages;
use cedunmi::{Depth, Kind, Place, Record, Stop, DIGEST_BYTES};

/// What a report calls a kind.
pub fn called(kind: Kind) -> &'static str {
    match kind {
        Kind::Placed => "kind 00, with places",
        Kind::Plain => "kind 01, plain",
    }
}

/// What a print calls a kind, after the depth.
pub fn word(kind: Kind) -> &'static str {
    match kind {
        Kind::Placed => "placed",
        Kind::Plain => "plain",
    }
}

/// A record with the other kind in its first word.
pub fn of_other_kind(record: &[u8]) -> Vec<u8> {
    let mut other = record.to_vec();
    other[0] ^= 1 << 6;
    other
}

/// What is checked by a record.
#[derive(Clone, Copy, Debug, PartialEq, Eq)]
pub enum What {
    Tree,
    Sample,
    Proof,
}

impl What {
    fn name(self) -> &'static str {
        match self {
            What::Tree => "tree",
            What::Sample => "sample",
            What::Proof => "proof",
        }
    }

    /// What to do with one that agrees with itself by the other kind than the record's. A forged one does so too, so that
    /// no record is to be taken but the manual's; and only whole volumes are recoded, so that a proof is of no recoded one.
    fn to_do(self, said: &str, other: &str) -> String {
        match self {
            What::Tree => "if it was recoded, recode it by the record that came with it, and compare the record that this gives with the manual's".to_string(),
            What::Sample => format!("ask for one of a tree of {said}, or for the manual's record of {other}"),
            What::Proof => "it is not against the volume of this record: turn it down".to_string(),
        }
    }
}

/// What is of another kind than the record says.
#[derive(Clone, Copy, Debug, PartialEq, Eq)]
pub enum Other {
    /// The root in the record itself.
    Root,
    /// What is checked by it, up to the root: it agrees with itself.
    Checked,
}

impl Other {
    /// That it is so, where WHAT is checked by a record, and what to do.
    pub fn line(self, record: &[u8], what: What) -> Option<String> {
        let kind = Record::read(record).ok()?.kind;
        let (said, other) = (called(kind), called(kind.other()));
        Some(match self {
            Other::Root => format!("this record says {said}, but its root fits as one of {other}: compare it with the manual"),
            Other::Checked => {
                let (name, to_do) = (what.name(), what.to_do(said, other));
                format!("this {name} agrees with itself as one of {other}, and the record is of {said}: {to_do}")
            }
        })
    }
}

/// Of a tree whose top layer is lost by its record, whether that may be for the kind: by the other one a page of that layer
/// fits the root, or one of the next layer a page of that.
pub fn of_tree(depth: Depth, record: &[u8], pages: Pages) -> Option<Other> {
    let Record { kind, root, .. } = Record::read(record).ok()?;
    let fits = |layer: usize, number: usize, hashes: &[u8], slot: usize| {
        let place = depth.places(layer).start + number;
        let hash = kind.other().hash(Place { layer, number }, pages.page(place));
        let committed = &hashes[DIGEST_BYTES * slot..][..DIGEST_BYTES];
        pages.held(place) && hash.map_or(false, |hash| hash == committed)
    };
    if (0..depth.places(0).len()).any(|number| fits(0, number, &root, number)) {
        return Some(Other::Root);
    }
    let leads = |number: usize| {
        let (above, slot) = (number % depth.data(0), number / depth.data(0));
        pages.held(above) && fits(1, number, pages.page(above), slot)
    };
    let below = if depth.layers() > 1 { depth.places(1).len() } else { 0 };
    (0..below).any(leads).then_some(Other::Checked)
}

/// Of what breaks by a record, and how it ends by the same record of the other kind, whether that is for the kind.
pub fn of_stop(broken: Stop, by_other: Result<(), Stop>) -> Option<Other> {
    match (broken, by_other) {
        (Stop::WrongHash { .. }, Ok(()) | Err(Stop::NoFault)) => Some(Other::Root),
        (Stop::WrongHash { layer: 1.., .. }, Err(Stop::WrongHash { layer: 0, .. })) => {
            Some(Other::Checked)
        }
        _ => None,
    }
}
