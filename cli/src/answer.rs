//! The end of a repair in words: the one place where an end becomes lines and a status.

use crate::failure::{DAMAGED, ENDS};
use crate::report::{layers, Layer, Pages};
use crate::volume::{self, Other, What};
use cedunmi::{Depth, End, Place, Repaired};

/// Where what a repair shows goes.
pub enum Shown<'a> {
    /// Nowhere: nothing is written.
    Nowhere,
    In(&'a str),
}

/// What a repair was given, and what it left.
pub struct Compared<'a> {
    pub depth: Depth,
    pub record: &'a [u8],
    pub before: Pages<'a>,
    pub after: Pages<'a>,
}

/// The exit status of a repair that ended so.
pub fn status(end: &End) -> u8 {
    match end.number() {
        0 => 0,
        number => ENDS + number,
    }
}

/// The exit status where nothing is repaired: a tree that a repair would change is damaged.
pub fn status_as_is(repaired: &Repaired) -> u8 {
    match repaired {
        Repaired { stored: 0, end: End::Whole } => 0,
        Repaired { end: End::Whole, .. } => DAMAGED,
        Repaired { end, .. } => status(end),
    }
}

/// The report of a repair: layers, pages stored, end.
pub fn report(repaired: &Repaired, compared: &Compared, shown: &Shown) -> String {
    let (Repaired { stored, end }, Compared { depth, before, after, .. }) = (repaired, compared);
    let head = if let Shown::Nowhere = shown { "a repair would come to this:\n" } else { "" };
    let layers = layers(*depth, end, *before, *after);
    format!("{head}{layers}stored: {stored}\n{}\n", ended(end, compared, shown))
}

/// Half of the top layer: where so many of its pages are bad copies, the record may be another volume's.
const HALF: usize = 8;

impl Compared<'_> {
    fn layer(&self, layer: usize) -> Layer {
        Layer::compare(self.depth, layer, self.before, self.after)
    }

    /// Where it is for the record's kind that the top layer is lost: that it is, and what to do. A page by which the root
    /// fits shows it for sure; a tree that agrees with itself only where half of the layer are bad copies.
    pub fn by_kind(&self, end: &End) -> Option<String> {
        if *end != (End::Unavailable { layer: 0 }) {
            return None;
        }
        let other = volume::of_tree(self.depth, self.record, self.before)?;
        let shown = other == Other::Root || self.layer(0).bad.len() >= HALF;
        other.line(self.record, What::Tree).filter(|_| shown)
    }

    /// What to do where no equation gives another page of a layer.
    fn to_bring(&self, layer: usize) -> String {
        let Layer { bad, missing, .. } = self.layer(layer);
        let doubt = match layer == 0 && bad.len() >= HALF {
            true => "; most of them were held, and don't fit this record: is it the volume's?",
            false => "",
        };
        format!("bring some of its {} missing pages, and repair again{doubt}", missing.len())
    }
}

/// The end in one line, with what to do about it.
pub fn ended(end: &End, compared: &Compared, shown: &Shown) -> String {
    match (end, shown) {
        (End::Fault { proof }, Shown::In(name)) => {
            format!("{}; the proof of {} bytes is in {name}", end.meaning(), proof.len())
        }
        (End::Fault { proof }, Shown::Nowhere) => {
            format!("{}; the proof would have {} bytes", end.meaning(), proof.len())
        }
        (End::Unavailable { layer }, _) => {
            let to_do = compared.by_kind(end).unwrap_or_else(|| compared.to_bring(*layer));
            format!("unavailable: no equation gives another page of layer {layer}; {to_do}")
        }
        (End::Twins { place, .. }, _) => {
            let at = place.map_or(String::new(), |place| twins_at(compared.depth, place));
            let there = match shown {
                Shown::In(name) => format!("; they are in {name}"),
                Shown::Nowhere => String::new(),
            };
            format!("{}{at}{there}", end.meaning())
        }
        _ => end.meaning().to_string(),
    }
}

/// Which page twins are copies of.
fn twins_at(depth: Depth, Place { layer, number }: Place) -> String {
    let page = depth.places(layer).start + number;
    format!(": two of page {page} of the tree, number {number} of layer {layer}")
}

#[cfg(test)]
mod tests {
    use super::*;
    use crate::failure::{Failure, UNKNOWN};
    use cedunmi::{Kind, Stop};

    const WOULD: &str = "a repair would come to this:\n";

    fn depth() -> Depth {
        Depth::new(2).expect("a depth")
    }

    struct Held {
        tree: Vec<u8>,
        marks: Vec<u8>,
    }

    impl Held {
        fn pages(&self) -> Pages<'_> {
            Pages { tree: &self.tree, marks: &self.marks }
        }
    }

    /// A tree of which every page is held.
    fn held() -> Held {
        Held { tree: vec![0; depth().tree_bytes()], marks: vec![1; depth().symbols()] }
    }

    fn told(
        stored: usize,
        end: End,
        before: &Held,
        after: &Held,
        shown: &Shown,
    ) -> (String, u8, u8) {
        told_by(&[], Repaired { stored, end }, before, after, shown)
    }

    fn told_by(
        record: &[u8],
        repaired: Repaired,
        before: &Held,
        after: &Held,
        shown: &Shown,
    ) -> (String, u8, u8) {
        let (before, after) = (before.pages(), after.pages());
        let text = report(&repaired, &Compared { depth: depth(), record, before, after }, shown);
        (text, status(&repaired.end), status_as_is(&repaired))
    }

    #[test]
    fn whole() {
        let (after, mut before) = (held(), held());
        let said = "whole: every page is held, and the tree agrees with the record and the table\n";
        let none = "layer 0: 16 pages, 0 to 15: 0 absent, 0 bad; 0 stored, 0 missing\n\
                    layer 1: 32 pages, 16 to 47: 0 absent, 0 bad; 0 stored, 0 missing\n";
        let now = told(0, End::Whole, &before, &after, &Shown::Nowhere);
        assert_eq!(now, (format!("{WOULD}{none}stored: 0\n{said}"), 0, 0));
        before.marks[2] = 0;
        before.tree[256 * 5 + 255] = 1;
        before.tree[256 * 47] = 1;
        let lines = "layer 0: 16 pages, 0 to 15: 1 absent, 1 bad; 2 stored, 0 missing\n  bad copies: 5\n\
                     layer 1: 32 pages, 16 to 47: 0 absent, 1 bad; 1 stored, 0 missing\n  bad copies: 47\n";
        let now = told(3, End::Whole, &before, &after, &Shown::In("proof"));
        assert_eq!(now, (format!("{lines}stored: 3\n{said}"), 0, 30));
    }

    #[test]
    fn fault() {
        let proof = [&[0x40, 0, 0, 0][..], &[0; 776]].concat();
        let lines = "layer 0: 16 pages, 0 to 15: 0 absent, 0 bad; 0 stored, 0 missing\n\
                     layer 1: 32 pages, 16 to 47: not entered\nstored: 0\n\
                     fault: the volume was not coded as the table says; ";
        let now = |shown| told(0, End::Fault { proof: proof.clone() }, &held(), &held(), &shown);
        assert_eq!(
            now(Shown::In("a/proof")),
            (format!("{lines}the proof of 780 bytes is in a/proof\n"), 31, 31)
        );
        assert_eq!(
            now(Shown::Nowhere),
            (format!("{WOULD}{lines}the proof would have 780 bytes\n"), 31, 31)
        );
    }

    #[test]
    fn unavailable() {
        let (mut before, mut after) = (held(), held());
        before.marks[20] = 0;
        after.marks[20] = 0;
        after.marks[47] = 0;
        let lines = "layer 0: 16 pages, 0 to 15: 0 absent, 0 bad; 0 stored, 0 missing\n\
                     layer 1: 32 pages, 16 to 47: 1 absent, 1 bad; 0 stored, 2 missing\n\
                     \x20 bad copies: 47\n\x20 missing: 20 47\nstored: 0\n\
                     unavailable: no equation gives another page of layer 1; \
                     bring some of its 2 missing pages, and repair again\n";
        let now = told(0, End::Unavailable { layer: 1 }, &before, &after, &Shown::In("proof"));
        assert_eq!(now, (lines.to_string(), 32, 32));
    }

    /// Whole but for the filling: the tree is repaired as it is for whole, and the end says so.
    #[test]
    fn misfilled() {
        let (after, mut before) = (held(), held());
        let said = format!("{}\n", End::Misfilled.meaning());
        let now = told(0, End::Misfilled, &before, &after, &Shown::Nowhere);
        assert!(now.0.starts_with(WOULD) && now.0.ends_with(&format!("stored: 0\n{said}")));
        assert_eq!((now.1, now.2), (43, 43));
        before.marks[47] = 0;
        let now = told(1, End::Misfilled, &before, &after, &Shown::In("proof"));
        let last = "layer 1: 32 pages, 16 to 47: 1 absent, 0 bad; 1 stored, 0 missing\nstored: 1\n";
        assert!(now.0.ends_with(&format!("{last}{said}")));
        assert_eq!((now.1, now.2), (43, 43));
    }

    /// Most pages of the top layer are bad copies where the record is another volume's.
    #[test]
    fn another_record() {
        let mut after = held();
        after.marks[..13].copy_from_slice(&[0; 13]);
        let now = told(0, End::Unavailable { layer: 0 }, &held(), &after, &Shown::Nowhere);
        let last = "unavailable: no equation gives another page of layer 0; \
                    bring some of its 13 missing pages, and repair again; \
                    most of them were held, and don't fit this record: is it the volume's?";
        assert_eq!((now.0.lines().last(), now.1), (Some(last), 32));
    }

    /// So they are where the record's kind was changed, and where tree and record are of two kinds: that is said, and no page
    /// is to be brought.
    #[test]
    fn another_kind() {
        let table = cedunmi::house_table(2).expect("the house table");
        let code = |kind| cedunmi::code(2, kind, &table, &[7; 700]).expect("a tree");
        let mut after = held();
        after.marks[..13].copy_from_slice(&[0; 13]);
        let last = |tree: &[u8], marks: Vec<u8>, record: &[u8]| {
            let before = Held { tree: tree.to_vec(), marks };
            let repaired = Repaired { stored: 0, end: End::Unavailable { layer: 0 } };
            let (text, ..) = told_by(record, repaired, &before, &after, &Shown::Nowhere);
            let line = text.lines().last().expect("an end");
            let end = "unavailable: no equation gives another page of layer 0; ";
            line.strip_prefix(end).expect("this end").to_string()
        };
        let (placed, plain) = (code(Kind::Placed), code(Kind::Plain));
        let flipped = volume::of_other_kind(&placed.record);
        let root = "this record says kind 01, plain, but its root fits as one of kind 00, with places: compare it with the manual";
        assert_eq!(last(&placed.tree, vec![1; 48], &flipped), root);
        let tree = "this tree agrees with itself as one of kind 01, plain, and the record is of kind 00, with places: if it was recoded, recode it by the record that came with it, and compare the record that this gives with the manual's";
        assert_eq!(last(&plain.tree, vec![1; 48], &placed.record), tree);
        // One page shows it of the record; of the tree one page and its hash do not.
        let but = |held: &[usize]| (0..48).map(|place| held.contains(&place).into()).collect();
        assert_eq!(last(&placed.tree, but(&[15]), &flipped), root);
        let bring = "bring some of its 13 missing pages, and repair again";
        assert_eq!(last(&plain.tree, but(&[0, 16]), &placed.record), bring);
        let neither = format!(
            "{bring}; most of them were held, and don't fit this record: is it the volume's?"
        );
        let top = [vec![1; 16], vec![0; 32]].concat();
        assert_eq!(last(&plain.tree, top, &placed.record), neither);
        assert_eq!(last(&[9; 12288], vec![1; 48], &placed.record), neither);
        assert_eq!(last(&placed.tree, vec![1; 48], &placed.record), neither);
    }

    /// Of a plain volume no place is told; with places the page is, and the layers below were not entered.
    #[test]
    fn twins() {
        let now = |place, shown| {
            told(7, End::Twins { symbols: vec![0; 512], place }, &held(), &held(), &shown)
        };
        let said = "stored: 7\ntwins: two different pages of equal hash were found";
        let plain = now(None, Shown::In("twins"));
        assert!(plain.0.ends_with(&format!("0 missing\n{said}; they are in twins\n")));
        assert_eq!((plain.1, plain.2), (33, 33));
        assert!(now(None, Shown::Nowhere).0.ends_with(&format!("{said}\n")));
        let place = Some(Place { layer: 1, number: 9 });
        let at = ": two of page 25 of the tree, number 9 of layer 1";
        let placed = now(place, Shown::In("twins"));
        assert!(placed.0.ends_with(&format!("{said}{at}; they are in twins\n")));
        assert!(now(place, Shown::Nowhere).0.ends_with(&format!("{said}{at}\n")));
        let place = Some(Place { layer: 0, number: 15 });
        assert!(now(place, Shown::Nowhere).0.contains("layer 1: 32 pages, 16 to 47: not entered"));
    }

    /// Every stop there is: its status is its number, and its line begins with it.
    #[test]
    fn stops() {
        let stops = [
            (Stop::WrongDepth, "the depth is not 1 to 9"),
            (Stop::WrongLength, "a length is wrong"),
            (Stop::WrongTable { word: 61 }, "the table breaks a rule: word 61 is the first wrong one, or the table ends there"),
            (Stop::WrongMark { place: 3 }, "a mark is neither 0 nor 1: that of page 3 is the lowest such"),
            (Stop::WrongNumber, "the base has no page of this number"),
            (
                Stop::WrongHead,
                "the proof's head has a wrong kind, layer or equation, or the equation has no such member",
            ),
            (
                Stop::WrongHash { layer: 2, position: Some(3) },
                "a hash doesn't lead to the root: layer 2, position 3",
            ),
            (Stop::NoFault, "the withheld hash fits: the proof shows no fault"),
            (Stop::Absent { number: 4 }, "a needed page is absent: number 4"),
            (
                Stop::Uncovered { layer: 2, symbol: 5 },
                "a data page stands in fewer than two equations of its layer: page 5 of layer 2, counted in that layer, is the first such",
            ),
            (Stop::WrongRecord, Stop::WrongRecord.meaning()),
            (Stop::OtherTable, Stop::OtherTable.meaning()),
            (Stop::NotWhole, "the tree is not whole as it is, so it is not recoded"),
        ];
        for (number, (stop, line)) in (1..=12).chain([14]).zip(stops) {
            let failure = Failure::stopped(stop);
            let line = format!("{line} (number {number}: cedunmi explain {number})");
            assert_eq!((failure.status, failure.lines), (number, vec![line]));
        }
        let of_sample = Stop::WrongHash { layer: 2, position: None };
        assert_eq!(of_sample.to_string(), "a hash doesn't lead to the root: layer 2");
        let failure = Failure::stopped(Stop::Unknown { result: 0x1ff });
        assert_eq!(
            (failure.status, &failure.lines[0][..]),
            (UNKNOWN, "a number that no call gives: 0x1ff")
        );
    }
}
