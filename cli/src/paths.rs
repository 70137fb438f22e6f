//! Where a path breaks: which page of a sample or of a fault proof has another hash than the page above it, or the
//! root, has for it; and which page to ask for again.

use crate::failure::Failure;
use crate::members::{members, words};
use crate::volume::{self, What};
use cedunmi::{
    Depth, Kind, Place, Record, Stop, DIGEST_BYTES, PROOF_HEAD_BYTES, ROOT_BYTES, SYMBOL_BYTES,
};

/// A file that a sample or a proof came in.
pub struct File<'a> {
    pub name: &'a str,
    pub bytes: &'a [u8],
}

/// A page of such a file: its layer, its number there, and where in the file it begins.
struct Page<'a> {
    layer: usize,
    number: usize,
    at: usize,
    bytes: &'a [u8],
}

/// The pages of a way up to a root: of each layer a data page; the lowest may be of parity, and in a sample each layer
/// has a parity page beside it.
struct Way<'a> {
    depth: Depth,
    kind: Kind,
    root: [u8; ROOT_BYTES],
    pages: Vec<Page<'a>>,
    file: &'a str,
    /// What must be so, or other pages came than are looked for.
    right: String,
    /// What is said where it is the record's kind by which it breaks.
    kinds: Option<String>,
}

/// A sample that stopped with 7: which pages don't fit, and what to do.
pub fn of_sample(stop: Stop, number: u64, record: &[u8], sample: File) -> Option<Failure> {
    let (layer, _) = broken_at(stop)?;
    let Record { depth, kind, root, .. } = Record::read(record).ok()?;
    let sampled = |(index, bytes)| {
        let layer = depth.layers() - 1 - (index + 1) / 2;
        let place = depth.sampled_place(number as usize, index);
        Page { layer, number: place - depth.places(layer).start, at: SYMBOL_BYTES * index, bytes }
    };
    let pages = sample.bytes.chunks_exact(SYMBOL_BYTES).enumerate().map(sampled).collect();
    let right = format!("this record is the volume's, and the sample that of base page {number}");
    let layers = depth.layers() as u64;
    let by_other =
        cedunmi::check_sample(layers, number, &volume::of_other_kind(record), sample.bytes);
    let kinds = volume::of_stop(stop, by_other).and_then(|other| other.line(record, What::Sample));
    Way { depth, kind, root, pages, file: sample.name, right, kinds }.failure(stop, layer, "")
}

/// The same of a fault proof.
pub fn of_proof(stop: Stop, record: &[u8], table: &[u8], proof: File) -> Option<Failure> {
    let (layer, position) = broken_at(stop)?;
    let (Record { depth, kind, root, .. }, position) = (Record::read(record).ok()?, position?);
    let (start, member, given) = member_at(table, proof.bytes, position)?;
    let whose = match (given, layer == start) {
        (true, true) => ", a given member".to_string(),
        (true, false) => format!(", in the path of member {member}"),
        (false, _) => format!(", in the path of the withheld member {member}"),
    };
    let first = PROOF_HEAD_BYTES + SYMBOL_BYTES * (start + 1) * position;
    let layers = if given { 0..start + 1 } else { 0..start };
    let step = |((index, bytes), layer)| {
        let number = if layer == start { member } else { member % depth.data(layer) };
        Page { layer, number, at: first + SYMBOL_BYTES * index, bytes }
    };
    let symbols = proof.bytes.get(first..)?.chunks_exact(SYMBOL_BYTES).enumerate();
    let pages = symbols.zip(layers.rev()).map(step).collect();
    let right = "this record is the volume's".to_string();
    let layers = depth.layers() as u64;
    let by_other = cedunmi::check_proof(layers, &volume::of_other_kind(record), table, proof.bytes);
    let kinds = volume::of_stop(stop, by_other).and_then(|other| other.line(record, What::Proof));
    Way { depth, kind, root, pages, file: proof.name, right, kinds }.failure(stop, layer, &whose)
}

/// The member at a position of a proof: its layer, its number there, and whether it is given; the withheld one comes
/// after those that are.
fn member_at(table: &[u8], proof: &[u8], position: usize) -> Option<(usize, usize, bool)> {
    let head: Vec<usize> = words(proof).take(3).map(|(_, value)| value).collect();
    let (layer, withheld) = (*head.first()?, *head.get(2)?);
    let those = members(table).filter(|member| head.starts_with(&[member.layer, member.equation]));
    let mut given = those.map(|member| member.page).filter(|page| *page != withheld);
    let found = given.nth(position);
    Some((layer, found.unwrap_or(withheld), found.is_some()))
}

/// The layer of a stop with 7, and of a proof the position.
fn broken_at(stop: Stop) -> Option<(usize, Option<usize>)> {
    match stop {
        Stop::WrongHash { layer, position } => {
            Some((layer as usize, position.map(|position| position as usize)))
        }
        _ => None,
    }
}

/// Numbers after the name of what they count: `page 4`, `pages 4 and 9`.
fn listed(name: &str, numbers: impl Iterator<Item = usize>) -> String {
    let numbers: Vec<String> = numbers.map(|number| number.to_string()).collect();
    let plural = if numbers.len() == 1 { "" } else { "s" };
    format!("{name}{plural} {}", numbers.join(" and "))
}

impl Way<'_> {
    /// The page above one, which has its hash; none above layer 0.
    fn above(&self, page: &Page) -> Option<&Page<'_>> {
        self.pages.iter().find(|other| other.layer + 1 == page.layer && self.is_data(other))
    }

    fn is_data(&self, page: &Page) -> bool {
        page.number < self.depth.data(page.layer)
    }

    fn place(&self, page: &Page) -> usize {
        self.depth.places(page.layer).start + page.number
    }

    /// Whether the page above, or the root, has this page's hash for it.
    fn fits(&self, page: &Page) -> bool {
        let (hashes, slot) = match self.above(page) {
            Some(above) => (above.bytes, page.number / self.depth.data(above.layer)),
            None => (&self.root[..], page.number),
        };
        let committed = hashes.chunks_exact(DIGEST_BYTES).nth(slot);
        let place = Place { layer: page.layer, number: page.number };
        let hash = self.kind.hash(place, page.bytes);
        hash.map_or(false, |hash| committed == Some(&hash[..]))
    }

    /// The failure where pages of this layer don't fit. WHOSE says more of the page.
    fn failure(&self, stop: Stop, layer: usize, whose: &str) -> Option<Failure> {
        let broken: Vec<&Page> =
            self.pages.iter().filter(|page| page.layer == layer && !self.fits(page)).collect();
        let above = self.above(broken.first()?);
        let to_do = self.kinds.clone().unwrap_or_else(|| self.to_do(&broken, above));
        let (pages, meaning) = (self.listed(&broken), stop.meaning());
        let numbers = listed("number", broken.iter().map(|page| page.number));
        let words = format!("{meaning}: {pages} of the tree, {numbers} of layer {layer}{whose}");
        Some(Failure::numbered(stop, &words).and(to_do))
    }

    /// What is said of the page above those that don't fit, and which to ask for again.
    fn to_do(&self, broken: &[&Page], above: Option<&Page>) -> String {
        let hash = if broken.len() == 1 { "another hash for it" } else { "other hashes for them" };
        let above = above.map(|page| format!("page {}", self.place(page)));
        match (above, self.topmost(broken[0].layer)) {
            (None, _) => format!("the root has {hash}: {}", self.to_ask(broken, "again")),
            (Some(above), None) => {
                let ask = self.to_ask(broken, "again");
                format!("{above} has {hash}, and leads to the root: {ask}")
            }
            (Some(above), Some(top)) => {
                let ask = self.to_ask(&[top], "again first");
                format!("{above} has {hash}, but doesn't lead to the root itself: {ask}")
            }
        }
    }

    /// The topmost page above a layer that doesn't fit. The one above it leads to the root, so that it is wrong,
    /// unless two pages of equal hash came.
    fn topmost(&self, layer: usize) -> Option<&Page<'_>> {
        let mut higher = self.pages.iter().filter(|page| page.layer < layer && self.is_data(page));
        higher.rfind(|page| !self.fits(page))
    }

    fn listed(&self, pages: &[&Page]) -> String {
        listed("page", pages.iter().map(|page| self.place(page)))
    }

    /// That these pages, which stand one after the other, are to be asked for, and on which condition.
    fn to_ask(&self, pages: &[&Page], when: &str) -> String {
        let Way { right, file, .. } = self;
        let (listed, first) = (self.listed(pages), pages[0].at);
        let last = first + SYMBOL_BYTES * pages.len() - 1;
        format!("if {right}, ask for {listed} {when}, bytes {first} to {last} of {file}")
    }
}

#[cfg(test)]
mod tests {
    use super::*;

    /// A volume of depth 3, coded with the house table: table, tree, record.
    fn coded_as(kind: Kind) -> (Vec<u8>, Vec<u8>, Vec<u8>) {
        let volume: Vec<u8> = (0..4096).map(|i| (i + i / 256) as u8).collect();
        let table = cedunmi::house_table(3).expect("the house table");
        let coded = cedunmi::code(3, kind, &table, &volume).expect("a tree");
        (table, coded.tree, coded.record.to_vec())
    }

    fn coded() -> (Vec<u8>, Vec<u8>, Vec<u8>) {
        coded_as(Kind::Placed)
    }

    /// The two lines of a failure, the first without its number.
    fn lines(failure: Option<Failure>) -> [String; 2] {
        let Failure { status, lines } = failure.expect("a failure");
        assert_eq!((status, lines.len()), (7, 2));
        let first = lines[0].strip_suffix(" (number 7: cedunmi explain 7)").expect("its number");
        let first = first.strip_prefix("a hash doesn't lead to the root: ").expect("its meaning");
        [first.to_string(), lines[1].clone()]
    }

    /// The sample of base page 50 with these bytes changed: the pages 98; 18 and 26; 2 and 6.
    fn sampled(layer: u64, changed: &[usize]) -> [String; 2] {
        let said = Kind::ALL.map(|kind| {
            let (_, tree, record) = coded_as(kind);
            let mut sample = sample_of(&tree);
            changed.iter().for_each(|at| sample[*at] ^= 1);
            let sample = File { name: "came", bytes: &sample };
            lines(of_sample(Stop::WrongHash { layer, position: None }, 50, &record, sample))
        });
        assert_eq!(said[0], said[1]);
        said[0].clone()
    }

    fn sample_of(tree: &[u8]) -> Vec<u8> {
        let pages = [98, 18, 26, 2, 6].iter();
        pages.flat_map(|place| tree[256 * place..][..256].to_vec()).collect()
    }

    /// A sample by a record whose kind was changed, and one of the same volume by the record of the other kind: that is
    /// said, and no page is asked for.
    #[test]
    fn samples_of_another_kind() {
        let said = |layer, tree: &[u8], record: &[u8]| {
            let (stop, sample) = (Stop::WrongHash { layer, position: None }, sample_of(tree));
            let broken = cedunmi::check_sample(3, 50, record, &sample);
            assert_eq!(broken, Err(stop));
            lines(of_sample(stop, 50, record, File { name: "came", bytes: &sample }))[1].clone()
        };
        let (_, placed, record) = coded();
        let (_, plain, plain_record) = coded_as(Kind::Plain);
        let flipped = said(2, &placed, &volume::of_other_kind(&record));
        assert_eq!(
            flipped,
            "this record says kind 01, plain, but its root fits as one of kind 00, with places: \
             compare it with the manual"
        );
        let mixed = said(2, &plain, &record);
        assert_eq!(
            mixed,
            "this sample agrees with itself as one of kind 01, plain, and the record is of kind 00, with places: \
             ask for one of a tree of kind 00, with places, or for the manual's record of kind 01, plain"
        );
        let mixed = said(2, &placed, &plain_record);
        assert!(
            mixed.starts_with("this sample agrees with itself as one of kind 00, with places, ")
        );
        assert!(mixed.ends_with(
            "tree of kind 01, plain, or for the manual's record of kind 00, with places"
        ));
    }

    /// What is to be asked for of the sample, after why.
    fn asked(why: &str, pages: &str, bytes: &str) -> String {
        let right = "this record is the volume's, and the sample that of base page 50";
        format!("{why}: if {right}, ask for {pages}, bytes {bytes} of came")
    }

    #[test]
    fn samples() {
        let above = "page 18 has another hash for it";
        let [what, to_do] = sampled(2, &[0]);
        assert_eq!(what, "page 98 of the tree, number 50 of layer 2");
        let leads = format!("{above}, and leads to the root");
        assert_eq!(to_do, asked(&leads, "page 98 again", "0 to 255"));
        // Its hash is damaged; it is damaged too, and so is page 2, in a hash of another page.
        let not = format!("{above}, but doesn't lead to the root itself");
        let first = asked(&not, "page 18 again first", "256 to 511");
        assert_eq!(sampled(2, &[256 + 32 * 6])[1], first);
        let first = asked(&not, "page 2 again first", "768 to 1023");
        assert_eq!(sampled(2, &[0, 3 * 256 + 255])[1], first);
        let [what, to_do] = sampled(1, &[2 * 256]);
        assert_eq!(what, "page 26 of the tree, number 10 of layer 1");
        let leads = "page 2 has another hash for it, and leads to the root";
        assert_eq!(to_do, asked(leads, "page 26 again", "512 to 767"));
        assert_eq!(sampled(1, &[256])[0], "page 18 of the tree, number 2 of layer 1");
    }

    #[test]
    fn two_pages_of_a_sample() {
        let [what, to_do] = sampled(1, &[3 * 256, 3 * 256 + 64]);
        assert_eq!(what, "pages 18 and 26 of the tree, numbers 2 and 10 of layer 1");
        let not = "page 2 has other hashes for them, but doesn't lead to the root itself";
        assert_eq!(to_do, asked(not, "page 2 again first", "768 to 1023"));
        let leads = "page 2 has other hashes for them, and leads to the root";
        let both = asked(leads, "pages 18 and 26 again", "256 to 767");
        assert_eq!(sampled(1, &[256 + 255, 2 * 256])[1], both);
    }

    #[test]
    fn samples_at_the_root() {
        let [what, to_do] = sampled(0, &[4 * 256]);
        assert_eq!(what, "page 6 of the tree, number 6 of layer 0");
        let root = "the root has another hash for it";
        assert_eq!(to_do, asked(root, "page 6 again", "1024 to 1279"));
        assert_eq!(sampled(0, &[3 * 256 + 255])[0], "page 2 of the tree, number 2 of layer 0");
        let [what, to_do] = sampled(0, &[3 * 256 + 255, 4 * 256]);
        assert_eq!(what, "pages 2 and 6 of the tree, numbers 2 and 6 of layer 0");
        let root = "the root has other hashes for them";
        assert_eq!(to_do, asked(root, "pages 2 and 6 again", "768 to 1279"));
    }

    /// The proof of layer 2, equation 17, which has 1, 3, 32 and 33, with 32 withheld; these bytes after its head are
    /// changed. The ways up of 1, 3 and 33 are the pages 49, 17, 1; 51, 19, 3; 81, 17, 1; of 32 it is 16, 0.
    fn proved(layer: u64, position: u64, changed: &[usize]) -> [String; 2] {
        let said = Kind::ALL.map(|kind| {
            let (table, tree, record) = coded_as(kind);
            let mut proof = proof_of(&tree);
            changed.iter().for_each(|at| proof[12 + at] ^= 1);
            let (proof, position) = (File { name: "came", bytes: &proof }, Some(position));
            lines(of_proof(Stop::WrongHash { layer, position }, &record, &table, proof))
        });
        assert_eq!(said[0], said[1]);
        said[0].clone()
    }

    fn proof_of(tree: &[u8]) -> Vec<u8> {
        let mut proof = vec![0x40, 0, 0, 2, 0x80, 0, 0, 17, 0xc0, 0, 0, 32];
        for place in [49, 17, 1, 51, 19, 3, 81, 17, 1, 16, 0] {
            proof.extend_from_slice(&tree[256 * place..][..256]);
        }
        proof
    }

    #[test]
    fn proofs_of_another_kind() {
        let said = |tree: &[u8], record: &[u8]| {
            let (table, proof) = (coded().0, proof_of(tree));
            let stop = cedunmi::check_proof(3, record, &table, &proof).expect_err("a stop");
            assert_eq!(stop, Stop::WrongHash { layer: 2, position: Some(0) });
            let came = File { name: "came", bytes: &proof };
            lines(of_proof(stop, record, &table, came))[1].clone()
        };
        let ((_, placed, record), (_, plain, _)) = (coded(), coded_as(Kind::Plain));
        let flipped = said(&placed, &volume::of_other_kind(&record));
        assert!(flipped.starts_with("this record says kind 01, plain, but its root fits"));
        assert_eq!(
            said(&plain, &record),
            "this proof agrees with itself as one of kind 01, plain, and the record is of kind 00, with places: \
             it is not against the volume of this record: turn it down"
        );
    }

    #[test]
    fn proofs() {
        let asked = |why: &str, page, bytes| {
            let right = "this record is the volume's";
            format!("{why}: if {right}, ask for page {page}, bytes {bytes} of came")
        };
        let another = |page| format!("page {page} has another hash for it");
        let leads = |page| format!("{}, and leads to the root", another(page));
        let [what, to_do] = proved(2, 1, &[3 * 256]);
        assert_eq!(what, "page 51 of the tree, number 3 of layer 2, a given member");
        assert_eq!(to_do, asked(&leads(19), "51 again", "780 to 1035"));
        let not = format!("{}, but doesn't lead to the root itself", another(17));
        let [_, to_do] = proved(2, 2, &[6 * 256, 8 * 256]);
        assert_eq!(to_do, asked(&not, "1 again first", "2060 to 2315"));
        let [what, to_do] = proved(1, 2, &[7 * 256]);
        assert_eq!(what, "page 17 of the tree, number 1 of layer 1, in the path of member 33");
        assert_eq!(to_do, asked(&leads(1), "17 again", "1804 to 2059"));
        let withheld = "in the path of the withheld member 32";
        let [what, to_do] = proved(1, 3, &[9 * 256]);
        assert_eq!(what, format!("page 16 of the tree, number 0 of layer 1, {withheld}"));
        assert_eq!(to_do, asked(&leads(0), "16 again", "2316 to 2571"));
        let root = "the root has another hash for it";
        let [what, to_do] = proved(0, 3, &[10 * 256]);
        assert_eq!(what, format!("page 0 of the tree, number 0 of layer 0, {withheld}"));
        assert_eq!(to_do, asked(root, "0 again", "2572 to 2827"));
        let [what, to_do] = proved(0, 1, &[5 * 256]);
        assert_eq!(what, "page 3 of the tree, number 3 of layer 0, in the path of member 3");
        assert_eq!(to_do, asked(root, "3 again", "1292 to 1547"));
    }

    /// Where the library's answer and the bytes don't agree, or it is another stop, nothing is said here.
    #[test]
    fn nothing_is_made_up() {
        let (table, tree, record) = coded();
        let sample = [&tree[256 * 98..][..256], &[0; 1024]].concat();
        let file = |bytes| File { name: "came", bytes };
        let at = |layer, position| Stop::WrongHash { layer, position };
        let of_sample = |stop, record| of_sample(stop, 50, record, file(&sample));
        assert!(of_sample(at(3, None), &record).is_none());
        assert!(of_sample(Stop::NoFault, &record).is_none());
        assert!(of_sample(at(2, None), &record[1..]).is_none());
        let of_proof = |stop, proof| of_proof(stop, &record, &table, file(proof));
        assert!(of_proof(at(0, Some(0)), &[]).is_none());
        assert!(of_proof(at(0, None), &[0; 268]).is_none());
        assert!(of_proof(Stop::WrongHead, &[0; 268]).is_none());
    }
}
