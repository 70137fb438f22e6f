//! The files of vectors/, byte for byte as this implementation makes them, and
//! no others. vectors/README.md says what each is.

use reference::kind::{Kind, KINDS};
use reference::recode::recode;
use reference::record::{root, Head, RECORD};
use reference::repair::{output_len, repair, End, Repaired};
use reference::sample::{sample_len, take};
use reference::sha256::sha256;
use reference::table::{house, to_bytes};
use reference::tree::{block_len, place, read_block, tree_symbols, write, HASH, SYMBOL};
use reference::{proof, sample};
use std::collections::BTreeMap;
use std::fs;
use std::path::{Path, PathBuf};

/// Files by their names.
type Files = BTreeMap<String, Vec<u8>>;

/// A coded volume.
#[derive(Clone)]
struct Volume {
    kind: Kind,
    depth: usize,
    block: Vec<u8>,
    table: Vec<u8>,
    tree: Vec<u8>,
    marks: Vec<u8>,
    record: Vec<u8>,
}

impl Volume {
    /// Byte i of the volume is i + i/256. It is coded by this table, and has
    /// the house table beside it, which its record names.
    fn coded(kind: Kind, depth: usize, length: usize, table: &[u8]) -> Volume {
        let mut volume = Volume {
            kind,
            depth,
            block: (0..length).map(|i| (i + i / 256) as u8).collect(),
            table: to_bytes(&house(depth)),
            tree: vec![0; SYMBOL * tree_symbols(depth)],
            marks: vec![0; tree_symbols(depth)],
            record: vec![0; RECORD],
        };
        let Volume { block, tree, marks, record, .. } = &mut volume;
        write(depth as u64, kind as u64, table, block, tree, marks, record).unwrap();
        volume.says(length);
        volume
    }

    fn right(kind: Kind, depth: usize) -> Volume {
        Volume::coded(kind, depth, block_len(depth), &to_bytes(&house(depth)))
    }

    /// Makes the record say that the volume has so many bytes.
    fn says(&mut self, length: usize) {
        let head = Head::of(self.kind, self.depth, length, &self.table);
        self.record = head.before(root(&self.record));
    }

    /// With member 2 in the place of 1 in the base's equation 0, whose members
    /// follow two words of the base's.
    fn wrong(kind: Kind, depth: usize) -> Volume {
        let mut words = house(depth);
        let base = words.iter().position(|&word| word == 1 << 30 | (depth as u32 - 1)).unwrap();
        assert_eq!(words[base + 2..base + 4], [0, 1]);
        words[base + 3] = 2;
        Volume::coded(kind, depth, block_len(depth), &to_bytes(&words))
    }

    fn lose(&mut self, places: impl IntoIterator<Item = usize>) {
        places.into_iter().for_each(|place| self.marks[place] = 0);
    }

    /// One other byte in each symbol, which is its place's number, or what 256
    /// leaves of that.
    fn damage(&mut self, places: &[usize]) {
        places.iter().for_each(|place| self.tree[SYMBOL * place + place % SYMBOL] ^= 0x10);
    }

    fn fill(&mut self, place: usize, byte: u8) {
        self.tree[SYMBOL * place..SYMBOL * (place + 1)].fill(byte);
    }

    fn sample(&self, number: usize) -> Vec<u8> {
        let mut sample = vec![0; sample_len(self.depth)];
        take(self.depth as u64, number as u64, &self.tree, &self.marks, &mut sample).unwrap();
        assert_eq!(sample::check(self.depth as u64, number as u64, &self.record, &sample), Ok(()));
        sample
    }

    /// The volume as a repair leaves it, what it reports, and its output.
    fn repaired(&self) -> (Volume, Repaired, Vec<u8>) {
        let mut left = self.clone();
        let mut output = vec![0; output_len(self.depth)];
        let Volume { depth, table, tree, marks, record, .. } = &mut left;
        let report = repair(*depth as u64, record, table, tree, marks, &mut output).unwrap();
        (left, report, output)
    }

    /// Tree, marks and record of the volume of the other kind.
    fn recoded(&self) -> [Vec<u8>; 3] {
        let Volume { depth, table, tree, marks, record, .. } = self;
        let mut new = [tree, marks, record].map(|buffer| vec![0xdd; buffer.len()]);
        let [new_tree, new_marks, new_record] = &mut new;
        recode(*depth as u64, record, table, tree, marks, new_tree, new_marks, new_record).unwrap();
        new
    }

    /// Whether the volume comes back, and the rest of a buffer stays.
    fn comes_back(&self, block: &[u8]) -> bool {
        let mut back = vec![0xdd; block_len(self.depth)];
        read_block(self.depth as u64, &self.record, &self.tree, &self.marks, &mut back).unwrap();
        back[..block.len()] == *block && back[block.len()..].iter().all(|&byte| byte == 0xdd)
    }
}

fn hex(bytes: &[u8]) -> String {
    bytes.iter().map(|byte| format!("{byte:02x}")).collect()
}

/// The check of a line of a printed record, by its number.
fn check(number: usize, bytes: &[u8]) -> String {
    hex(&sha256(&[&[number as u8], bytes].concat())[..2])
}

/// A hash of a printed record, in its groups.
fn groups(hash: &[u8]) -> String {
    hash.chunks(4).map(hex).collect::<Vec<_>>().join(" ")
}

/// A record as it is printed.
fn print(depth: usize, record: &[u8]) -> String {
    let head = Head::read(depth, record).unwrap();
    let kind = match head.kind {
        Kind::Placed => "placed",
        Kind::Plain => "plain",
    };
    let depth = format!("depth   {} {kind}", head.depth);
    let length = format!("length  {} bytes", head.length);
    let table = format!("table   {} words", head.words);
    let mut text = String::new();
    for (number, (line, word)) in [depth, length, table].iter().zip(record.chunks(4)).enumerate() {
        text += &format!("{line:20}  {}\n", check(16 + number, word));
    }
    text += &format!(" T {}  {}\n", groups(&head.hash), check(19, &head.hash));
    for (number, hash) in root(record).chunks(HASH).enumerate() {
        text += &format!("{number:2} {}  {}\n", groups(hash), check(number, hash));
    }
    text + &format!("check  {}\n", hex(&sha256(record)[..4]))
}

/// The rows of sixteen bytes in which a tree is another, as xxd prints them.
fn changes(of: &[u8], tree: &[u8]) -> Vec<u8> {
    let mut text = String::new();
    for (row, (old, new)) in of.chunks(16).zip(tree.chunks(16)).enumerate() {
        if old != new {
            let pairs: Vec<String> = new.chunks(2).map(hex).collect();
            text += &format!("{:08x}: {}\n", 16 * row, pairs.join(" "));
        }
    }
    text.into_bytes()
}

/// The files of a folder, which are collected.
struct Collected {
    folder: String,
    right: Volume,
    files: Files,
}

impl Collected {
    /// Of a folder, which is another for a volume with places.
    fn of(folder: &str, right: Volume) -> Collected {
        let end = if right.kind == Kind::Placed { "-placed" } else { "" };
        Collected { folder: format!("{folder}{end}"), right, files: Files::new() }
    }

    fn save(&mut self, name: &str, bytes: impl AsRef<[u8]>) {
        let name = format!("{}/{}", self.folder, name);
        assert!(self.files.insert(name, bytes.as_ref().to_vec()).is_none());
    }

    fn save_right(&mut self, number: usize) {
        let volume = self.right.clone();
        self.save("volume", &volume.block);
        self.save("table", &volume.table);
        self.save("tree", &volume.tree);
        self.save("marks", &volume.marks);
        self.save("record", &volume.record);
        self.save("record.txt", print(volume.depth, &volume.record));
        self.save(&format!("sample-{number}"), volume.sample(number));
    }

    /// A tree, whole, or as the changes that make it of the right one.
    fn save_tree(&mut self, folder: &str, name: &str, tree: &[u8], whole: bool) -> String {
        let name = if whole { name.to_string() } else { format!("{name}.xxd") };
        let bytes = if whole { tree.to_vec() } else { changes(&self.right.tree, tree) };
        self.save(&format!("{folder}/{name}"), bytes);
        name
    }

    /// What a repair is lent, what it reports, and what it leaves.
    fn save_repair(&mut self, folder: &str, lent: &Volume, whole: bool) {
        let (left, report, output) = lent.repaired();
        self.save_tree(folder, "tree", &lent.tree, whole);
        self.save(&format!("{folder}/marks"), &lent.marks);
        let tree = if left.tree == self.right.tree {
            "../tree".to_string()
        } else if left.tree == lent.tree {
            "tree".to_string()
        } else {
            self.save_tree(folder, "after-tree", &left.tree, whole)
        };
        let marks = if left.marks == self.right.marks {
            "../marks"
        } else if left.marks == lent.marks {
            "marks"
        } else {
            self.save(&format!("{folder}/after-marks"), &left.marks);
            "after-marks"
        };
        let (end, value) = match report.end {
            End::Whole => (0, 0),
            End::Fault(len) => (1, len),
            End::Unavailable(layer) => (2, layer),
            End::Twins(_) => unreachable!(),
            End::Misfilled => (13, 0),
        };
        let numbers = format!("number 0\nend {end}\nstored {}\nvalue {value}\n", report.stored);
        self.save(&format!("{folder}/report"), numbers + &format!("tree {tree}\nmarks {marks}\n"));
        if lent.record != self.right.record {
            self.save(&format!("{folder}/record"), &lent.record);
        }
        match report.end {
            End::Whole | End::Misfilled => assert!(left.comes_back(&self.right.block)),
            End::Fault(len) => {
                let depth = lent.depth as u64;
                assert_eq!(proof::check(depth, &lent.record, &lent.table, &output[..len]), Ok(()));
                self.save(&format!("{folder}/proof"), &output[..len]);
            }
            _ => {}
        }
    }
}

fn depth_1(kind: Kind) -> Files {
    let mut made = Collected::of("depth-1", Volume::right(kind, 1));
    made.save_right(9);
    let mut lent = made.right.clone();
    lent.lose([0, 1]);
    lent.damage(&[9]);
    lent.fill(1, 0xee);
    made.save_repair("whole", &lent, true);
    let mut lent = made.right.clone();
    lent.lose([4, 5, 6, 8, 9, 12, 15]);
    lent.damage(&[0]);
    made.save_repair("unavailable", &lent, true);
    let mut lent = Volume::wrong(kind, 1);
    lent.lose([1]);
    made.save_repair("wrong", &lent, true);
    made.files
}

fn depth_2(kind: Kind) -> Files {
    let mut made = Collected::of("depth-2", Volume::right(kind, 2));
    made.save_right(20);
    let mut lent = made.right.clone();
    lent.lose((1..tree_symbols(2)).step_by(3));
    lent.damage(&[place(0, 3), place(1, 14)]);
    lent.fill(place(1, 24), 0xee);
    made.save_repair("whole", &lent, false);
    let mut lent = made.right.clone();
    lent.lose([place(0, 2)]);
    lent.lose([3, 10, 17, 18, 24, 25].map(|number| place(1, number)));
    lent.damage(&[place(1, 26)]);
    made.save_repair("unavailable", &lent, false);
    let mut lent = Volume::wrong(kind, 2);
    lent.lose([place(1, 8)]);
    made.save_repair("wrong", &lent, true);
    made.files
}

fn depth_3(kind: Kind) -> Files {
    let mut made = Collected::of("depth-3", Volume::right(kind, 3));
    made.save_right(61);
    let mut lent = made.right.clone();
    lent.lose((1..tree_symbols(3)).step_by(3));
    lent.damage(&[place(0, 0), place(1, 4), place(2, 42)]);
    lent.fill(place(2, 1), 0xee);
    made.save_repair("whole", &lent, false);
    let mut lent = made.right.clone();
    lent.lose([4, 5, 6, 8, 9, 12, 15]);
    lent.lose([place(1, 0), place(2, 2)]);
    lent.damage(&[place(0, 0), place(2, 12)]);
    made.save_repair("unavailable", &lent, false);
    let mut lent = Volume::wrong(kind, 3);
    lent.lose([place(2, 0), place(2, 1)]);
    lent.damage(&[place(0, 3)]);
    made.save_repair("wrong", &lent, true);
    made.files
}

fn depth_4(kind: Kind) -> Files {
    let mut made = Collected::of("depth-4", Volume::right(kind, 4));
    made.save_right(100);
    let mut lent = made.right.clone();
    lent.lose((1..tree_symbols(4)).step_by(4));
    lent.damage(&[place(0, 7), place(1, 17), place(2, 12), place(3, 88)]);
    lent.fill(place(3, 1), 0xee);
    made.save_repair("whole", &lent, false);
    let mut lent = made.right.clone();
    lent.lose([place(0, 5), place(1, 4), place(3, 18)]);
    lent.lose([18, 33, 34, 48, 49, 50].map(|number| place(2, number)));
    lent.damage(&[place(2, 3), place(3, 28)]);
    made.save_repair("unavailable", &lent, false);
    let mut lent = Volume::wrong(kind, 4);
    lent.lose([place(1, 4), place(2, 52)]);
    made.save_repair("wrong", &lent, true);
    made.files
}

fn depth_5(kind: Kind) -> Files {
    let mut made = Collected::of("depth-5", Volume::right(kind, 5));
    made.save_right(200);
    let mut lent = made.right.clone();
    lent.lose((1..tree_symbols(5)).step_by(4));
    lent.damage(&[place(0, 2), place(1, 24), place(2, 52), place(3, 38), place(4, 60)]);
    lent.fill(place(4, 1), 0xee);
    made.save_repair("whole", &lent, false);
    let mut lent = made.right.clone();
    lent.lose([place(1, 4), place(3, 10), place(4, 30)]);
    lent.lose([3, 34, 65, 66, 96, 97].map(|number| place(3, number)));
    lent.damage(&[place(3, 98), place(4, 60)]);
    made.save_repair("unavailable", &lent, false);
    let mut lent = Volume::wrong(kind, 5);
    lent.lose([place(2, 12)]);
    made.save_repair("wrong", &lent, true);
    made.files
}

/// A volume of 700 bytes, and by its head a tree that is filled up with other bytes than zeros.
fn depth_1_short(kind: Kind) -> Files {
    let short = Volume::coded(kind, 1, 700, &to_bytes(&house(1)));
    let mut made = Collected::of("depth-1-short", short);
    made.save_right(2);
    let mut lent = made.right.clone();
    lent.lose([2, 3]);
    lent.damage(&[5]);
    made.save_repair("whole", &lent, true);
    let mut lent = Volume::right(kind, 1);
    lent.says(700);
    lent.lose([2, 3]);
    lent.damage(&[9]);
    lent.fill(3, 0xee);
    made.save_repair("misfilled", &lent, true);
    made.files
}

fn expected() -> Files {
    let all = [depth_1, depth_2, depth_3, depth_4, depth_5, depth_1_short];
    KINDS.into_iter().flat_map(|kind| all.map(|of| of(kind))).flatten().collect()
}

/// The files below a folder, beside what describes them.
fn found(root: &Path, folder: &Path, files: &mut Files) {
    for entry in fs::read_dir(folder).unwrap() {
        let path: PathBuf = entry.unwrap().path();
        let name = path.strip_prefix(root).unwrap().to_str().unwrap().to_string();
        if path.is_dir() {
            found(root, &path, files);
        } else if name != "README.md" && name != "SHA256SUMS" {
            files.insert(name, fs::read(path).unwrap());
        }
    }
}

/// The names of the files that only one side has, or that differ.
fn differences(one: &Files, other: &Files) -> Vec<String> {
    let names = one.keys().chain(other.keys().filter(|&name| !one.contains_key(name)));
    names.filter(|&name| one.get(name) != other.get(name)).cloned().collect()
}

fn vectors() -> Files {
    let root = Path::new(env!("CARGO_MANIFEST_DIR")).join("../../vectors");
    let mut files = Files::new();
    found(&root, &root, &mut files);
    files
}

#[test]
fn vectors_are_as_this_implementation_makes_them() {
    assert_eq!(differences(&expected(), &vectors()), Vec::<String>::new());
}

/// What is in a folder, recoded, is in the folder of the other kind.
#[test]
fn kinds_are_each_other_recoded() {
    let files = vectors();
    let of = |folder: &str| {
        ["tree", "marks", "record"].map(|name| files[&format!("{folder}/{name}")].clone())
    };
    let lengths = (1..=5).map(|depth| (depth, block_len(depth), format!("depth-{depth}")));
    for (depth, length, folder) in lengths.chain([(1, 700, "depth-1-short".to_string())]) {
        let table = to_bytes(&house(depth));
        for (kind, end) in [(Kind::Plain, "-placed"), (Kind::Placed, "")] {
            let recoded = Volume::coded(kind, depth, length, &table).recoded();
            assert!(recoded == of(&format!("{folder}{end}")), "{folder}{end}");
        }
    }
}

/// A changed byte of any file is found, and a file too few or too many.
#[test]
fn a_changed_byte_is_found() {
    let (expected, vectors) = (expected(), vectors());
    for name in vectors.keys() {
        let mut changed = vectors.clone();
        let bytes = changed.get_mut(name).unwrap();
        let middle = bytes.len() / 2;
        bytes[middle] ^= 1;
        assert_eq!(differences(&expected, &changed), [name.as_str()]);
        changed.remove(name);
        assert_eq!(differences(&expected, &changed), [name.as_str()]);
    }
    let mut more = vectors;
    more.insert("depth-1/other".to_string(), Vec::new());
    assert_eq!(differences(&expected, &more), ["depth-1/other"]);
}
