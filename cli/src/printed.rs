//! A record on paper: a line each for depth, length and table, then seventeen hashes, T of the table and 0 to 15 of the
//! root, each line with a check of four digits; then a check of all.

use crate::volume;
use cedunmi::{
    house_table, sha256, Kind, Record, Stop, DIGEST_BYTES, RECORD_HEAD_BYTES, ROOT_BYTES,
    SYMBOL_BYTES,
};
use std::ops::Range;

/// The lines in words: what each begins with, and the words of which one may stand after its number: what is counted, or
/// of the depth the kind.
pub const WORDS: [(&str, &[&str]); 3] =
    [("depth", &["placed", "plain"]), ("length", &["bytes"]), ("table", &["words"])];
const WORD_BYTES: usize = 4;
/// The line of the table's hash, after which the root's begin.
pub const TABLE_HASH: usize = WORDS.len();
/// The lines of a record, without the check of all.
pub const LINES: usize = TABLE_HASH + 1 + ROOT_BYTES / DIGEST_BYTES;
/// Digits of a hash, of the check of a line, and of the check of all.
pub const DIGITS: usize = 2 * DIGEST_BYTES;
pub const CHECK: usize = 4;
pub const CHECK_OF_ALL: usize = 8;
/// The columns of a line in words, before its check.
const COLUMNS: usize = 20;

pub fn hex(bytes: &[u8]) -> String {
    bytes.iter().map(|byte| format!("{byte:02x}")).collect()
}

/// What a hash's line begins with.
pub fn label(line: usize) -> String {
    match line {
        TABLE_HASH => "T".to_string(),
        _ => (line - TABLE_HASH - 1).to_string(),
    }
}

/// What a line is called.
pub fn name(line: usize) -> String {
    match WORDS.get(line) {
        Some((word, _)) => word.to_string(),
        None => format!("hash {}", label(line)),
    }
}

/// The bytes of the record that a line has.
fn part(line: usize) -> Range<usize> {
    let (from, len) = match line {
        TABLE_HASH => (WORD_BYTES * WORDS.len(), DIGEST_BYTES),
        line if line < TABLE_HASH => (WORD_BYTES * line, WORD_BYTES),
        _ => (RECORD_HEAD_BYTES + DIGEST_BYTES * (line - TABLE_HASH - 1), DIGEST_BYTES),
    };
    from..from + len
}

/// The first digits of a SHA-256.
pub fn digits(message: &[u8], count: usize) -> Result<String, Stop> {
    Ok(hex(&sha256(message)?)[..count].to_string())
}

/// The check of a line: of one byte and the line's. The byte is the hash's number, and of the four lines before 16 to 19.
pub fn check(line: usize, bytes: &[u8]) -> Result<String, Stop> {
    let before = if line > TABLE_HASH { line - TABLE_HASH - 1 } else { 16 + line };
    digits(&[&[before as u8], bytes].concat(), CHECK)
}

/// The print of a record.
pub fn print(bytes: &[u8]) -> Result<String, Stop> {
    let record = Record::read(bytes)?;
    let mut text = comments(&record)?;
    let values = [
        (record.depth.layers(), volume::word(record.kind)),
        (record.length, "bytes"),
        (record.table_words, "words"),
    ];
    for line in 0..LINES {
        let bytes = &bytes[part(line)];
        let check = check(line, bytes)?;
        text += &match WORDS.get(line) {
            Some((word, _)) => {
                let (value, after) = values[line];
                format!("{:<COLUMNS$}  {check}\n", format!("{word:<7} {value} {after}"))
            }
            None => {
                let groups: Vec<String> = bytes.chunks(4).map(hex).collect();
                format!("{:>2} {}  {check}\n", label(line), groups.join(" "))
            }
        };
    }
    text += &format!("check  {}\n", digits(bytes, CHECK_OF_ALL)?);
    Ok(text)
}

/// Whether a record names the house table of its depth.
pub fn is_house(record: &Record) -> Result<bool, Stop> {
    let house = house_table(record.depth.layers() as u64)?;
    let words = house.len() / WORD_BYTES;
    Ok((words, sha256(&house)?) == (record.table_words, record.table_digest))
}

/// What a reader of the print wants to know.
fn comments(record: &Record) -> Result<String, Stop> {
    let Record { depth, length, .. } = record;
    let (layers, pages, most) = (depth.layers(), depth.symbols(), depth.block_bytes());
    let filled = match *length < most {
        true => format!("That depth holds up to {most}; zeros fill up the rest."),
        false => "That is as much as this depth holds.".to_string(),
    };
    let kind = match record.kind {
        Kind::Placed => {
            "\
# It is placed, of kind 00: each of these is the hash of a page's place and the
# page. If the volume is coded as it must be, no two are equal.
"
        }
        Kind::Plain => "# It is plain, of kind 01: each of these is the hash of a page alone.\n",
    };
    let tables = match (is_house(record)?, record.kind) {
        (true, Kind::Placed) => {
            format!("# Its table is the house table: cedunmi table {layers} TABLE writes it.\n")
        }
        (true, Kind::Plain) => format!(
            "\
# Its table is the house table: cedunmi table {layers} TABLE writes it. By that, equal
# lines are no mistake: whatever the volume is, the pages 7, 11 and 15 are zero,
# and 5 and 8, 6 and 12, 10 and 13 are equal.
"
        ),
        (false, _) => "\
# Its table is not the house table: without a copy of it nothing is repaired.
"
        .to_string(),
    };
    Ok(format!(
        "\
# The record of a volume of {length} bytes, coded at depth {layers}: {pages} pages of {SYMBOL_BYTES}
# bytes. {filled}
# Each line ends with its check. Hash T is that of the table, 0 to 15 are those
# of the pages of the top layer.
{kind}{tables}"
    ))
}

#[cfg(test)]
mod tests {
    use super::*;

    fn printed(kind: Kind, depth: u64, length: usize) -> (Vec<u8>, Vec<String>) {
        let table = house_table(depth).expect("the house table");
        let coded = cedunmi::code(depth, kind, &table, &vec![7; length]).expect("a tree");
        let text = print(&coded.record).expect("a print");
        (coded.record.to_vec(), text.lines().map(str::to_string).collect())
    }

    #[test]
    fn the_head_is_in_words() {
        for (kind, depth) in [(Kind::Placed, "depth   5 placed"), (Kind::Plain, "depth   5 plain")]
        {
            the_head_is(kind, [depth, "length  700 bytes", "table   1861 words"]);
        }
    }

    fn the_head_is(kind: Kind, words: [&str; 3]) {
        let (record, lines) = printed(kind, 5, 700);
        let lines: Vec<&str> =
            lines.iter().map(String::as_str).filter(|line| !line.starts_with('#')).collect();
        assert_eq!(lines.len(), LINES + 1);
        for (line, said) in words.iter().enumerate() {
            let check = check(line, &record[4 * line..][..4]).unwrap();
            assert_eq!(lines[line], format!("{said:<20}  {check}"));
        }
        assert!(lines[3].starts_with(" T ") && lines[4].starts_with(" 0 "));
        assert!(lines[19].starts_with("15 ") && lines[20].starts_with("check  "));
        assert!(lines[3..20].iter().all(|line| line.len() == 80));
    }

    /// Every byte of the record is in one line, and no two lines' checks are of the same bytes.
    #[test]
    fn lines_have_every_byte() {
        let parts: Vec<usize> = (0..LINES).flat_map(part).collect();
        assert!(parts.into_iter().eq(0..556));
        let mut checks: Vec<String> =
            (3..LINES).map(|line| check(line, &[7; 32]).unwrap()).collect();
        checks.sort();
        checks.dedup();
        assert_eq!(checks.len(), LINES - 3);
        assert_eq!(check(4, &[7; 32]), digits(&[&[0][..], &[7; 32]].concat(), 4));
        assert_eq!(check(3, &[7; 32]), digits(&[&[19][..], &[7; 32]].concat(), 4));
        assert_eq!(check(0, &[64, 0, 0, 1]), digits(&[16, 64, 0, 0, 1], 4));
        assert_eq!(check(0, &[0, 0, 0, 1]), digits(&[16, 0, 0, 0, 1], 4));
    }

    #[test]
    fn comments_fit_and_know_the_house_table() {
        for (depth, length) in [(1, 0), (5, 16384), (9, 262144)] {
            for kind in Kind::ALL {
                let (mut record, lines) = printed(kind, depth, length);
                assert!(lines.iter().all(|line| line.len() <= 80));
                let text = lines.join("\n");
                assert!(text.contains(&format!("cedunmi table {depth} TABLE")));
                assert_eq!(text.contains("pages 7, 11"), kind == Kind::Plain);
                for place in [11, 12, 43] {
                    record[place] ^= 1;
                    let text = print(&record).unwrap();
                    assert!(text.contains("not the house table") && !text.contains("pages 7, 11"));
                    record[place] ^= 1;
                }
            }
        }
    }

    /// What is said of equal lines is so: by the house table some are in a plain record, and none in one with places.
    #[test]
    fn comments_know_the_kind() {
        let of = |kind| {
            let (record, lines) = printed(kind, 2, 2048);
            let mut hashes: Vec<Vec<u8>> = record[44..].chunks(32).map(<[u8]>::to_vec).collect();
            hashes.sort();
            hashes.dedup();
            (hashes.len(), lines.join("\n"))
        };
        let (different, text) = of(Kind::Placed);
        assert!(different == 16 && text.contains("placed, of kind 00") && text.contains("no two"));
        let (different, text) = of(Kind::Plain);
        assert!(different < 12 && text.contains("plain, of kind 01") && !text.contains("no two"));
    }

    #[test]
    fn what_is_no_record_is_not_printed() {
        let (mut record, _) = printed(Kind::Placed, 1, 700);
        assert_eq!(print(&record[..512]), Err(Stop::WrongLength));
        record[3] = 10;
        assert_eq!(print(&record), Err(Stop::WrongRecord));
        (record[3], record[0]) = (1, 128);
        assert_eq!(print(&record), Err(Stop::WrongRecord));
    }
}
