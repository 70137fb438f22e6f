//! The depth of a command: as it is given, or as a record, a table or a tree says.

use crate::arguments::decimal;
use crate::failure::Failure;
use crate::input::{stopped, Input};
use crate::members::words;
use cedunmi::{check_table, Depth, Stop, RECORD_BYTES};
use std::ffi::OsStr;

/// The depths that there are.
pub fn all() -> impl DoubleEndedIterator<Item = Depth> {
    (1..=Depth::MAX.layers() as u64).filter_map(Depth::new)
}

pub fn given(word: Option<&OsStr>) -> Result<Option<u64>, Failure> {
    word.map(|word| decimal("DEPTH", word)).transpose()
}

/// The depth of a record. One that is given must be the same; what else is wrong is for the call to find.
pub fn of_record(given: Option<u64>, record: &Input) -> Result<u64, Failure> {
    let whole = record.bytes.len() == RECORD_BYTES;
    let first = words(&record.bytes).next().filter(|(kind, _)| whole && *kind < 2);
    let said = first.map(|(_, depth)| depth as u64);
    let stop = match (given, said) {
        (Some(given), Some(said)) if given != said && Depth::new(given).is_some() => {
            Stop::WrongRecord
        }
        (Some(given), _) => return Ok(given),
        (None, Some(said)) if Depth::new(said).is_some() => return Ok(said),
        (None, _) if whole => Stop::WrongRecord,
        (None, _) => Stop::WrongLength,
    };
    Err(stopped(stop, given.unwrap_or(1), &[record]))
}

/// The depth at which a table is well-formed; of one that never is, that at which its first wrong word comes last.
pub fn of_table(given: Option<u64>, table: &Input) -> u64 {
    given.unwrap_or_else(|| fitting(&table.bytes))
}

fn fitting(table: &[u8]) -> u64 {
    let layers = words(table).filter(|(kind, _)| *kind == 1).count() as u64;
    let fit = |depth: &u64| match check_table(*depth, table) {
        Ok(()) | Err(Stop::Uncovered { .. }) => (u64::MAX, true),
        Err(Stop::WrongTable { word }) => (word, *depth == layers),
        Err(_) => (0, false),
    };
    // Of several that are alike the last is taken: the least depth.
    let depths = all().rev().map(|depth| depth.layers() as u64);
    depths.max_by_key(fit).unwrap_or(1)
}

/// The depth whose trees are as long as this one.
pub fn of_tree(given: Option<u64>, tree: &Input) -> Result<u64, Failure> {
    let depth = || all().find(|depth| depth.tree_bytes() == tree.bytes.len());
    let found = given.or_else(|| depth().map(|depth| depth.layers() as u64));
    found.ok_or_else(|| {
        let lengths: Vec<String> = all().map(|depth| depth.tree_bytes().to_string()).collect();
        let line = format!("{}; a tree of depth 1 to 9 has {}", tree.has(), lengths.join(", "));
        Failure::stopped(Stop::WrongLength).and(line)
    })
}

#[cfg(test)]
mod tests {
    use super::*;

    fn house(depth: u64) -> Vec<u8> {
        cedunmi::house_table(depth).expect("the house table")
    }

    #[test]
    fn tables_have_one_depth() {
        for depth in all().map(|depth| depth.layers() as u64) {
            assert_eq!(fitting(&house(depth)), depth);
        }
        // A table that leaves a page in too few equations is of its depth all the same.
        let mut table = house(2);
        table[4 * 11 + 3] = 1;
        assert!(matches!(check_table(2, &table), Ok(()) | Err(Stop::Uncovered { .. })));
        assert_eq!(fitting(&table), 2);
    }

    /// The first wrong word of a table that is well-formed at no depth is what it is at its own.
    #[test]
    fn wrong_tables_have_the_depth_that_fits_best() {
        for depth in 1..=6 {
            let table = house(depth);
            for word in [1, 30, table.len() / 8, table.len() / 4 - 2] {
                let mut wrong = table.clone();
                wrong[4 * word] ^= 0x3f;
                assert_eq!(fitting(&wrong), depth, "word {word}");
                let short = &table[..4 * word];
                let stop = check_table(fitting(short), short);
                assert_eq!(stop, Err(Stop::WrongTable { word: word as u64 }));
            }
            let end = table.len() - 4;
            assert_eq!(fitting(&table[..end]), depth);
        }
        assert_eq!(fitting(&[]), 1);
        assert_eq!(fitting(&[7; 5]), 1);
    }
}
