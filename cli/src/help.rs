//! The manual in short, and its parts.

pub const MANUAL: &str = include_str!("help.txt");

/// What bad usage is told: the line of usage, and every command.
pub fn usage() -> &'static str {
    MANUAL.find("\n\nOptions").map_or(MANUAL, |at| &MANUAL[..at])
}

/// The paragraph that lists the commands: from the first line that names one.
fn listed() -> &'static str {
    let start = MANUAL.find("\n  ").map_or(0, |at| at + 1);
    let end = MANUAL[start..].find("\n\n").map_or(MANUAL.len(), |at| start + at + 1);
    &MANUAL[start..end]
}

/// The command that a line names, if it begins one.
fn named(line: &str) -> Option<&str> {
    let words = line.strip_prefix("  ").filter(|rest| !rest.starts_with(' '))?;
    words.split(' ').next()
}

/// Every command.
pub fn commands() -> impl Iterator<Item = &'static str> {
    listed().lines().filter_map(named)
}

/// The lines of a command.
pub fn of(command: &str) -> String {
    let mut inside = false;
    let mut lines = String::new();
    for line in listed().lines() {
        inside = named(line).map_or(inside, |name| name == command);
        if inside {
            lines += line;
            lines.push('\n');
        }
    }
    lines
}

#[cfg(test)]
mod tests {
    use super::*;
    use cedunmi::{Depth, TABLE_BYTES_MAX};

    /// The sizes of a depth, as the help and the manual page list them.
    fn sizes(depth: Depth) -> Vec<usize> {
        let base = depth.layers() - 1;
        let house = depth.house_table_bytes();
        let (tree, marks, sample) = (depth.tree_bytes(), depth.symbols(), depth.sample_bytes());
        let (block, proof) = (depth.block_bytes(), depth.output_bytes());
        vec![base + 1, block, house, tree, marks, sample, proof, depth.places(base).start]
    }

    /// The lines of a text that are nothing but so many numbers.
    fn rows(text: &str, columns: usize) -> Vec<Vec<usize>> {
        let numbers = |line: &str| line.split_whitespace().map(|word| word.parse().ok()).collect();
        let rows = text.lines().filter_map(numbers);
        rows.filter(|row: &Vec<usize>| row.len() == columns).collect()
    }

    #[test]
    fn sizes_are_those_of_each_depth() {
        let depths = (1..=Depth::MAX.layers() as u64).filter_map(Depth::new);
        let mut listed: Vec<Vec<usize>> = depths.map(sizes).collect();
        assert_eq!(rows(MANUAL, 8), listed);
        listed.iter_mut().for_each(|row| row.truncate(7));
        let page = include_str!("../../install/cedunmi.1");
        assert_eq!(rows(page, 7), listed);
        for text in [MANUAL, page] {
            assert!(text.contains(&format!("is 1 to {}.", Depth::MAX.layers())));
            assert!(text.contains(&format!("to {TABLE_BYTES_MAX} ")));
        }
    }

    #[test]
    fn commands_have_their_lines() {
        assert_eq!(commands().filter(|name| *name == "repair").count(), 2);
        assert!(
            of("repair").starts_with("  repair [DEPTH]") && of("repair").ends_with("twins alone\n")
        );
        assert_eq!(
            of("typed"),
            "  typed TEXT RECORD                 make a record of a print, as typed\n"
        );
        assert_eq!(of("none"), "");
        assert_eq!(commands().last(), Some("help"));
    }
}
