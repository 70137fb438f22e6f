//! What each number and each exit status means, and what to do about it.

use crate::failure::{DAMAGED, ENDS, NOT_MADE, NOT_WRITTEN, SLIP, UNKNOWN, UNREADABLE, USAGE};
use cedunmi::{explain, explain_end};

/// The end of a repair whose number is no other's.
const MISFILLED: u8 = 13;
const FILL_UP: &str = "see that the record's length is the manual's. If it is, the bytes up to it are right: read writes them, and repair makes tree and marks whole where pages are absent or bad; but whoever coded it did not fill it up with zeros, as is the rule: ask for it coded anew";

/// What to do about a status, and about the end that a reader may look for under its own number.
const TO_DO: &[(u8, &str)] = &[
    (0, "nothing"),
    (1, "give a depth from 1 to 9, or none where a record, a table or a tree is read: that says it"),
    (2, "the lines after it say which file has how many bytes, and how many it should have"),
    (3, "get the table again: another copy, or by cedunmi table where it is the house table"),
    (4, "the marks file is damaged: set that page's mark to 0, and repair"),
    (5, "give a number below 16, 32, 64, 128, 256, 512, 1024, 2048, 4096 at depth 1 to 9"),
    (6, "turn the proof down, unless the record is not the manual's"),
    (7, "see that RECORD is the manual's, and that a sample is that of NUMBER; then, where the second line speaks of the kind, do what that says; if not, ask again for the page that it says, put it at the bytes that it names, and check again. Turn down what does not come right: it is damaged, or of another volume"),
    (8, "turn the proof down: the volume stays in the catalogue"),
    (9, "bring that page, or repair the tree"),
    (10, "contributor: put that page into at least two equations of its layer, or take the house table. Shop: ask for the volume coded anew; until then cedunmi read --unverified copies its pages, unchecked, if none of its data pages is lost"),
    (11, "the lines after it say what is wrong with the record, its kind or its depth: leave DEPTH out, and compare the record with the manual, as cedunmi record prints it. A root of 512 bytes, as it was before there were records, is none"),
    (12, "get the table that the record names: the lines after it say its words and its SHA-256, and if it is the house table. By another table a sound volume would seem to have a fault. Where the SHA-256 is the same, the record has a wrong number of words: compare it with the manual"),
    (MISFILLED, FILL_UP),
    (14, "mend the tree by cedunmi repair, and recode what that leaves: the lines after it say what a repair would do, and cedunmi check says more. Where pages are missing, bring some first; of a misfilled volume see first that the record's length is the manual's, as cedunmi explain 43 says, and if it is, ask for it coded anew; one with a fault is to be struck, not recoded"),
    (DAMAGED, "mend the tree by cedunmi repair"),
    (31, "see that the record is the manual's; then send the proof to others, who strike the volume by it"),
    (32, "bring some of the missing pages from other shops, mark them, and repair again; but where the last line speaks of the kind, do what that says"),
    (33, "keep them, and tell everybody: SHA-256 can't be relied on any more. By a record of kind 00, with places, each of the two is hashed after the place that the report names, by one of kind 01 by itself"),
    (ENDS + MISFILLED, FILL_UP),
    (USAGE, "cedunmi help COMMAND shows what it takes"),
    (SLIP, "compare the lines that are named with the print, digit by digit"),
    (UNREADABLE, "look at its name and its rights"),
    (UNKNOWN, "program and library are of two versions: build both again"),
    (NOT_MADE, "the line with it says why: give another name, make its folder, or use --force to replace what is there"),
    (NOT_WRITTEN, "make room on the disk, and look at it; every file is as it was, unless the lines with it say otherwise"),
];

/// What a status means.
fn meaning(status: u8) -> &'static str {
    match status {
        0 => "done, accepted, or whole",
        DAMAGED => "the tree is damaged, and a repair makes it whole",
        MISFILLED => explain_end(u64::from(status)),
        31..=33 | 43 => explain_end(u64::from(status - ENDS)),
        USAGE => "bad usage",
        SLIP => "the typed text has a slip",
        UNREADABLE => "an input can't be read",
        UNKNOWN => "the library answered what this program does not know",
        NOT_MADE => "an output can't be made, is there already, or is an input",
        NOT_WRITTEN => "an output, or what is printed, could not be written whole",
        number => explain(number.into()),
    }
}

/// The text for a number, where it is a status.
pub fn of(number: u64) -> Option<String> {
    let (status, to_do) = TO_DO.iter().find(|(status, _)| u64::from(*status) == number)?;
    Some(format!("{status}: {}\nto do: {to_do}\n", meaning(*status)))
}

#[cfg(test)]
mod tests {
    use super::*;
    use crate::help::MANUAL;

    /// The statuses that the manual lists, its `1 to 12` being twelve.
    fn listed() -> Vec<u64> {
        let lines = MANUAL
            .lines()
            .skip_while(|line| *line != "Exit status")
            .skip(1)
            .take_while(|line| !line.is_empty());
        let mut numbers = Vec::new();
        for line in lines {
            let head = &line[..10];
            let words: Vec<u64> =
                head.split_whitespace().filter_map(|word| word.parse().ok()).collect();
            if head.contains("to") {
                numbers.extend(words[0]..=words[1]);
            } else {
                numbers.extend(words);
            }
        }
        numbers
    }

    #[test]
    fn every_status_of_the_manual_is_explained_and_no_other() {
        let explained: Vec<u64> = (0..=300).filter(|number| of(*number).is_some()).collect();
        let mut known = listed();
        known.insert(13, MISFILLED.into());
        assert_eq!(known, explained);
        for number in explained {
            let text = of(number).expect("a text");
            assert!(text.starts_with(&format!("{number}: ")) && text.lines().count() == 2);
            assert!(!text.contains("no call gives") && !text.contains("no repair has"));
        }
    }

    /// Where the last line may say what is to be done for the kind, that is known.
    #[test]
    fn kinds_are_known() {
        for (number, line) in [(7, "second"), (32, "last")] {
            let known = format!("where the {line} line speaks of the kind, do what that says");
            assert!(of(number).expect("a text").contains(&known));
        }
    }

    /// Of a misfilled volume 14 says what 43 says: the length is compared before anything is done with its bytes.
    #[test]
    fn lengths_are_compared_first() {
        let (refused, ended) = (of(14).expect("a text"), of(43).expect("a text"));
        assert!(ended.contains("\nto do: see that the record's length is the manual's. "));
        let first = "of a misfilled volume see first that the record's length is the manual's, as cedunmi explain 43 says, ";
        assert!(refused.contains(first) && !refused.contains(" read "));
        assert!([refused, ended].iter().all(|text| text.contains("ask for it coded anew")));
    }
}
