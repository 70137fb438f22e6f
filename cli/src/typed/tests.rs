use super::*;
use crate::printed::{hex, print};

/// The lines before those of the record, which are comments.
const COMMENTS: usize = 7;

/// A record with places of depth 5 and 700 bytes, by the house table; its root is made up.
fn record() -> Vec<u8> {
    let table = cedunmi::house_table(5).expect("the house table");
    let head = [0, 0, 0, 5, 128, 0, 2, 188, 192, 0, 7, 69].into_iter();
    let root = (0..512).map(|i| (i * 37 + i / 32) as u8);
    head.chain(cedunmi::sha256(&table).expect("its hash")).chain(root).collect()
}

/// The same of a plain volume.
fn plain() -> Vec<u8> {
    volume::of_other_kind(&record())
}

fn slips(text: &str) -> Vec<String> {
    match parse(text.as_bytes()) {
        Err(Slips::Lines(lines)) => lines,
        other => panic!("{other:?}"),
    }
}

/// A print, and its lines, of which some are comments.
fn printed() -> (String, Vec<String>) {
    let text = print(&record()).unwrap();
    let lines = text.lines().map(str::to_string).collect();
    (text, lines)
}

/// The lines of a print as they are without number and check.
fn bare() -> Vec<String> {
    let words = ["depth 5 placed", "length 700", "table 1861"].map(str::to_string).into_iter();
    words.chain(record()[12..].chunks(32).map(hex)).collect()
}

#[test]
fn a_print_is_read_back() {
    let (text, lines) = printed();
    let typed = parse(text.as_bytes()).unwrap();
    assert_eq!((typed.record, typed.unchecked), (record(), false));
    assert_eq!(lines.len(), COMMENTS + LINES + 1);
    assert!(lines[..COMMENTS].iter().all(|line| line.starts_with('#')));
}

/// A plain one too; and as it was printed while there was one kind, which its line did not say: with checks, with the
/// last one alone, with none.
#[test]
fn plain_prints_are_read_back() {
    let new = print(&plain()).unwrap();
    assert!(new.contains("\ndepth   5 plain       "));
    let old = new.replace("5 plain ", "5       ");
    let unchecked = [&["depth 5".to_string()], &bare()[1..]].concat().join("\n");
    let last = old.lines().last().expect("the check of all");
    for text in [&new, &old, &unchecked, &format!("{unchecked}\n{last}")] {
        let typed = parse(text.as_bytes()).unwrap();
        assert_eq!((typed.record, typed.kindless), (plain(), text != &new), "{text}");
    }
}

/// The kind left out, or the other one, or another word, is a slip of the depth's line; which kind its check has is said.
#[test]
fn slips_of_the_kind_are_named() {
    let (text, _) = printed();
    let with = |word: &str| slips(&text.replace("5 placed", &format!("5 {word}")));
    let misfit = "line 8: depth has a slip: it does not fit its check";
    for word in ["", "plain"] {
        assert_eq!(with(word), [format!("{misfit}, which is that of 'depth 5 placed'")]);
    }
    for word in ["palced", "place", "placd", "0", "with places"] {
        let found = with(word);
        assert!(found.len() == 1 && found[0].starts_with("line 8: depth has "), "{found:?}");
    }
    assert_eq!(with("palced"), ["line 8: depth has 'palced', which is neither placed nor plain"]);
    assert_eq!(slips(&text.replace("5 placed", "4 plain")), [misfit]);
    let new = print(&plain()).unwrap();
    let other = slips(&new.replace("5 plain", "5 placed"));
    assert!(other
        .concat()
        .ends_with("it does not fit its check, which is that of 'depth 5 plain'"));
}

/// Where no line has its check, the check of all finds the kind.
#[test]
fn the_check_of_all_has_the_kind() {
    let (text, _) = printed();
    let last = text.lines().last().expect("the check of all").to_string();
    let lines = [&["depth 5".to_string()], &bare()[1..], &[last]].concat();
    let found = slips(&lines.join("\n"));
    assert!(found.len() == 1 && found[0].starts_with("line 21: the check of this record is "));
    assert!(found[0].ends_with(": it is that of 'depth 5 placed'"), "{found:?}");
}

/// With or without numbers and checks, in groups of any length, in either case.
#[test]
fn groups_have_any_spacing() {
    let (text, _) = printed();
    let typed = parse(bare().join("\n").as_bytes()).unwrap();
    assert_eq!((typed.record, typed.unchecked), (record(), true));
    for size in 1..70 {
        for with in [&text, &bare().join("\n")] {
            let lines = with.lines().filter(|line| !line.starts_with('#'));
            let spaced: String = lines.map(|line| spaced(line, size)).collect();
            let typed = parse(spaced.to_uppercase().as_bytes());
            assert_eq!(typed.map(|typed| typed.record).ok(), Some(record()), "{size}: {spaced}");
        }
    }
}

/// The digits of a hash's line, or of the check of all, in groups of another size; the lines in words as they are.
fn spaced(line: &str, size: usize) -> String {
    if WORDS.iter().any(|(word, _)| line.starts_with(word)) {
        return format!("{line}\r\n");
    }
    let (word, rest) = line.split_at(if line.starts_with("check") { 5 } else { 0 });
    let digits: Vec<char> = rest.chars().filter(|c| !c.is_whitespace()).collect();
    let groups: Vec<String> = digits.chunks(size).map(|group| group.iter().collect()).collect();
    format!("{word} {}\r\n", groups.join(" "))
}

/// Every wrong character of every line is found there, in the lines in words too.
#[test]
fn a_slip_is_named_in_its_line() {
    let (text, lines) = printed();
    let begin: usize = lines[..COMMENTS].iter().map(|line| line.len() + 1).sum();
    let end = text.find("check  ").expect("the last line");
    let places = text.char_indices().filter(|(at, c)| (begin..end).contains(at) && *c > ' ');
    for (at, digit) in places {
        let line = text[..at].matches('\n').count() + 1;
        let other = if digit == '1' { '2' } else { '1' };
        let slip = format!("{}{other}{}", &text[..at], &text[at + 1..]);
        let found = slips(&slip);
        assert!(found[0].starts_with(&format!("line {line}: ")), "{found:?} for {slip}");
        assert_eq!(found.len(), 1, "{found:?} for {slip}");
    }
}

/// What is said where a line of a print is there twice, and where it is missing.
fn twice_or_not(at: usize) -> [Vec<String>; 2] {
    let (_, lines) = printed();
    let (mut doubled, mut missing) = (lines.clone(), lines.clone());
    doubled.insert(COMMENTS + at, lines[COMMENTS + at].clone());
    missing.remove(COMMENTS + at);
    [doubled, missing].map(|lines| slips(&lines.join("\r")))
}

#[test]
fn lines_out_of_order_are_named() {
    for at in 0..LINES - 1 {
        let (number, one, other) = (COMMENTS + at + 1, name(at), name(at + 1));
        let mut swapped = printed().1;
        swapped.swap(COMMENTS + at, COMMENTS + at + 1);
        let found = [
            format!("line {number}: {one} is wanted, not {other}"),
            format!("line {}: {other} is wanted, not {one}", number + 1),
        ];
        assert_eq!(slips(&swapped.join("\n")), found);
        let [doubled, missing] = twice_or_not(at);
        assert_eq!(doubled, [format!("line {}: {one} is there twice", number + 1)]);
        assert_eq!(missing, [format!("line {number}: {one} is missing before {other}")]);
    }
    let [doubled, missing] = twice_or_not(LINES - 1);
    assert_eq!(doubled, ["line 28: hash 15 is there twice"]);
    assert_eq!(missing, ["hash 15 is missing at the end"]);
    let (_, lines) = printed();
    let some = [&lines[..COMMENTS + 4], &lines[COMMENTS + 9..]].concat();
    assert_eq!(slips(&some.join("\n")), ["line 12: hash 0 to hash 4 are missing before hash 5"]);
    assert_eq!(slips(&lines[..COMMENTS].join("\n")), ["depth to hash 15 are missing at the end"]);
}

#[test]
fn lines_without_numbers_are_counted() {
    let lines = bare();
    let mut swapped = printed().1[COMMENTS..COMMENTS + LINES].to_vec();
    for line in &mut swapped[3..] {
        line.replace_range(..3, "");
    }
    swapped.swap(6, 9);
    let found = [7, 10]
        .map(|at| format!("line {at}: hash {} has a slip: it does not fit its check", at - 5));
    assert_eq!(slips(&swapped.join("\n")), found);
    assert_eq!(slips(&lines[..19].join("\n")), ["a record has 17 hashes, T and 0 to 15, not 16"]);
    let more = [&lines[..], &lines[19..]].concat();
    assert_eq!(slips(&more.join("\n")), ["line 21: hash 15 is the last line of a record"]);
    let without = [&lines[..1], &lines[2..]].concat();
    assert_eq!(slips(&without.join("\n")), ["line 2: length is missing before table"]);
}

/// The print of a root alone, as it was before there were records.
#[test]
fn a_root_is_no_record() {
    let (_, lines) = printed();
    let root = &lines[COMMENTS + 4..];
    let found = slips(&root.join("\n"));
    assert_eq!(found.len(), 1);
    assert!(found[0].starts_with("line 1: depth to hash T are missing before hash 0; sixteen"));
}

/// A digit too few, or four, where there are numbers or checks, is none of a line without them.
#[test]
fn digits_are_counted() {
    let (_, lines) = printed();
    let cut = |line: &String| line[..line.len() - 6].to_string();
    let unchecked: Vec<String> = lines[COMMENTS..COMMENTS + LINES].iter().map(cut).collect();
    assert_eq!(parse(unchecked.join("\n").as_bytes()).unwrap().record, record());
    for at in TABLE_HASH..LINES {
        let mut short = unchecked.clone();
        short[at].pop();
        let found = format!("line {}: {} has 63 digits, not 64", at + 1, name(at));
        assert_eq!(slips(&short.join("\n")), [found]);
        let mut cut = lines.clone();
        cut[COMMENTS + at].replace_range(12..16, "");
        let found = format!(
            "line {}: {} has 64 digits with its check, not 68",
            COMMENTS + at + 1,
            name(at)
        );
        assert_eq!(slips(&cut.join("\n")), [found]);
    }
}

#[test]
fn numbers_in_words_are_read() {
    let (_, lines) = printed();
    let with = |at: usize, line: &str| {
        let mut lines = lines[COMMENTS..].to_vec();
        lines[at] = line.to_string();
        lines.join("\n")
    };
    let [depth, length, table] = [0, 1, 2].map(|at| lines[COMMENTS + at][22..].to_string());
    for same in [
        with(0, &format!("Depth: 5 Placed {depth}")),
        with(0, &format!("depth 5placed{depth}")),
        with(1, &format!("length 700 {length}")),
        with(1, &format!("length 700bytes{length}")),
        with(2, &format!("TABLE. 1861 WORDS {table}")),
    ] {
        assert_eq!(parse(same.as_bytes()).unwrap().record, record(), "{same}");
    }
    let said = |at, line: &str| slips(&with(at, line)).concat();
    assert_eq!(said(0, "depth"), "line 1: depth has no number");
    assert_eq!(said(0, &format!("depth placed {depth}")), "line 1: depth has no number");
    for two in ["5 placed placed", "5 placed plain", "5 plain placed", "5placed plain"] {
        let twice = said(0, &format!("depth {two} {depth}"));
        assert_eq!(twice, "line 1: depth has two words for the kind", "{two}");
    }
    let twice = said(1, &format!("length 700 bytes bytes {length}"));
    assert_eq!(twice, "line 2: length has the word bytes twice");
    for other in ["placedd", "aplaced", "placedplain", "placed1", "placed:", "plain12345"] {
        let found = said(0, &format!("depth 5 {other} {depth}"));
        let wanted = format!("line 1: depth has '{other}', which is neither placed nor plain");
        assert_eq!(found, wanted);
    }
    let found = said(2, &format!("table 1861 wordss {table}"));
    assert_eq!(found, "line 3: table has 'wordss', which is not words");
    assert_eq!(
        said(1, "length 700 bytes"),
        "line 2: length has no check, and other lines have one"
    );
    for groups in ["length 7 00 bytes", "length 7 00", "length 700 bytes 0"] {
        let found = said(1, &format!("{groups} {length}"));
        assert_eq!(found, "line 2: length has a number in groups, or more than one");
    }
    let found = said(1, &format!("length 7.00 {length}"));
    assert_eq!(found, "line 2: length has '.', which is no digit from 0 to f");
    assert_eq!(said(2, &format!("tabel 1861 {table}")), "line 3: table is wanted, not 'tabel'");
    assert_eq!(
        said(0, &format!("depth 12 placed {depth}")),
        "line 1: depth is a number from 1 to 9"
    );
    assert_eq!(said(1, "lenght 700 bytes"), "line 2: length is wanted, not 'lenght'");
    assert_eq!(said(1, "length 7oo 0000"), "line 2: length has 'o', which is no digit from 0 to f");
    assert_eq!(said(1, "length 7a0 0000"), "line 2: length has '7a0', which is no decimal number");
    let large = "line 3: table is a number from 0 to 1073741823";
    assert_eq!(said(2, "table 1073741824 words 0000"), large);
}

/// A length that no tree of the depth holds is a slip, even where nothing was typed to check it by.
#[test]
fn lengths_are_held_by_their_depths() {
    let mut lines = bare();
    lines[1] = "length 16384".to_string();
    assert!(parse(lines.join("\n").as_bytes()).is_ok());
    lines[1] = "length 16385".to_string();
    let found = ["line 2: length: depth 5 holds at most 16384 bytes"];
    assert_eq!(slips(&lines.join("\n")), found);
}

/// In a text without checks, one that was left on its line is none of the number's digits.
#[test]
fn a_check_that_was_left_on_is_no_number() {
    let (_, lines) = printed();
    let with = |at: usize, line: &str| {
        let mut bare = bare();
        bare[at] = line.to_string();
        slips(&bare.join("\n"))
    };
    for at in 0..TABLE_HASH {
        let found = format!("line {}: {} has a check, and other lines have none", at + 1, name(at));
        assert_eq!(with(at, &lines[COMMENTS + at]), [found.clone()]);
        let uncounted = lines[COMMENTS + at].replace("bytes", "").replace("words", "");
        assert_eq!(with(at, &uncounted), [found]);
    }
    let all = [&lines[COMMENTS..COMMENTS + TABLE_HASH], &bare()[TABLE_HASH..]].concat();
    assert_eq!(slips(&all.join("\n")).len(), TABLE_HASH);
    for line in
        ["length 1 5 bytes", "length 1 5 7", "length 1.5", "length 1:5", "length 15 bytes 7"]
    {
        assert_eq!(with(1, line).len(), 1, "{line}");
    }
    // A word with a digit more is no word and a check.
    for (at, line, other) in [
        (0, "depth 5 placedd", "'placedd', which is neither placed nor plain"),
        (0, "depth 5plaina", "'5plaina', which is neither placed nor plain"),
        (1, "length 15 bytese", "'bytese', which is not bytes"),
    ] {
        assert_eq!(with(at, line), [format!("line {}: {} has {other}", at + 1, name(at))]);
    }
    assert_eq!(with(0, "depth 5 placed plain"), ["line 1: depth has two words for the kind"]);
    for line in ["length 15", "length: 15 bytes", "length 15bytes"] {
        let text = [&bare()[..1], &[line.to_string()], &bare()[2..]].concat();
        assert_eq!(parse(text.join("\n").as_bytes()).unwrap().record[4..8], [128, 0, 0, 15]);
    }
}

/// A text has one record: another after it, or a second check of all, is named.
#[test]
fn a_second_record_is_named() {
    let (text, lines) = printed();
    let another =
        "depth comes after hash 15, where a record ends, and another begins: a text has one";
    let numbers = [format!("line {}: {another}", 2 * COMMENTS + LINES + 2)];
    assert_eq!(slips(&format!("{text}{text}")), numbers);
    let one = bare().join("\n");
    assert_eq!(slips(&format!("{one}\n{one}")), [format!("line 21: {another}")]);
    let more = [&lines[..], &lines[COMMENTS + 8..COMMENTS + 10]].concat();
    let found = slips(&more.join("\n"));
    assert!(found[0].ends_with("hash 4 comes after hash 15, where a record ends"), "{found:?}");
}

#[test]
fn other_slips_are_named() {
    let (text, _) = printed();
    assert!(slips(&text.replacen(" 0 00", " 0 0O", 1))[0].contains("'o'"));
    let (lines, last) = text.split_at(text.find("check  ").expect("the last line"));
    let other = format!("{lines}check 01234567");
    assert!(slips(&other)[0].starts_with("line 28: the check of this record is"));
    let short = format!("{lines}check 0");
    assert_eq!(slips(&short), ["line 28: the check of all has 8 digits, not 1"]);
    assert_eq!(slips(&format!("{text}{last}")), ["line 29: the check of all is there twice"]);
    assert_eq!(slips("7\x007"), ["this is no plain text: many of its bytes are zero"]);
}

/// A line of a print; a hash's with colons and full stops.
fn separated(line: &str) -> String {
    let hash = line.len() == 80 && !line.starts_with('#');
    let line = match hash {
        true => line.trim_start().replacen(' ', ": ", 1).replace(" 5", ".5"),
        false => line.to_string(),
    };
    line + "\n"
}

#[test]
fn what_means_the_same_is_taken() {
    let (text, _) = printed();
    let filled = text.replace("\n ", "\n0").replace("\n0T", "\nT");
    for same in [
        text.replace("check  ", "Check: "),
        text.lines().map(separated).collect(),
        format!("\u{feff}{filled}"),
        text.replace('\n', "\r\n"),
    ] {
        assert_eq!(parse(same.as_bytes()).unwrap().record, record());
    }
}
