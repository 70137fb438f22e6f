//! A record that was typed from a print, and its slips, each named by its line.

use crate::printed::{
    check, digits, label, name, CHECK, CHECK_OF_ALL, DIGITS, LINES, TABLE_HASH, WORDS,
};
use crate::volume;
use cedunmi::{Depth, Kind, Record, Stop};

/// A record that was typed.
#[derive(Debug)]
pub struct Typed {
    pub record: Vec<u8>,
    /// No check was typed, so that a slip could not be found.
    pub unchecked: bool,
    /// No word for the kind was typed, so that it is plain.
    pub kindless: bool,
}

/// Where a typed text is not a record: lines for whoever typed it.
#[derive(Debug, PartialEq, Eq)]
pub enum Slips {
    Lines(Vec<String>),
    Stopped(Stop),
}

impl From<Stop> for Slips {
    fn from(stop: Stop) -> Slips {
        Slips::Stopped(stop)
    }
}

/// What may stand after the word or number that a line begins with, and in a hash, beside white space.
const SEPARATORS: [char; 2] = [':', '.'];

/// A line of a typed text that has something to say.
struct Line<'a> {
    /// Its number in the text, from 1.
    at: usize,
    words: Vec<&'a str>,
}

/// The lines of a text, whose ends are LF, CR LF or CR.
fn lines(text: &str) -> Vec<Line<'_>> {
    let mut lines = Vec::new();
    for (at, line) in text
        .split('\n')
        .flat_map(|line| line.strip_suffix('\r').unwrap_or(line).split('\r'))
        .enumerate()
    {
        let words: Vec<&str> = line.split('#').next().unwrap_or("").split_whitespace().collect();
        if !words.is_empty() {
            lines.push(Line { at: at + 1, words });
        }
    }
    lines
}

impl Line<'_> {
    fn first(&self) -> &str {
        self.words[0].trim_end_matches(SEPARATORS)
    }

    /// Whether it has the check of all.
    fn is_check(&self) -> bool {
        self.first() == "check"
    }

    /// The number before the hash, where it is a word of its own.
    fn number(&self) -> Option<usize> {
        let first = self.first();
        first.parse().ok().filter(|_| first.len() <= 2 && self.words.len() > 1)
    }

    /// Which line of a record it is, by what it begins with.
    fn place(&self) -> Option<usize> {
        if let Some(word) = WORDS.iter().position(|(word, _)| self.first() == *word) {
            return Some(word);
        }
        match self.is_table_hash() {
            true => Some(TABLE_HASH),
            false => self.number().map(|number| TABLE_HASH + 1 + number),
        }
    }

    /// Whether it begins with T, as a word of its own or before digits.
    fn is_table_hash(&self) -> bool {
        let digits =
            |rest: &str| rest.chars().all(|c| c.is_ascii_hexdigit() || SEPARATORS.contains(&c));
        self.first().strip_prefix('t').map_or(false, digits)
    }

    /// The same in words.
    fn begins(&self) -> String {
        match self.place() {
            Some(place) => name(place),
            None => format!("'{}'", self.first().escape_default()),
        }
    }

    /// What a hash's line has after the first words, without spacing.
    fn after(&self, words: usize) -> String {
        self.words[words..].concat().replace(SEPARATORS, "")
    }
}

/// What stands beside the hashes of a text, which is the same in all its lines: else a digit too few or too many could
/// pass for a number that is there or not, and four for a check.
#[derive(Clone, Copy)]
struct Form {
    number: Number,
    checked: bool,
}

/// How the number before a hash is written.
#[derive(Clone, Copy, PartialEq, Eq)]
enum Number {
    Plain,
    TwoDigits,
    None,
}

impl Form {
    /// What stands before the hash of a line.
    fn before(self, line: usize) -> String {
        match self.number {
            Number::None => String::new(),
            Number::TwoDigits if line > TABLE_HASH => format!("{:0>2}", label(line)),
            _ => label(line).to_lowercase(),
        }
    }

    /// The digits of a hash, with its check where there is one.
    fn digits(self) -> usize {
        match self.checked {
            true => DIGITS + CHECK,
            false => DIGITS,
        }
    }

    fn all() -> impl Iterator<Item = Form> {
        let numbers = [Number::Plain, Number::TwoDigits, Number::None].into_iter();
        numbers.flat_map(|number| [true, false].map(|checked| Form { number, checked }))
    }
}

/// The record that a text writes, in the form by which it has the fewest slips. A mark of byte order before it, which
/// some editors write, says nothing.
pub fn parse(text: &[u8]) -> Result<Typed, Slips> {
    if 4 * text.iter().filter(|byte| **byte == 0).count() > text.len() {
        return Err(Slips::Lines(vec![
            "this is no plain text: many of its bytes are zero".to_string()
        ]));
    }
    let text = String::from_utf8_lossy(text).to_lowercase();
    let lines = lines(text.trim_start_matches('\u{feff}'));
    let (of_all, lines): (Vec<Line>, Vec<Line>) = lines.into_iter().partition(Line::is_check);
    let mut best: Option<(Form, Vec<u8>, Vec<String>)> = None;
    for form in Form::all() {
        let (record, slips) = read(&lines, form)?;
        if best.as_ref().map_or(true, |(_, _, fewest)| slips.len() < fewest.len()) {
            best = Some((form, record, slips));
        }
    }
    let (form, record, mut slips) = best.expect("there are forms");
    if slips.is_empty() {
        let first = of_all.first().map_or(Ok(None), |line| slip_of_all(line, &record, form))?;
        slips.extend(first);
        let more = of_all.iter().skip(1);
        slips.extend(more.map(|line| format!("line {}: the check of all is there twice", line.at)));
        slips.extend(slip_of_length(&lines, &record));
    }
    match slips.is_empty() {
        true => {
            let kindless = !lines[0].words.iter().any(|group| is_word(group, WORDS[0].1));
            Ok(Typed { record, unchecked: !form.checked && of_all.is_empty(), kindless })
        }
        false => Err(Slips::Lines(slips)),
    }
}

/// The bytes of lines in a form, and their slips.
fn read(lines: &[Line], form: Form) -> Result<(Vec<u8>, Vec<String>), Stop> {
    let (mut record, mut slips, mut wanted) = (Vec::new(), Vec::new(), 0);
    for (at, line) in lines.iter().enumerate() {
        let place = counted(lines, at, wanted, form);
        let mut slip = |what: String| slips.push(format!("line {}: {what}", line.at));
        if place >= LINES {
            slip(format!("{} is the last line of a record", name(LINES - 1)));
            continue;
        }
        if place != wanted {
            slip(misplaced(place, wanted));
        }
        match bytes_of(line, place, form) {
            Ok((bytes, typed)) if form.checked && typed != check(place, &bytes)? => {
                slip(misfit(place, &bytes, &typed)?);
            }
            Ok((bytes, _)) => record.extend(bytes),
            Err(why) => slip(why),
        }
        wanted = place + 1;
    }
    if wanted < LINES {
        slips.push(cut_short(wanted, form));
    }
    Ok((record, slips))
}

/// What to say of a line that does not fit its check. The depth's may fit it as of the other kind.
fn misfit(place: usize, bytes: &[u8], typed: &str) -> Result<String, Stop> {
    let mut slip = format!("{} has a slip: it does not fit its check", name(place));
    if place == 0 {
        let other = volume::of_other_kind(bytes);
        if check(place, &other)? == typed {
            slip += &format!(", which is that of '{}'", depth_line(&other));
        }
    }
    Ok(slip)
}

/// The depth's line of a record that begins with these bytes, without its check.
fn depth_line(bytes: &[u8]) -> String {
    let kind = if bytes[0] == 0 { Kind::Placed } else { Kind::Plain };
    format!("{} {} {}", name(0), bytes[3], volume::word(kind))
}

/// Which line of the record one is: after one that is missing, or there twice, the others go on by what they begin with.
fn counted(lines: &[Line], at: usize, wanted: usize, form: Form) -> usize {
    let begun = |line: &Line| {
        line.place().filter(|place| form.number != Number::None || *place <= TABLE_HASH)
    };
    let follows = |place: usize| match lines.get(at + 1) {
        Some(line) => match begun(line) {
            Some(next) => next == place + 1,
            None => form.number == Number::None && place + 1 >= TABLE_HASH,
        },
        None => place + 1 == LINES,
    };
    begun(&lines[at]).filter(|place| follows(*place)).unwrap_or(wanted)
}

/// What to say of a line that stands where another is wanted, with others after it in their order.
fn misplaced(place: usize, wanted: usize) -> String {
    let root = "; sixteen hashes alone are a root, as it was before there were records";
    match place + 1 == wanted {
        true => format!("{} is there twice", name(place)),
        false if wanted == LINES => {
            let begins = if place == 0 { ", and another begins: a text has one" } else { "" };
            format!("{} comes after {}, where a record ends{begins}", name(place), name(LINES - 1))
        }
        false if place < wanted => format!("{} is wanted, not {}", name(wanted), name(place)),
        false => {
            let more = if (wanted, place) == (0, TABLE_HASH + 1) { root } else { "" };
            format!("{} before {}{more}", missing(wanted, place), name(place))
        }
    }
}

/// That lines from one on to before another are missing.
fn missing(from: usize, to: usize) -> String {
    match to - from {
        1 => format!("{} is missing", name(from)),
        _ => format!("{} to {} are missing", name(from), name(to - 1)),
    }
}

/// What to say where the text ends before the record.
fn cut_short(wanted: usize, form: Form) -> String {
    match wanted.checked_sub(TABLE_HASH) {
        Some(typed) if form.number == Number::None => {
            let hashes = LINES - TABLE_HASH;
            format!("a record has {hashes} hashes, T and 0 to {}, not {typed}", hashes - 2)
        }
        _ => format!("{} at the end", missing(wanted, LINES)),
    }
}

/// What is wrong with a check of all, as it was typed. Where each line fits its own, the slip is here.
fn slip_of_all(line: &Line, record: &[u8], form: Form) -> Result<Option<String>, Stop> {
    let (at, typed) = (line.at, line.words[1..].concat());
    if typed.len() != CHECK_OF_ALL {
        let count = typed.len();
        let slip = format!("line {at}: the check of all has {CHECK_OF_ALL} digits, not {count}");
        return Ok(Some(slip));
    }
    let (right, other) = (digits(record, CHECK_OF_ALL)?, volume::of_other_kind(record));
    let place = if digits(&other, CHECK_OF_ALL)? == typed {
        format!("it is that of '{}'", depth_line(&other))
    } else if form.checked {
        "the slip is in this line".to_string()
    } else {
        "a digit is wrong".to_string()
    };
    let slip = format!("line {at}: the check of this record is {right}, not {typed}: {place}");
    Ok(Some(slip).filter(|_| typed != right))
}

/// What is wrong with a length that the depth does not hold.
fn slip_of_length(lines: &[Line], record: &[u8]) -> Option<String> {
    Record::read(record).err()?;
    let depth = Depth::new(record[3].into())?;
    let (at, depth, most) = (lines[1].at, depth.layers(), depth.block_bytes());
    Some(format!("line {at}: length: depth {depth} holds at most {most} bytes"))
}

/// The bytes of the record that a line writes, and its check, in a form.
fn bytes_of(line: &Line, place: usize, form: Form) -> Result<(Vec<u8>, String), String> {
    let begun = line.place().filter(|begun| *begun <= TABLE_HASH);
    if begun != Some(place) && (begun.is_some() || place < TABLE_HASH) {
        return Err(format!("{} is wanted, not {}", name(place), line.begins()));
    }
    match WORDS.get(place) {
        Some((_, after)) => word(line, place, after, form),
        None => hash(line, place, form),
    }
}

/// That a line has something that is no digit, where it has.
fn no_digit(place: usize, typed: &str) -> Option<String> {
    let other = typed.chars().find(|c| !c.is_ascii_hexdigit() && *c != ' ')?.escape_default();
    Some(format!("{} has '{other}', which is no digit from 0 to f", name(place)))
}

/// What a line in words has before one of these words, or as its first group where none is there; the word; and what
/// comes after.
fn parted<'a>(said: &'a str, words: &[&'static str]) -> (&'a str, Option<&'static str>, &'a str) {
    let at = |word: &&'static str| {
        said.split_once(*word).map(|(value, check)| (value, Some(*word), check))
    };
    let without = || said.split_once(' ').map(|(value, check)| (value, None, check));
    let found = words.iter().find_map(at).or_else(without);
    let (value, word, check) = found.unwrap_or((said, None, ""));
    (value.trim(), word, check.trim())
}

/// The kind of a line's word: that of the depth's is the volume's, which is plain where the line does not say it, as none
/// did while there was one kind.
fn kind_of(place: usize, said: Option<&str>) -> u32 {
    let placed = said == Some(volume::word(Kind::Placed));
    match place {
        0 if placed => Kind::Placed.number() as u32,
        0 => Kind::Plain.number() as u32,
        _ => place as u32 + 1,
    }
}

/// Whether a group is one of these words; the number may stand before it, and a check after it.
fn is_word(group: &str, words: &[&str]) -> bool {
    let group = group.trim_start_matches(|c: char| c.is_ascii_digit());
    let mut checks = words.iter().filter_map(|word| group.strip_prefix(word));
    checks.any(|check| {
        [0, CHECK].contains(&check.len()) && check.chars().all(|c| c.is_ascii_hexdigit())
    })
}

/// What is wrong with the groups of a line that have one of these words in them: one that is another word, as `placedd`
/// is, or a second one.
fn misworded(place: usize, groups: &[&str], words: &[&str]) -> Option<String> {
    let has = |group: &&&str| words.iter().any(|word| group.contains(word));
    let said: Vec<&str> = groups.iter().filter(has).copied().collect();
    match said.iter().find(|group| !is_word(group, words)) {
        Some(other) => Some(not_wanted(place, other, words)),
        None if said.len() < 2 => None,
        None if place == 0 => Some(format!("{} has two words for the kind", name(place))),
        None => Some(format!("{} has the word {} twice", name(place), words.join(" or "))),
    }
}

/// That a line in words has another word than these after its number, where it has; its last group may be a check.
fn other_word(place: usize, said: &str, words: &[&str], form: Form) -> Option<String> {
    let groups: Vec<&str> = said.split(' ').collect();
    let before = groups.len() - usize::from(form.checked);
    let other = groups[..before].iter().find(|group| no_digit(place, group).is_some())?;
    Some(not_wanted(place, other, words))
}

/// That a line has a word that is none of these.
fn not_wanted(place: usize, other: &str, words: &[&str]) -> String {
    let wanted = if words.len() > 1 { "neither" } else { "not" };
    let other = other.escape_default();
    format!("{} has '{other}', which is {wanted} {}", name(place), words.join(" nor "))
}

/// What is wrong with the groups of a line in words. Number and check are one each: were they put together, a check
/// could pass for digits of the number.
fn misgrouped(value: &str, check: &str, form: Form) -> Option<&'static str> {
    match form.checked {
        _ if value.is_empty() => Some("has no number"),
        _ if value.contains(' ') || check.contains(' ') => {
            Some("has a number in groups, or more than one")
        }
        true if check.is_empty() => Some("has no check, and other lines have one"),
        false if !check.is_empty() => Some("has a check, and other lines have none"),
        _ => None,
    }
}

/// The word that a line writes as a decimal number, with one of these words after it or without, and its check.
fn word(
    line: &Line,
    place: usize,
    words: &[&'static str],
    form: Form,
) -> Result<(Vec<u8>, String), String> {
    const MOST: u32 = (1 << 30) - 1;
    let (name, said) = (name(place), line.words[1..].join(" "));
    if let Some(why) = misworded(place, &line.words[1..], words) {
        return Err(why);
    }
    let (value, after, check) = parted(&said, words);
    let other = no_digit(place, value).or_else(|| other_word(place, check, words, form));
    if let Some(why) = other.or_else(|| no_digit(place, check)) {
        return Err(why);
    }
    if let Some(why) = misgrouped(value, check, form) {
        return Err(format!("{name} {why}"));
    }
    if value.contains(|c: char| !c.is_ascii_digit()) {
        return Err(format!("{name} has '{value}', which is no decimal number"));
    }
    let most = if place == 0 { Depth::MAX.layers() as u32 } else { MOST };
    let least = u32::from(place == 0);
    let value = value.parse().ok().filter(|value| (least..=most).contains(value));
    let value = value.ok_or_else(|| format!("{name} is a number from {least} to {most}"))?;
    let word = kind_of(place, after) << 30 | value;
    Ok((word.to_be_bytes().to_vec(), check.to_string()))
}

/// The hash that a line writes, and its check.
fn hash(line: &Line, place: usize, form: Form) -> Result<(Vec<u8>, String), String> {
    let all = line.after(0);
    let before = match place == TABLE_HASH && all.starts_with('t') {
        true => "t".to_string(),
        false => form.before(place),
    };
    let rest = all.strip_prefix(&before);
    if let Some(why) = no_digit(place, rest.unwrap_or(&all)) {
        return Err(why);
    }
    let rest = rest.filter(|rest| rest.len() == form.digits());
    let (hash, check) = rest.ok_or_else(|| miscounted(line, place, form))?.split_at(DIGITS);
    let byte = |at| u8::from_str_radix(&hash[at..at + 2], 16).unwrap_or(0);
    Ok(((0..DIGITS).step_by(2).map(byte).collect(), check.to_string()))
}

/// What to say of a line with too few or too many digits, or with another number before it.
fn miscounted(line: &Line, place: usize, form: Form) -> String {
    let (all, name) = (line.after(0), name(place));
    let begun = line.place().filter(|_| form.number != Number::None || place == TABLE_HASH);
    let count = match begun {
        Some(TABLE_HASH) => all.len() - 1,
        Some(_) => line.after(1).len(),
        None => all.len(),
    };
    let with = if form.checked { " with its check" } else { "" };
    match begun {
        Some(begun) if begun != place => format!("{name} is wanted, not {}", line.begins()),
        None if form.number != Number::None => {
            format!("{name} has no number before it, or a digit too few or too many")
        }
        _ => format!("{name} has {count} digits{with}, not {}", form.digits()),
    }
}

#[cfg(test)]
mod tests;
