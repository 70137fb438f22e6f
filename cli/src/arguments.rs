//! The words of the command line.

use crate::failure::Failure;
use crate::help;
use crate::name::shown;
use std::ffi::{OsStr, OsString};

/// A command with its options and arguments.
pub struct Arguments {
    pub command: &'static str,
    pub options: Options,
    words: Vec<OsString>,
}

#[derive(Clone, Copy, Debug, Default)]
pub struct Options {
    pub force: bool,
    pub in_place: bool,
    pub for_volume: bool,
    pub plain: bool,
    pub unverified: bool,
    pub quiet: bool,
}

/// Which option goes with which command; `--quiet` goes with all.
const FORCE: &[&str] = &["table", "code", "recode", "typed", "sample", "repair", "read"];
const IN_PLACE: &[&str] = &["repair"];
const FOR_VOLUME: &[&str] = &["table"];
const PLAIN: &[&str] = &["code"];
const UNVERIFIED: &[&str] = &["read"];

impl Arguments {
    /// Options may stand anywhere before a word `--`. `--help` and `--version` come before all else.
    pub fn parse(words: Vec<OsString>) -> Result<Arguments, Failure> {
        let (marked, after) = match words.iter().position(|word| word == "--") {
            Some(at) => (&words[..at], &words[at + 1..]),
            None => (&words[..], &[][..]),
        };
        let is_option = |word: &&OsString| word.to_string_lossy().starts_with('-') && *word != "-";
        let mut plain = marked.iter().filter(|word| !is_option(word)).chain(after).cloned();
        let options: Vec<&OsString> = marked.iter().filter(is_option).collect();
        let given = |name: &str| options.iter().any(|word| *word == name);
        if given("--version") {
            return Ok(Arguments::alone("version", plain.collect()));
        }
        let first = plain.next();
        if given("--help") || given("-h") {
            return Ok(Arguments::alone("help", first.into_iter().collect()));
        }
        let first = first
            .ok_or_else(|| Failure::usage(format!("no command is given:\n{}", help::usage())))?;
        let command = known(&first)?;
        let mut parsed = Arguments::alone(command, plain.collect());
        options.into_iter().try_for_each(|word| parsed.set(word))?;
        Ok(parsed)
    }

    fn alone(command: &'static str, words: Vec<OsString>) -> Arguments {
        Arguments { command, options: Options::default(), words }
    }

    fn set(&mut self, word: &OsStr) -> Result<(), Failure> {
        let (option, commands) = match word.to_str() {
            Some("--quiet" | "-q") => (&mut self.options.quiet, None),
            Some("--force") => (&mut self.options.force, Some(FORCE)),
            Some("--in-place") => (&mut self.options.in_place, Some(IN_PLACE)),
            Some("--for") => (&mut self.options.for_volume, Some(FOR_VOLUME)),
            Some("--plain") => (&mut self.options.plain, Some(PLAIN)),
            Some("--unverified") => (&mut self.options.unverified, Some(UNVERIFIED)),
            _ => {
                let name = shown(word);
                return Err(Failure::usage(format!(
                    "there is no option {name}; a file of this name is ./{name}"
                )));
            }
        };
        if commands.map_or(false, |commands| !commands.contains(&self.command)) {
            let why = match (self.command, word.to_str()) {
                ("recode", Some("--plain")) => ": the record says the kind, and the other is made",
                _ => "",
            };
            let word = shown(word);
            return Err(Failure::usage(format!("{} has no option {word}{why}", self.command)));
        }
        *option = true;
        Ok(())
    }

    /// The arguments, as many as the command has.
    pub fn take<const N: usize>(&self) -> Result<[&OsStr; N], Failure> {
        let words: Vec<&OsStr> = self.words.iter().map(OsString::as_os_str).collect();
        let plural = if N == 1 { "" } else { "s" };
        let taken = format!("{N} argument{plural}");
        <[&OsStr; N]>::try_from(words).map_err(|_| self.miscounted(&taken))
    }

    /// The same after a depth, which need not be there: the number of arguments tells.
    pub fn take_after_depth<const N: usize>(
        &self,
    ) -> Result<(Option<&OsStr>, [&OsStr; N]), Failure> {
        let words: Vec<&OsStr> = self.words.iter().map(OsString::as_os_str).collect();
        let (depth, words) = match words.split_first() {
            Some((depth, after)) if after.len() == N => (Some(*depth), after.to_vec()),
            _ => (None, words),
        };
        let plural = if N == 1 { "" } else { "s" };
        let taken = format!("{N} argument{plural}, or {} with DEPTH", N + 1);
        let words = <[&OsStr; N]>::try_from(words).map_err(|_| self.miscounted(&taken))?;
        Ok((depth, words))
    }

    fn miscounted(&self, taken: &str) -> Failure {
        let (command, given, lines) = (self.command, self.words.len(), help::of(self.command));
        Failure::usage(format!("{command} takes {taken}, not {given}:\n{}", lines.trim_end()))
    }

    /// The arguments, one or none.
    pub fn at_most_one(&self) -> Result<Option<&OsStr>, Failure> {
        match &self.words[..] {
            [] => Ok(None),
            [word] => Ok(Some(word)),
            words => Err(Failure::usage(format!(
                "{} takes one argument, not {}",
                self.command,
                words.len()
            ))),
        }
    }
}

fn known(word: &OsStr) -> Result<&'static str, Failure> {
    let found = help::commands().find(|command| word == *command);
    found
        .ok_or_else(|| Failure::usage(format!("there is no command {}: cedunmi help", shown(word))))
}

/// The decimal number that an argument of this name is.
pub fn decimal(name: &str, word: &OsStr) -> Result<u64, Failure> {
    let text = word.to_str().unwrap_or("");
    let plain = !text.is_empty()
        && text.bytes().all(|byte| byte.is_ascii_digit())
        && (text == "0" || !text.starts_with('0'));
    let number = text.parse().ok().filter(|_| plain);
    number.ok_or_else(|| {
        Failure::usage(format!(
            "{name} is a decimal number of at most 64 bits, not {}",
            shown(word)
        ))
    })
}
