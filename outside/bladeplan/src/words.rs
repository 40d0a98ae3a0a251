//! The words of a command line: options and the rest. Any bytes may come; `--` ends the options; `-1,0` is a point and `-` a file.

use crate::trouble::{Outcome, Trouble};
use std::ffi::{OsStr, OsString};
use std::ops::RangeInclusive;
use std::os::unix::ffi::OsStrExt;

/// A subcommand: what it takes, what `--help` says, what it does.
pub struct Command {
    pub name: &'static str,
    /// The words it takes, as `--help` shows them.
    pub usage: &'static str,
    /// One line for the list of all commands.
    pub about: &'static str,
    /// What `--help` says below the usage; an example in it.
    pub help: &'static str,
    /// Options without a value, and with one, by their long names; `--help` and `--quiet` are every command's.
    pub flags: &'static [&'static str],
    pub valued: &'static [&'static str],
    /// How many words it takes besides options.
    pub takes: RangeInclusive<usize>,
    pub run: fn(&Words) -> Outcome<()>,
}

impl Command {
    pub fn help_text(&self) -> String {
        format!("usage: bladeplan {} {}\n\n{}", self.name, self.usage, self.help)
    }

    /// The command line is wrong, and how.
    pub fn wrong(&self, how: &str) -> Trouble {
        Trouble::Usage(format!("{}: {how}; usage: bladeplan {} {} (--help tells more)", self.name, self.name, self.usage))
    }
}

/// The options whose value names no file that is read.
const NO_INPUTS: [&str; 7] = ["--changes", "--output", "--title", "--disc", "--line", "--passes", "--level"];

/// What was given: the words, and the options with their values.
#[derive(Default)]
pub struct Words {
    pub plain: Vec<OsString>,
    options: Vec<(&'static str, OsString)>,
}

impl Words {
    pub fn parse(command: &Command, mut rest: impl Iterator<Item = OsString>) -> Outcome<Words> {
        let mut given = Words::default();
        while let Some(word) = rest.next() {
            match word.as_bytes() {
                b"--" => given.plain.extend(rest.by_ref()),
                [b'-', second, ..] if !second.is_ascii_digit() => given.option(command, &word, &mut rest)?,
                _ => given.plain.push(word),
            }
        }
        if given.has("--help") {
            return Ok(given);
        }
        if !command.takes.contains(&given.plain.len()) {
            return Err(command.wrong(if given.plain.is_empty() { "something is missing" } else { "too few words, or too many" }));
        }
        let inputs = given.options.iter().filter(|(name, _)| !NO_INPUTS.contains(name)).map(|(_, value)| value);
        if given.plain.iter().chain(inputs).filter(|word| *word == "-").count() > 1 {
            return Err(command.wrong("standard input can be read only once"));
        }
        Ok(given)
    }

    fn option(&mut self, command: &Command, word: &OsStr, rest: &mut impl Iterator<Item = OsString>) -> Outcome<()> {
        let (typed, joined) = parted(word);
        let name = long(&typed);
        let is_it = |known: &&&'static str| **known == name;
        if let Some(flag) = ["--help", "--quiet"].iter().chain(command.flags).find(is_it) {
            self.options.push((flag, OsString::new()));
            return if joined.is_some() { Err(command.wrong(&format!("{typed} takes no value"))) } else { Ok(()) };
        }
        let Some(valued) = command.valued.iter().find(is_it) else {
            return Err(command.wrong(&format!("no option {typed}")));
        };
        let value = joined.or_else(|| rest.next()).ok_or_else(|| command.wrong(&format!("{typed} needs a value")))?;
        self.options.push((valued, value));
        Ok(())
    }

    pub fn has(&self, name: &str) -> bool {
        self.value(name).is_some()
    }

    /// The value of an option; of one given twice, the later.
    pub fn value(&self, name: &str) -> Option<&OsStr> {
        self.options.iter().rev().find(|(given, _)| *given == name).map(|(_, value)| value.as_os_str())
    }

    /// The options of these names with their values, in the order typed.
    pub fn all<'a>(&'a self, names: &'a [&str]) -> impl Iterator<Item = (&'static str, &'a OsStr)> {
        self.options.iter().filter(|(given, _)| names.contains(given)).map(|(given, value)| (*given, value.as_os_str()))
    }

    pub fn quiet(&self) -> bool {
        self.has("--quiet")
    }

    /// Where the output goes: nothing is standard output.
    pub fn output(&self) -> Option<&OsStr> {
        self.value("--output")
    }
}

/// An option's name, and the value joined to it: `--name=value`, `-xvalue`.
fn parted(word: &OsStr) -> (String, Option<OsString>) {
    let bytes = word.as_bytes();
    let (name, value) = match bytes.starts_with(b"--") {
        true => match bytes.iter().position(|byte| *byte == b'=') {
            Some(at) => (&bytes[..at], Some(&bytes[at + 1..])),
            None => (bytes, None),
        },
        false => (&bytes[..2], Some(&bytes[2..]).filter(|value| !value.is_empty())),
    };
    (String::from_utf8_lossy(name).into_owned(), value.map(|value| OsStr::from_bytes(value).to_os_string()))
}

fn long(name: &str) -> &str {
    match name {
        "-h" => "--help",
        "-q" => "--quiet",
        "-o" => "--output",
        other => other,
    }
}
