//! Lists that people write: a text of lines, of which empty ones and those that begin with `#` say nothing. A line is known by its number.

use crate::files;
use crate::place::Place;
use crate::trouble::{Outcome, Trouble};
use flaskbloom::Refusal;
use std::ffi::OsStr;
use std::io;

/// The longest list that is read.
const LIMIT: u64 = 16 << 20;

/// What some editors put before a text.
const BYTE_ORDER_MARK: char = '\u{feff}';

pub struct List {
    pub name: String,
    /// As it was read.
    pub bytes: Vec<u8>,
    /// The lines that say something, each with its number; the first line is 1.
    lines: Vec<(u64, String)>,
}

impl List {
    /// The list in a file; `-` is standard input.
    pub fn load(path: &OsStr) -> Outcome<List> {
        let name = files::shown(path);
        let bytes = files::read(path, LIMIT + 1)?;
        if bytes.len() as u64 > LIMIT {
            return Err(Trouble::file(&name, io::Error::other("longer than 16 MiB, so no list")));
        }
        let text = String::from_utf8_lossy(&bytes);
        let text = text.trim_start_matches(BYTE_ORDER_MARK);
        let numbered = text.lines().enumerate().map(|(at, line)| (at as u64 + 1, line.to_string()));
        let lines = numbered.filter(|(_, line)| !line.trim().is_empty() && !line.starts_with('#')).collect();
        Ok(List { name, lines, bytes })
    }

    /// Each line as what it should be; 9 at the first that is not.
    pub fn parsed<T>(&self, parse: fn(&str) -> Option<T>) -> Outcome<Vec<T>> {
        let malformed = |line: u64| Trouble::refused(Place::in_file(&self.name, line), Refusal::BadLine);
        self.lines.iter().map(|(number, line)| parse(line).ok_or_else(|| malformed(*number))).collect()
    }

    /// The line of an item, counted from 0; the file where there is none.
    pub fn place(&self, item: usize) -> Place {
        Place::in_file(&self.name, self.lines.get(item).map_or(0, |(number, _)| *number))
    }
}
