//! A list of findings joined with a plan, by the library's call: what came in, what stands on the plan and what is lost is counted here.

use crate::files;
use crate::place::Place;
use crate::plan::Plan;
use crate::trouble::{Outcome, Trouble};
use flaskbloom::{Refusal, RefusedAt};
use std::ffi::OsStr;
use std::io;

/// The longest list that is read.
const LONGEST: u64 = 64 << 20;

/// A list without a malformed line, and the joined list that it gives.
pub struct JoinedList {
    /// The list's name, for messages.
    pub name: String,
    pub list: Vec<u8>,
    pub text: Vec<u8>,
}

impl JoinedList {
    /// The list in a file, `-` being standard input, joined with a plan; 15 at the first line that is no finding.
    pub fn load(plan: &Plan, path: &OsStr) -> Outcome<JoinedList> {
        let name = files::shown(path);
        let list = files::read(path, LONGEST + 1)?;
        if list.len() as u64 > LONGEST {
            return Err(Trouble::file(&name, io::Error::other("a list of over 64 MiB")));
        }
        let text = plan.table.findings(&list).map_err(|refused| Trouble::refused(place(plan, &name, refused), refused.refusal))?;
        Ok(JoinedList { name, list, text })
    }

    /// The lines of the list, without their line feeds.
    pub fn findings(&self) -> impl Iterator<Item = &[u8]> {
        lines(&self.list)
    }

    /// The lines of the joined list that name a vertex.
    pub fn on_plan(&self) -> impl Iterator<Item = &[u8]> {
        lines(&self.text).filter(|line| !is_lost(line))
    }

    /// The lines of the joined list that name none.
    pub fn lost(&self) -> impl Iterator<Item = &[u8]> {
        lines(&self.text).filter(|line| is_lost(line))
    }
}

/// How many came in and how many went out, of a list of this name.
pub fn in_and_out(list: &str, came_in: usize, on_plan: usize, lost: usize) -> String {
    format!("{list}: {came_in} findings in; {on_plan} at a vertex, {lost} with no vertex")
}

/// The lines of a text of which each is ended by a line feed.
fn lines(text: &[u8]) -> impl Iterator<Item = &[u8]> {
    text.split_inclusive(|byte| *byte == b'\n').map(|line| line.strip_suffix(b"\n").unwrap_or(line))
}

fn is_lost(line: &[u8]) -> bool {
    line.starts_with(b"?")
}

/// The list's line that is no finding; else it is the plan that was refused.
fn place(plan: &Plan, list: &str, refused: RefusedAt) -> Place {
    match refused.refusal {
        Refusal::BadFinding => Place::in_file(list, refused.at),
        _ => Place::File(plan.name.clone()),
    }
}
