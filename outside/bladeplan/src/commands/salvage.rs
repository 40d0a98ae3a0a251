//! `salvage`: an old file that the readers refuse, mended, with what was changed.

use crate::files;
use crate::place::Place;
use crate::plan::{order, Plan};
use crate::points::{record, spelled};
use crate::sizes;
use crate::trouble::{Outcome, Trouble};
use crate::words::{Command, Words};
use flaskbloom::{normalise, Refusal, RefusedAt, Salvaged, Table};
use std::collections::HashSet;
use std::ffi::OsStr;
use std::io;

pub const COMMAND: Command = Command {
    name: "salvage",
    usage: "FILE [-o FULL] [--changes LIST] [--quiet]",
    about: "mend an old file: the full file of what is left of it, and what was changed",
    help: "\
FILE is a plan's file that may be broken, '-' standard input. Malformed lines are dropped, points and orientations get their one written
form, a line that then says what an earlier one says is dropped, the rest is sorted, and vertices that are missing round one with six
neighbours are restored. The full file goes to standard output, or to FULL. LIST gets a line a change: the line's number (0 for a restored
vertex), a tab, and dropped, normalised, repeat or restored. On standard error each change is told in words, with the line as it stood, and
the sums. If one point has two different records (20), or no grown mesh is left (11), nothing is written.

example: a file of the old drawing tool
  bladeplan salvage old.txt -o plan.full --changes changes.txt
",
    flags: &[],
    valued: &["--changes", "--output"],
    takes: 1..=1,
    run,
};

/// The longest file that is read, how much of a line is shown, and in how many lines two records of one point are looked for.
const LONGEST: u64 = 64 << 20;
const SHOWN: usize = 60;
const SEARCHED: usize = 4 * sizes::LARGEST;

fn run(words: &Words) -> Outcome<()> {
    let list = words.value("--changes");
    if list.is_some_and(|list| words.output() == Some(list) || words.output().is_none() && list == "-") {
        return Err(COMMAND.wrong("the full file and the list of changes cannot go to one place"));
    }
    let (name, file) = load(&words.plain[0])?;
    let lines: Vec<&[u8]> = file.split_inclusive(|byte| *byte == b'\n').collect();
    let tried = sizes::growing(lines.len(), |slots| Table::salvage(slots, &file).map_err(|refusal| RefusedAt { refusal, at: 0 }));
    let salvaged = tried.map_err(|refused| Trouble::refused(place(&name, &lines, refused.refusal), refused.refusal))?;
    let plan = Plan::read("the output", &salvaged.file)?;
    if let Some(list) = list {
        files::write(Some(list), &salvaged.changes)?;
    }
    files::write(words.output(), &salvaged.file)?;
    if !words.quiet() {
        told(&name, &lines, &salvaged, &plan).iter().for_each(|line| files::say(line));
    }
    Ok(())
}

/// A file's name for messages, and its bytes.
fn load(path: &OsStr) -> Outcome<(String, Vec<u8>)> {
    let name = files::shown(path);
    let file = files::read(path, LONGEST + 1)?;
    match file.len() as u64 > LONGEST {
        true => Err(Trouble::file(&name, io::Error::other("a file of over 64 MiB"))),
        false => Ok((name, file)),
    }
}

/// Where a refusal is; the library's call tells no line.
fn place(name: &str, lines: &[&[u8]], refusal: Refusal) -> Place {
    match refusal {
        Refusal::TwoRecords if lines.len() <= SEARCHED => Place::Lines(name.to_string(), two_records(lines)),
        _ => Place::File(name.to_string()),
    }
}

/// The lines of two records of one point, found by asking of fewer and fewer lines: the first that comes too many, and the last before it that it
/// does not go with.
fn two_records(lines: &[&[u8]]) -> [usize; 2] {
    let refused = |from: usize, to: usize| Table::salvage(sizes::LARGEST, &lines[from..to].concat()) == Err(Refusal::TwoRecords);
    let ends: Vec<usize> = (0..=lines.len()).collect();
    let second = ends.partition_point(|to| !refused(0, *to));
    let first = ends[..second].partition_point(|from| refused(*from, second));
    [first, second]
}

/// Every change in words, and the sums.
fn told(name: &str, lines: &[&[u8]], salvaged: &Salvaged, plan: &Plan) -> Vec<String> {
    let text = String::from_utf8_lossy(&salvaged.changes);
    let changes: Vec<(usize, &str)> =
        text.lines().filter_map(|line| line.split_once('\t')).map(|(at, word)| (at.parse().unwrap_or(0), word)).collect();
    let count = |word: &str| changes.iter().filter(|change| change.1 == word).count();
    let [dropped, normalised, repeated, restored] = ["dropped", "normalised", "repeat", "restored"].map(count);
    let (kept, out) = (lines.len() - dropped - repeated, plan.records().len());
    let of_lines = changes.iter().filter(|change| change.0 > 0);
    let mut told: Vec<String> = of_lines.map(|(at, word)| in_words(name, *at, word, lines[at - 1])).collect();
    told.extend(
        without_line(lines, &changes, plan).map(|point| format!("{name}, no line for {point}: restored, as a neighbour implies it")),
    );
    told.push(format!("{name}: {} lines in: {dropped} dropped, {repeated} repeated, {kept} kept; {normalised} normalised", lines.len()));
    let sums = if kept + restored == out { "they add up" } else { "they do NOT add up" };
    told.push(format!("salvage: {kept} kept and {restored} restored, {out} vertices out: {sums}"));
    told
}

/// A change of a line, and the line as it stood.
fn in_words(name: &str, at: usize, word: &str, line: &[u8]) -> String {
    let what = match word {
        "dropped" => "is no line of a plan, dropped",
        "normalised" => "put into its one written form",
        _ => "says again what an earlier line says, dropped",
    };
    let stood = line.strip_suffix(b"\n").unwrap_or(line);
    let more = if stood.len() > SHOWN { ".." } else { "" };
    let note = match (line.ends_with(b"\n"), stood.is_empty()) {
        (false, _) => " (cut off)",
        (true, true) => "(an empty line)",
        _ => "",
    };
    format!("{name}, line {at} {what}: {}{more}{note}", stood[..stood.len().min(SHOWN)].escape_ascii())
}

/// The vertices of the plan that no line of the file gave, in file order.
fn without_line<'a>(lines: &[&[u8]], changes: &[(usize, &str)], plan: &'a Plan) -> impl Iterator<Item = String> + 'a {
    let dropped: HashSet<usize> = changes.iter().filter(|change| change.1 == "dropped").map(|change| change.0).collect();
    let kept = (1..).zip(lines).filter(|(at, _)| !dropped.contains(at));
    let records = kept.filter_map(|(_, line)| record(String::from_utf8_lossy(line).trim_end()));
    let given: HashSet<_> = records.map(|r| order(normalise(r.point))).collect();
    plan.records().iter().map(|r| r.point).filter(move |p| !given.contains(&order(*p))).map(spelled)
}
