//! Count the vertices in, count the vertices out: a plan's file that goes out is first read back and counted.

use crate::files;
use crate::log::Kept;
use crate::plan::Plan;
use crate::trouble::Outcome;
use crate::words::{Command, Words};

/// Writes a plan's file, and says what came in and what went out.
pub fn write(command: &Command, words: &Words, came_in: &str, file: &[u8]) -> Outcome<()> {
    write_logged(command, words, came_in, file, None)
}

/// The same, with the plan's log where one is kept.
pub fn write_logged(command: &Command, words: &Words, came_in: &str, file: &[u8], log: Option<Kept>) -> Outcome<()> {
    let out = Plan::read("the output", file)?;
    files::write_with(words.output(), file, log)?;
    if !words.quiet() {
        files::say(&format!("{}: {came_in}, {}", command.name, vertices(&out, "out")));
    }
    Ok(())
}

/// How many hexagons and subdivisions came in.
pub fn making(hexagons: usize, subdivisions: usize) -> String {
    let many = |count: usize, what: &str| format!("{count} {what}{}", if count == 1 { "" } else { "s" });
    format!("{} and {} in", many(hexagons, "hexagon"), many(subdivisions, "subdivision"))
}

/// How many vertices of a plan came in or went out, and on how many lines where these are fewer.
pub fn vertices(plan: &Plan, way: &str) -> String {
    let count = plan.records().len();
    match plan.lines == count {
        true => format!("{count} vertices {way}"),
        false => format!("{count} vertices {way} on {} lines", plan.lines),
    }
}
