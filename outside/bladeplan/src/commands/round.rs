//! `refine` round outlines: pass by pass, so that each can be told; the plan is changed whole or not at all.

use crate::counted;
use crate::files;
use crate::log::{self, Log};
use crate::outlines::{self, Given};
use crate::plan::{Plan, NEW_VERTICES};
use crate::sizes;
use crate::trouble::{Outcome, Trouble};
use crate::words::{Command, Words};
use flaskbloom::{RefusedAt, Table};

/// The level up to which is refined where none is given, and the passes.
const HIGHEST: u8 = 12;
const ONCE: u8 = 1;

/// One pass: of which outline, how many vertices it listed, and how many there were after it.
struct Pass {
    of: usize,
    listed: usize,
    vertices: usize,
}

pub fn run(command: &Command, words: &Words) -> Outcome<()> {
    let given = outlines::load(command, words)?;
    let (passes, level) = (small(command, words, "--passes", ONCE)?, small(command, words, "--level", HIGHEST)?);
    let plan = Plan::load(&words.plain[0])?;
    let log = Log::of_plan(command, words, &plan)?;
    let mut made = Vec::new();
    let refined = refined(&plan, &given, passes, level, &mut made)?;
    if !words.quiet() {
        told(&given, &made).iter().for_each(|line| files::say(line));
    }
    let file = refined.map_err(|refused| stopped(&plan, &given, &made, refused))?;
    let log = log::finer(log, words, &plan, &file)?;
    counted::write_logged(command, words, &counted::vertices(&plan, "in"), &file, log)
}

/// A count from the command line; one that is too large is the library's to refuse.
fn small(command: &Command, words: &Words, name: &str, without: u8) -> Outcome<u8> {
    let Some(value) = words.value(name) else { return Ok(without) };
    let number: Option<u64> = value.to_str().and_then(|text| text.parse().ok());
    let wrong = || command.wrong(&format!("{} is no number for {name}", value.to_string_lossy()));
    number.map(|n| u8::try_from(n).unwrap_or(u8::MAX)).ok_or_else(wrong)
}

/// The full file after so many passes round each outline in turn, in a table with room for it, and the passes made; refused, which outline it was.
fn refined(plan: &Plan, given: &[Given], passes: u8, level: u8, made: &mut Vec<Pass>) -> Outcome<Result<Vec<u8>, RefusedAt>> {
    let file = plan.full()?;
    let table = sizes::growing(plan.records().len(), |slots| {
        let mut table = Table::read_full(slots, &file)?;
        made.clear();
        for (of, Given { outline, .. }) in given.iter().enumerate() {
            let here = |refused: RefusedAt| RefusedAt { at: of as u64, ..refused };
            // the request as a whole is judged first: with no level nothing is listed, without a pass no level is reached
            table.refine(*outline, passes, 0).and_then(|()| table.refine(*outline, 0, level)).map_err(here)?;
            for _ in 0..passes {
                let before = table.records().count();
                table.refine(*outline, 1, level).map_err(here)?;
                let vertices = table.records().count();
                made.push(Pass { of, listed: (vertices - before) / NEW_VERTICES, vertices });
            }
        }
        Ok(table)
    });
    Ok(match table {
        Ok(table) => Ok(table.write_full().map_err(|refusal| outlines::refused_at(plan, "the output", refusal))?),
        Err(refused) => Err(refused),
    })
}

/// A line for each pass.
fn told(given: &[Given], made: &[Pass]) -> Vec<String> {
    let line = |(at, pass): (usize, &Pass)| {
        let number = 1 + made[..at].iter().filter(|earlier| earlier.of == pass.of).count();
        format!("refine: {}, pass {number}: {} listed, {} vertices now", given[pass.of].told, pass.listed, pass.vertices)
    };
    made.iter().enumerate().map(line).collect()
}

/// How far it came: the outline, and which of its passes was refused; of what is out of range none was begun.
fn stopped(plan: &Plan, given: &[Given], made: &[Pass], refused: RefusedAt) -> Trouble {
    let at = usize::try_from(refused.at).unwrap_or(usize::MAX);
    let Some(outline) = given.get(at) else { return outlines::refused_at(plan, "the plan", refused.refusal) };
    let place = match refused.refusal {
        flaskbloom::Refusal::BadOutline => outline.told.clone(),
        _ => format!("{}, pass {}", outline.told, 1 + made.iter().filter(|pass| pass.of == at).count()),
    };
    outlines::refused_at(plan, &place, refused.refusal)
}
