//! `census` and `check`: a plan counted, and what kind of file it is.

use crate::files;
use crate::log::Log;
use crate::plan::{Kind, Making, Plan, HEXAGON_FACES, NEW_EDGES, NEW_FACES, NEW_VERTICES};
use crate::trouble::{told, Outcome};
use crate::words::{Command, Words};
use flaskbloom::Counts;

pub const CENSUS: Command = Command {
    name: "census",
    usage: "PLAN [-o FILE]",
    about: "count a plan: vertices, edges, faces, vertices by degree",
    help: "\
PLAN is a full or a reduced file, '-' standard input. Two lines, tabs between: V E F d0 d3 d4 d5 d6, and the numbers. V counts the vertices
(those that a reduced file leaves out too), E the edges (the sides of the faces, each once, at the rim too), F the faces; then vertices by
degree, 0 at the rim.

example:
  bladeplan census plan.full
",
    flags: &[],
    valued: &["--output"],
    takes: 1..=1,
    run: census,
};

pub const CHECK: Command = Command {
    name: "check",
    usage: "PLAN [--log LOG] [-o FILE]",
    about: "say whether a file is a full file, a reduced file or neither, and why",
    help: "\
PLAN is any file, '-' standard input. Of a plan: its kind, why it is not of the other, how many vertices, edges and faces it has,
and how many hexagons and subdivisions made it, with the sums that these come to. A file that is no plan gets one line on standard
error, and the status is the number of the refusal. With --log each vertex is compared with what the log's hexagons and subdivisions make
of it, worked out without a table; a log that does not fit is refused with 21.

example:
  bladeplan check plan.reduced && echo good
",
    flags: &[],
    valued: &["--log", "--output"],
    takes: 1..=1,
    run: check,
};

fn census(words: &Words) -> Outcome<()> {
    let counts = Plan::load(&words.plain[0])?.counts()?;
    files::write(words.output(), text(&counts).as_bytes())
}

/// The census program's two lines.
fn text(counts: &Counts) -> String {
    let ([d0, d3, d4, d5, d6], Counts { vertices, edges, faces, .. }) = (counts.degrees, counts);
    format!("V\tE\tF\td0\td3\td4\td5\td6\n{vertices}\t{edges}\t{faces}\t{d0}\t{d3}\t{d4}\t{d5}\t{d6}\n")
}

fn check(words: &Words) -> Outcome<()> {
    let plan = Plan::load(&words.plain[0])?;
    let counts = plan.counts()?;
    let kind = match plan.kind {
        Kind::Full(reduced) => format!("a full file\nas a reduced file it is {}", told(reduced)),
        Kind::Reduced(full) => format!("a reduced file\nas a full file it is {}", told(full)),
        Kind::Both => "a full file, and a reduced one as well: no vertex can be left out of it".to_string(),
    };
    let (lines, [v, e, f]) = (plan.lines, [counts.vertices, counts.edges, counts.faces]);
    let text = format!("{} is {kind}\n{lines} lines: {v} vertices, {e} edges, {f} faces\n{}\n", plan.name, sums(&counts, &plan.making()?));
    let Some(path) = words.value("--log") else { return files::write(words.output(), text.as_bytes()) };
    let log = Log::load(path)?;
    let (alike, due) = (log.agreeing(&plan)?, log.vertices()?);
    files::write(words.output(), (text + &by_log(&log, alike, due)).as_bytes())?;
    match (alike, due) == (v, v) {
        true => Ok(()),
        false => Err(log.not_of(&plan)),
    }
}

/// How many vertices are as the log has them, of those that it has.
fn by_log(log: &Log, alike: usize, due: usize) -> String {
    let (h, s) = (log.hexagons.len(), log.made.len());
    let made = format!("{h} hexagon{} and {s} subdivision{}", plural(h), plural(s));
    format!("by the log, {made}, without a table: {alike} of {due} vertices are so\n")
}

/// V, E and F by the hexagons and the subdivisions, with the sums shown. Of every plan that the readers accept these are proved
/// (demands/specs/Together); what is counted is compared all the same.
fn sums(counts: &Counts, making: &Making) -> String {
    let Making { hexagons: h, subdivisions: s, base } = making;
    let v = base.vertices + NEW_VERTICES * s;
    let e = base.edges + NEW_EDGES * s;
    let f = HEXAGON_FACES * h + NEW_FACES * s;
    let fit = match (counts.vertices, counts.edges, counts.faces) == (v, e, f) {
        true => "fit",
        false => "do not fit",
    };
    let vertices = format!("V = {} + {NEW_VERTICES}*{s} = {v}", base.vertices);
    let edges = format!("E = {} + {NEW_EDGES}*{s} = {e}", base.edges);
    let faces = format!("F = {HEXAGON_FACES}*{h} + {NEW_FACES}*{s} = {f}");
    format!("{h} hexagon{} and {s} subdivision{} {fit} together: {vertices}, {edges}, {faces}", plural(*h), plural(*s))
}

fn plural(count: usize) -> &'static str {
    match count {
        1 => "",
        _ => "s",
    }
}
