//! `refine`: a plan made finer at vertices, whatever their degree, or round outlines.

use super::round;
use crate::asked::Asked;
use crate::counted;
use crate::files;
use crate::log::{self, Log};
use crate::outlines;
use crate::points::spelled;
use crate::trouble::Outcome;
use crate::words::{Command, Words};

pub const COMMAND: Command = Command {
    name: "refine",
    usage: "PLAN WHERE.. [--subdivide] [--passes N] [--level N] [-o FILE] [--log FILE] [--quiet]",
    about: "make a plan finer round outlines, or at vertices whatever their degree: the full file",
    help: "\
PLAN is a full or a reduced file, '-' standard input. WHERE are outlines or points, not both.

Outlines: --disc X,Y,R a pit, its middle and its radius; --line P,Q,S a score, the points where P times x and Q times y are S together;
--outlines FILE a list of them, a line such as 'disc 1.5,2,0.3' or 'line 0,1,2' each. x and y are those of the drawing and of OFF files, in
sides of a hexagon. Each may come more than once; they are taken in the order typed. A pass subdivides all vertices of degree 6 below the
level that have an edge across the outline; --passes (1 where none is given) says how many passes are made round each outline, --level how
deep they go; both are at most 12, and 12 is the level where none is given. How many vertices each pass listed, and how many there are
after it, is told on standard error. If a pass is refused nothing is written, and you are told which it was.

Points: a POINT is a,b,m (a,b for m 0), spelled in any way; --list FILE has more, one a line. Round each vertex in turn what has to be
subdivided for it to have six neighbours is subdivided, and only that; with --subdivide it is then subdivided itself. How many subdivisions
each took is told on standard error. If one is refused nothing is written: with 16 where what has to be subdivided comes to the rim.

The full file goes to standard output, or to FILE, which may be PLAN. With --log what was made is added to the plan's log, level by level:
see replay. A log of another plan is refused with 21.

example: four passes round a pit and along a score, to level 4; then a vertex that the inspectors point at
  bladeplan refine plan.full --disc 2.5,6,0.8 --line 0.2,1,9 --passes 4 --level 4 -o plan.full
  bladeplan refine plan.full 0,0 --subdivide -o plan.full
",
    flags: &["--subdivide"],
    valued: &["--list", "--disc", "--line", "--outlines", "--passes", "--level", "--log", "--output"],
    takes: 1..=usize::MAX,
    run,
};

fn run(words: &Words) -> Outcome<()> {
    let points = words.plain.len() > 1 || words.has("--list") || words.has("--subdivide");
    match (outlines::are_given(words), points) {
        (true, true) => Err(COMMAND.wrong("outlines or points, not both")),
        (true, false) => round::run(&COMMAND, words),
        (false, _) if words.has("--passes") || words.has("--level") => {
            Err(COMMAND.wrong("passes are made round outlines, and none is given"))
        }
        (false, _) => at_points(words),
    }
}

fn at_points(words: &Words) -> Outcome<()> {
    let asked = Asked::load(&COMMAND, words)?;
    let log = Log::of_plan(&COMMAND, words, &asked.plan)?;
    let (file, taken) = asked.plan.refined(&asked.points, words.has("--subdivide"))?.map_err(|refused| asked.refused(refused))?;
    if !words.quiet() {
        for (p, taken) in asked.points.iter().zip(taken) {
            files::say(&format!("refine: {} took {}", spelled(*p), subdivisions(taken)));
        }
    }
    let log = log::finer(log, words, &asked.plan, &file)?;
    counted::write_logged(&COMMAND, words, &counted::vertices(&asked.plan, "in"), &file, log)
}

fn subdivisions(taken: usize) -> String {
    match taken {
        0 => "none".to_string(),
        1 => "1 subdivision".to_string(),
        many => format!("{many} subdivisions"),
    }
}
