//! `subdivide`: a plan refined at points.

use crate::asked::Asked;
use crate::counted;
use crate::log::{in_turn, Log};
use crate::trouble::Outcome;
use crate::words::{Command, Words};

pub const COMMAND: Command = Command {
    name: "subdivide",
    usage: "PLAN POINT.. | --list FILE [-o FILE] [--log FILE] [--quiet]",
    about: "subdivide a plan at points: the full file of the finer plan",
    help: "\
PLAN is a full or a reduced file, '-' standard input. A POINT is a,b,m (a,b for m 0), spelled in any way: 3,0,1 is 1,0. Points are
subdivided in turn, those of the command line first, then those of the list, one a line. A point may come more than once. If one is
refused nothing is written: a plan is changed whole or not at all. The full file goes to standard output, or to FILE, which may be PLAN.
With --log what was made is added to the plan's log: see replay. A log of another plan is refused with 21.

example: twice round the pit at 1,0
  bladeplan subdivide plan.full 1,0 3,0,1 -o plan.full
",
    flags: &[],
    valued: &["--list", "--log", "--output"],
    takes: 1..=usize::MAX,
    run,
};

fn run(words: &Words) -> Outcome<()> {
    let asked = Asked::load(&COMMAND, words)?;
    let log = Log::of_plan(&COMMAND, words, &asked.plan)?;
    let file = asked.plan.subdivided(&asked.points)?.map_err(|refused| asked.refused(refused))?;
    let log = in_turn(log, words, &asked.points, &file)?;
    counted::write_logged(&COMMAND, words, &counted::vertices(&asked.plan, "in"), &file, log)
}
