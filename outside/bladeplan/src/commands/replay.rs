//! `replay`: a log becomes the plan that it tells of.

use crate::counted;
use crate::log::Log;
use crate::place::Place;
use crate::trouble::{Outcome, Trouble};
use crate::words::{Command, Words};

pub const COMMAND: Command = Command {
    name: "replay",
    usage: "LOG [-o FILE] [--quiet]",
    about: "make a plan from its log: the full file",
    help: "\
LOG is what --log of lay, subdivide and refine keeps, '-' standard input: a line a TAB b for each hexagon, then a line a TAB b TAB m TAB
level for each subdivision in the order made, level being the one that the vertex had. If a line cannot be, nothing is written: with 2 a
hexagon, with 21 the first subdivision that the lines before it do not allow. The plan goes to standard output, or to FILE.

example:
  bladeplan replay plan.log -o plan.full
",
    flags: &[],
    valued: &["--output"],
    takes: 1..=1,
    run,
};

fn run(words: &Words) -> Outcome<()> {
    let log = Log::load(&words.plain[0])?;
    let file = log.table()?.write_full().map_err(|refusal| Trouble::refused(Place::File(log.list.name.clone()), refusal))?;
    counted::write(&COMMAND, words, &counted::making(log.hexagons.len(), log.made.len()), &file)
}
