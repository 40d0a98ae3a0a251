//! `reduce` and `restore`: a plan's file of the other kind.

use crate::counted;
use crate::plan::Plan;
use crate::trouble::Outcome;
use crate::words::{Command, Words};

pub const REDUCE: Command = Command {
    name: "reduce",
    usage: "PLAN [-o FILE] [--quiet]",
    about: "the reduced file of a plan: without the vertices that neighbours imply",
    help: "\
PLAN is a full or a reduced file, '-' standard input; one that is reduced already stays as it is. The reduced file goes to standard
output, or to FILE, which may be PLAN. It is read back and counted before it is written.

example: the file for the archive
  bladeplan reduce plan.full -o plan.reduced
",
    flags: &[],
    valued: &["--output"],
    takes: 1..=1,
    run: reduce,
};

pub const RESTORE: Command = Command {
    name: "restore",
    usage: "PLAN [-o FILE] [--quiet]",
    about: "the full file of a plan: every vertex on a line",
    help: "\
PLAN is a full or a reduced file, '-' standard input; one that is full already stays as it is. The full file goes to standard output,
or to FILE, which may be PLAN.

example: the plan again, from the archive
  bladeplan restore plan.reduced -o plan.full
",
    flags: &[],
    valued: &["--output"],
    takes: 1..=1,
    run: restore,
};

fn reduce(words: &Words) -> Outcome<()> {
    converted(&REDUCE, words, Plan::reduced)
}

fn restore(words: &Words) -> Outcome<()> {
    converted(&RESTORE, words, Plan::full)
}

fn converted(command: &Command, words: &Words, file: fn(&Plan) -> Outcome<Vec<u8>>) -> Outcome<()> {
    let plan = Plan::load(&words.plain[0])?;
    counted::write(command, words, &counted::vertices(&plan, "in"), &file(&plan)?)
}
