//! `findings`: the inspectors' list joined with a plan.

use crate::files;
use crate::findings::{in_and_out, JoinedList};
use crate::plan::Plan;
use crate::trouble::Outcome;
use crate::words::{Command, Words};

pub const COMMAND: Command = Command {
    name: "findings",
    usage: "PLAN LIST [-o FILE] [--quiet]",
    about: "join a list of findings with a plan: those at each vertex, then those with none",
    help: "\
PLAN is a full or a reduced file, LIST a list of findings; one of them may be '-', standard input. A line of LIST is
number TAB a TAB b TAB m TAB note: number 1 to 999,999, a and b to 1,000,000 either way, m 0 to 12, a note of at most 80 bytes, or none. The
point may be spelled in any way. For each vertex, in the order of the full file, its findings go out in the order of LIST, a line each:
a TAB b TAB m TAB number TAB note. Those at whose point there is no vertex come last, as ? TAB number TAB note. How many came in, are at a
vertex and have none is told on standard error; the status is 0 also where some have none.

example: what was found this autumn, vertex by vertex
  bladeplan findings autumn.full pits.txt -o autumn.txt
",
    flags: &[],
    valued: &["--output"],
    takes: 2..=2,
    run,
};

fn run(words: &Words) -> Outcome<()> {
    let plan = Plan::load(&words.plain[0])?;
    let joined = JoinedList::load(&plan, &words.plain[1])?;
    files::write(words.output(), &joined.text)?;
    if !words.quiet() {
        let (came_in, on_plan, lost) = (joined.findings().count(), joined.on_plan().count(), joined.lost().count());
        files::say(&in_and_out(&joined.name, came_in, on_plan, lost));
    }
    Ok(())
}
