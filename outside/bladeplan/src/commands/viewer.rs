//! `off` and `obj`: a plan for a viewer.

use crate::counted;
use crate::files;
use crate::plan::Plan;
use crate::trouble::Outcome;
use crate::words::{Command, Words};

pub const OFF: Command = Command {
    name: "off",
    usage: "PLAN [-o FILE] [--quiet]",
    about: "an OFF file of a plan, for a viewer",
    help: "\
PLAN is a full or a reduced file, '-' standard input. The OFF file goes to standard output, or to FILE: the line OFF; the numbers of
vertices, faces and edges; each vertex as x, y and 0.0000, in the order of the full file, a side of a hexagon being 1; each face as 4 and
the numbers of its vertices, counter-clockwise, the first vertex of the file being 0. How many vertices came in, and how many vertices and
faces went out, is told on standard error.

example: the plan in the viewer
  bladeplan off plan.full -o plan.off
",
    flags: &[],
    valued: &["--output"],
    takes: 1..=1,
    run: off,
};

pub const OBJ: Command = Command {
    name: "obj",
    usage: "PLAN [-o FILE] [--quiet]",
    about: "an OBJ file of a plan, for a viewer that reads no OFF",
    help: "\
PLAN is a full or a reduced file, '-' standard input. The same vertices and faces as 'bladeplan off' gives, with 'v' before each vertex and
'f' for the 4, no lines before them, and the first vertex being 1.

example: the plan in a viewer that reads no OFF
  bladeplan obj plan.reduced -o plan.obj
",
    flags: &[],
    valued: &["--output"],
    takes: 1..=1,
    run: obj,
};

fn off(words: &Words) -> Outcome<()> {
    view(&OFF, words, Plan::off)
}

fn obj(words: &Words) -> Outcome<()> {
    view(&OBJ, words, Plan::obj)
}

fn view(command: &Command, words: &Words, file: fn(&Plan) -> Outcome<Vec<u8>>) -> Outcome<()> {
    let plan = Plan::load(&words.plain[0])?;
    let text = file(&plan)?;
    files::write(words.output(), &text)?;
    if !words.quiet() {
        files::say(&format!("{}: {}, {}", command.name, counted::vertices(&plan, "in"), out(&text)));
    }
    Ok(())
}

/// What goes out, counted in the file's own lines: only those of vertices have a point in them, only those of faces five words.
fn out(file: &[u8]) -> String {
    let lines = file.split(|byte| *byte == b'\n');
    let vertices = lines.clone().filter(|line| line.contains(&b'.')).count();
    let faces = lines.filter(|line| line.split(|byte| *byte == b' ').count() == 5).count();
    format!("{vertices} vertices and {faces} faces out")
}
