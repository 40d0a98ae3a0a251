//! `neighbours` and `faces`: what is round a vertex of a plan.

use crate::files;
use crate::place::Place;
use crate::plan::Plan;
use crate::points::{lines, point_word, spelled};
use crate::trouble::{Outcome, Trouble};
use crate::words::{Command, Words};
use flaskbloom::{Point, Refusal, Table};

pub const NEIGHBOURS: Command = Command {
    name: "neighbours",
    usage: "PLAN POINT [-o FILE]",
    about: "the vertices adjacent to a vertex, counter-clockwise",
    help: "\
PLAN is a full or a reduced file, '-' standard input; POINT is a,b,m (a,b for m 0), spelled in any way. One point a line.

example: what is round the pit at 1,0
  bladeplan neighbours plan.full 1,0
",
    flags: &[],
    valued: &["--output"],
    takes: 2..=2,
    run: neighbours,
};

pub const FACES: Command = Command {
    name: "faces",
    usage: "PLAN POINT [-o FILE]",
    about: "the faces round a vertex, counter-clockwise",
    help: "\
PLAN is a full or a reduced file, '-' standard input; POINT is a,b,m (a,b for m 0), spelled in any way. One face a line: its four
vertices, counter-clockwise from the one asked for, tabs between; the third is the opposite one.

example: the faces that meet in the pit at 1,0
  bladeplan faces plan.full 1,0
",
    flags: &[],
    valued: &["--output"],
    takes: 2..=2,
    run: faces,
};

fn neighbours(words: &Words) -> Outcome<()> {
    asked(&NEIGHBOURS, words, |table, p| table.neighbours(p).map(|list| lines(&list)))
}

fn faces(words: &Words) -> Outcome<()> {
    asked(&FACES, words, |table, p| table.faces(p).map(|list| list.iter().map(face_line).collect()))
}

fn face_line(face: &[Point; 4]) -> String {
    face.map(spelled).join("\t") + "\n"
}

fn asked(command: &Command, words: &Words, query: fn(&Table, Point) -> Result<String, Refusal>) -> Outcome<()> {
    let p = point_word(command, &words.plain[1])?;
    let plan = Plan::load(&words.plain[0])?;
    let text = query(&plan.table, p).map_err(|refusal| Trouble::refused(Place::Point(plan.name.clone(), p), refusal))?;
    files::write(words.output(), text.as_bytes())
}
