//! `lay`: hexagons become a plan.

use crate::counted;
use crate::lists::List;
use crate::log::{hexagon_lines, kept_in};
use crate::place::Place;
use crate::points;
use crate::sizes;
use crate::trouble::{Outcome, Trouble};
use crate::words::{Command, Words};
use flaskbloom::{Refusal, RefusedAt, Table};

pub const COMMAND: Command = Command {
    name: "lay",
    usage: "CENTRES [-o FILE] [--log FILE] [--quiet]",
    about: "lay hexagons: the full file of a new plan",
    help: "\
CENTRES is a file of hexagon centres, one a line: a TAB b, whole numbers from -250 to 250 whose difference is divisible by 3; '-' is
standard input. Empty lines and lines that begin with # are passed over. The plan goes to standard output, or to FILE.
With --log a log of the plan is begun: see replay.

example: three hexagons round the point 1,0
  printf '0\\t0\\n1\\t1\\n2\\t-1\\n' | bladeplan lay - -o plan.full
",
    flags: &[],
    valued: &["--log", "--output"],
    takes: 1..=1,
    run,
};

/// The points of a hexagon.
const HEXAGON: usize = 7;

fn run(words: &Words) -> Outcome<()> {
    let log = kept_in(&COMMAND, words)?;
    let list = List::load(&words.plain[0])?;
    let centres = list.parsed(points::centre)?;
    let table = sizes::growing(centres.len().saturating_mul(HEXAGON), |slots| Table::base(slots, &centres));
    let table = table.map_err(|refused| Trouble::refused(place(&list, refused), refused.refusal))?;
    let file = table.write_full().map_err(|refusal| Trouble::refused(Place::File(list.name.clone()), refusal))?;
    let log = log.map(|path| (path, hexagon_lines(&centres).into_bytes()));
    counted::write_logged(&COMMAND, words, &hexagons(centres.len()), &file, log)
}

fn hexagons(count: usize) -> String {
    format!("{count} hexagon{} in", if count == 1 { "" } else { "s" })
}

/// The line of the bad centre; the file where it is the whole list.
fn place(list: &List, refused: RefusedAt) -> Place {
    match (refused.refusal, usize::try_from(refused.at)) {
        (Refusal::BadCentre, Ok(item)) => list.place(item),
        _ => Place::File(list.name.clone()),
    }
}
