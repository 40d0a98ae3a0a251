//! `example`: the whole job on a small blade, by the very commands that a person would type.

use crate::files;
use crate::trouble::{Outcome, Trouble};
use crate::words::{Command, Words};
use std::ffi::{OsStr, OsString};
use std::fs;

pub const COMMAND: Command = Command {
    name: "example",
    usage: "[DIRECTORY] [--quiet]",
    about: "do the whole job on a small blade, and show where the results are",
    help: "\
Writes the hexagons, points and findings of a small blade into DIRECTORY (bladeplan-example where none is given), which is made if need be,
and there lays, subdivides, reduces, counts, compares and draws it, joins its findings, and writes it for a viewer. Each command is shown as
it would be typed.

example:
  bladeplan example blade
",
    flags: &[],
    valued: &[],
    takes: 0..=1,
    run,
};

const DIRECTORY: &str = "bladeplan-example";

const INPUTS: [(&str, &str); 3] = [
    ("hexagons.txt", include_str!("../../../../examples/hexagons.txt")),
    ("points.txt", include_str!("../../../../examples/points.txt")),
    ("findings.txt", include_str!("../../../../examples/findings.txt")),
];

const STEPS: [&[&str]; 9] = [
    &["lay", "hexagons.txt", "-o", "base.full"],
    &["subdivide", "base.full", "--list", "points.txt", "-o", "plan.full"],
    &["reduce", "plan.full", "-o", "plan.reduced"],
    &["census", "plan.reduced"],
    &["compare", "base.full", "plan.full"],
    &["findings", "plan.full", "findings.txt", "-o", "joined.txt"],
    &["draw", "plan.full", "--findings", "findings.txt", "--over", "base.full", "--title", TITLE, "-o", "plan.svg"],
    &["draw", "plan.full", "--findings", "findings.txt", "--over", "base.full", "--title", TITLE, "--html", "-o", "plan.html"],
    &["off", "plan.full", "-o", "plan.off"],
];

const TITLE: &str = "A small blade";

const RESULTS: &str = "
  hexagons.txt   the hexagons that were laid
  points.txt     the points that were subdivided
  findings.txt   the findings that are marked
  base.full      the plan as it was laid
  plan.full      the plan subdivided, every vertex on a line
  plan.reduced   the same plan for the archive, without what neighbours imply
  joined.txt     the findings vertex by vertex, then the one that has none
  plan.svg       its drawing, to print at A4
  plan.html      its drawing, to open in a browser
  plan.off       the same plan for a viewer
";

fn run(words: &Words) -> Outcome<()> {
    let directory = words.plain.first().map_or(OsStr::new(DIRECTORY), OsString::as_os_str);
    let failed = |error| Trouble::file(&files::shown(directory), error);
    fs::create_dir_all(directory).and_then(|()| std::env::set_current_dir(directory)).map_err(failed)?;
    for (name, text) in INPUTS {
        files::write(Some(OsStr::new(name)), text.as_bytes())?;
    }
    for step in STEPS {
        files::write(None, format!("$ bladeplan {}\n", typed(step)).as_bytes())?;
        let quiet = words.quiet().then_some(&"--quiet");
        crate::run(step.iter().chain(quiet).map(OsString::from))?;
    }
    let place = std::env::current_dir().map_err(failed)?;
    files::write(None, format!("\nThe results are in {}:\n{RESULTS}", place.display()).as_bytes())
}

/// A command line as a person types it.
fn typed(step: &[&str]) -> String {
    let quoted = |word: &&str| if word.contains(' ') { format!("'{word}'") } else { word.to_string() };
    step.iter().map(quoted).collect::<Vec<_>>().join(" ")
}
