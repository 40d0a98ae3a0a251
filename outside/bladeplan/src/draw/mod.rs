//! `draw`: a plan as a sheet for the report, or as a page to look about in. Everything about the plan comes from the library's calls; here
//! it is only put on paper.

mod callouts;
mod caption;
mod findings;
mod geometry;
mod html;
mod ink;
mod layers;
mod legend;
mod marks;
mod numbers;
mod older;
mod outlines;
mod page;
mod paths;
mod pieces;
mod svg;
mod text;

use crate::files;
use crate::findings::{in_and_out, JoinedList};
use crate::plan::Plan;
use crate::trouble::Outcome;
use crate::words::{Command, Words};
use findings::Joined;
use flaskbloom::{Counts, Outline};
use geometry::Bounds;
use layers::Layer;
use marks::Marks;
use older::{Older, State};
use page::Page;
use std::ffi::OsStr;

pub const COMMAND: Command = Command {
    name: "draw",
    usage: "PLAN [--html] [--findings FILE] [--over OLD] [OUTLINES] [--title TEXT] [-o FILE] [--quiet]",
    about: "draw a plan for the report: a sheet (SVG), or a page to look about in (HTML)",
    help: HELP,
    flags: &["--html"],
    valued: &["--output", "--findings", "--over", "--disc", "--line", "--outlines", "--title"],
    takes: 1..=1,
    run,
};

const HELP: &str = "\
Draws a plan, a full or a reduced file or '-', on an A4 sheet: an SVG file, which browsers, word processors and drawing programs open.

  --html           one page for a browser instead: zoom with the wheel, move by dragging, the findings in a list beside the plan
  --findings FILE  marks findings, a list as 'bladeplan findings' takes it. Those with no vertex are listed in the caption
  --over OLD       draws an older plan under this one, and shows what is new
  OUTLINES         --disc X,Y,R, --line P,Q,S and --outlines FILE as 'bladeplan refine' takes them: each is shown by a broken line
  --title TEXT     the title; without it the file's name

example: this autumn's plan over last spring's, with the inspectors' findings
  bladeplan draw autumn.full --over spring.full --findings pits.txt --html -o autumn.html
";

/// The figures of a path on a page that is zoomed; on a sheet a level is one path.
const PIECE: usize = 400;

/// A list of findings, joined to the plan.
pub struct Findings {
    /// As it was given, and as the sheet shows it.
    pub path: String,
    pub name: String,
    /// The lines of the list.
    pub came_in: usize,
    pub joined: Joined,
}

/// All that is drawn.
pub struct Drawing<'a> {
    pub title: String,
    pub plan: &'a Plan,
    pub counts: Counts,
    pub layers: Vec<Layer>,
    pub older: Option<Older>,
    pub findings: Option<Findings>,
    pub outlines: Vec<Outline>,
    /// How many figures a path has at most.
    pub piece: usize,
}

impl Drawing<'_> {
    pub fn of<'a>(plan: &'a Plan, words: &Words) -> Outcome<Drawing<'a>> {
        let findings = words.value("--findings").map(|path| load(plan, path)).transpose()?;
        let title = match words.value("--title") {
            Some(title) => text::shown(title.as_encoded_bytes()),
            None => named(&words.plain[0]),
        };
        let given = crate::outlines::load(&COMMAND, words)?;
        crate::outlines::judge(plan, &given)?;
        let outlines = given.into_iter().map(|given| given.outline).collect();
        let piece = if words.has("--html") { PIECE } else { usize::MAX };
        let faces = plan.faces()?;
        let older = words.value("--over").map(|path| Older::under(plan, &faces, Plan::load(path)?, named(path))).transpose()?;
        let layers = layers::layers(plan, &faces, piece, |at| older.as_ref().is_some_and(|older| older.is_new(at)));
        Ok(Drawing { title, plan, counts: plan.counts()?, layers, older, findings, outlines, piece })
    }

    /// The faces of a level, new ones and others.
    pub fn at_level(&self, level: u8) -> usize {
        self.layers.iter().filter(|layer| layer.level == level).map(|layer| layer.count).sum()
    }

    /// The marks of all vertices, at so many millimetres a side.
    pub fn marks(&self, scale: f64) -> Vec<Marks> {
        let state = |at| self.older.as_ref().map_or(State::Alone, |older| older.state(at));
        marks::marks(self.plan, scale, self.piece, state)
    }

    /// The box round both plans.
    pub fn bounds(&self) -> Bounds {
        let older = self.older.iter().flat_map(|older| older.plan.records());
        Bounds::of(self.plan.records().iter().chain(older).map(|record| record.point))
    }
}

fn run(words: &Words) -> Outcome<()> {
    let plan = Plan::load(&words.plain[0])?;
    let drawing = Drawing::of(&plan, words)?;
    let page = Page::of(&drawing);
    let marks = drawing.marks(page.scale);
    let text = match words.has("--html") {
        true => html::html(&drawing, &page, &svg::svg(&drawing, &page, &marks, "")),
        false => svg::svg(&drawing, &page, &marks, &svg::own_page(&page)),
    };
    files::write(words.output(), text.as_bytes())?;
    if !words.quiet() {
        told(&drawing, &marks).iter().for_each(|line| files::say(line));
    }
    Ok(())
}

/// The last part of a file's name, as the sheet shows it.
fn named(path: &OsStr) -> String {
    let name = std::path::Path::new(path).file_name().filter(|_| path != "-");
    name.map_or("standard input".to_string(), |name| text::shown(name.as_encoded_bytes()))
}

fn load(plan: &Plan, path: &OsStr) -> Outcome<Findings> {
    let list = JoinedList::load(plan, path)?;
    let joined = Joined::of(plan, &list);
    Ok(Findings { came_in: list.findings().count(), path: list.name, name: named(path), joined })
}

/// What came in and what went out.
fn told(drawing: &Drawing, marks: &[Marks]) -> Vec<String> {
    let (vertices, drawn) = (drawing.counts.vertices, marks.iter().map(Marks::count).sum::<usize>());
    let mut lines = vec![format!("{}: {vertices} vertices in, {drawn} drawn", drawing.plan.name)];
    let (given, seen) = (drawing.outlines.len(), outlines::seen(drawing));
    lines.extend((given > 0).then(|| format!("{given} outlines in; {seen} on the plan, {} beside it", given - seen)));
    lines.extend(drawing.findings.as_ref().map(|f| in_and_out(&f.path, f.came_in, f.joined.at.len(), f.joined.lost.len())));
    lines
}
