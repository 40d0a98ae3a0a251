//! What stands beside or under the plan: the counts and the legend in one, since each row of the legend has its count; the older plan, the
//! outlines, the findings, and each finding that was lost.

use super::marks::DEGREES;
use super::older::{Older, State};
use super::text::{cut, grouped, many, shown, wrapped};
use super::{outlines, Drawing, Findings};
use crate::points::spelled;

/// What is drawn before a row's text.
#[derive(Clone, Copy, PartialEq, Debug)]
pub enum Symbol {
    None,
    Mark(u8, State),
    /// The shade of a level.
    Shade(u8),
    NewFaces,
    OlderEdges,
    Outline,
    Finding,
}

#[derive(Clone, Debug)]
pub struct Row {
    pub symbol: Symbol,
    pub text: String,
    pub count: String,
    /// Set apart in red: what must not be overlooked.
    pub alarm: bool,
}

/// Some rows under a heading.
#[derive(Clone, Debug)]
pub struct Block {
    pub heading: String,
    pub rows: Vec<Row>,
}

/// The degree whose mark stands for any.
const ANY: u8 = 3;
/// In millimetres: the height of a row, the gap under a block, where a row's text begins, its size.
pub const ROW: f64 = 4.4;
pub const GAP: f64 = 4.0;
pub const INDENT: f64 = 7.0;
pub const TEXT: f64 = 3.175; // 9 points

impl Block {
    pub fn height(&self) -> f64 {
        (self.rows.len() + 1) as f64 * ROW + GAP
    }
}

/// The blocks of a drawing, for columns of this width.
pub fn blocks(drawing: &Drawing, width: f64) -> Vec<Block> {
    let mut all = vec![vertices(drawing), faces(drawing)];
    all.extend(drawing.older.as_ref().map(|older| before(older, width)));
    all.extend(outlined(drawing));
    all.extend(drawing.findings.as_ref().map(|findings| found(findings, width)));
    all
}

fn row(symbol: Symbol, text: &str, count: usize) -> Row {
    Row { symbol, text: text.to_string(), count: grouped(count), alarm: false }
}

/// A row of text alone.
fn plain(text: String, alarm: bool) -> Row {
    Row { symbol: Symbol::None, text, count: String::new(), alarm }
}

fn vertices(drawing: &Drawing) -> Block {
    let name = |degree| match degree {
        0 => "on the rim".to_string(),
        degree => format!("with {degree} neighbours"),
    };
    let rows = DEGREES.iter().zip(drawing.counts.degrees).map(|(d, count)| row(Symbol::Mark(*d, State::Alone), &name(*d), count));
    Block { heading: many(drawing.counts.vertices, "vertex", "vertices"), rows: rows.collect() }
}

fn faces(drawing: &Drawing) -> Block {
    let (faces, edges) = (many(drawing.counts.faces, "face", "faces"), many(drawing.counts.edges, "edge", "edges"));
    let mut rows: Vec<Row> = Vec::new();
    for layer in &drawing.layers {
        let text = format!("level {}", layer.level);
        match rows.last_mut() {
            Some(last) if last.text == text => last.count = grouped(drawing.at_level(layer.level)),
            _ => rows.push(row(Symbol::Shade(layer.level), &text, layer.count)),
        }
    }
    Block { heading: format!("{faces}, {edges}"), rows }
}

fn before(older: &Older, width: f64) -> Block {
    let mut rows = vec![plain(cut(&older.name, width / TEXT), false)];
    rows.push(Row { count: String::new(), ..row(Symbol::OlderEdges, "its edges", 0) });
    rows.push(row(Symbol::NewFaces, "new faces", older.new_faces()));
    rows.push(row(Symbol::None, "faces gone", older.faces_gone()));
    rows.push(row(Symbol::Mark(ANY, State::New), "new vertices", older.count(State::New)));
    rows.push(row(Symbol::Mark(ANY, State::Changed), "with another star", older.count(State::Changed)));
    rows.push(row(Symbol::Mark(ANY, State::Same), "as they were", older.count(State::Same)));
    rows.push(row(Symbol::None, "vertices gone", older.gone));
    Block { heading: format!("Older plan, {}", many(older.vertices, "vertex", "vertices")), rows }
}

/// Nothing where no outline is shown.
fn outlined(drawing: &Drawing) -> Option<Block> {
    let (given, seen) = (drawing.outlines.len(), outlines::seen(drawing));
    let rows = vec![row(Symbol::Outline, "on the plan", seen), row(Symbol::None, "beside it", given - seen)];
    (given > 0).then(|| Block { heading: many(given, "outline", "outlines"), rows })
}

fn found(findings: &Findings, width: f64) -> Block {
    let mut rows = vec![plain(cut(&findings.name, width / TEXT), false)];
    rows.push(row(Symbol::Finding, "at a vertex", findings.joined.at.len()));
    let lost = findings.joined.lost.len();
    rows.push(Row { alarm: lost > 0, ..row(Symbol::None, "with no vertex", lost) });
    Block { heading: many(findings.joined.count(), "finding", "findings"), rows }
}

/// The findings that were lost, each with its number, its point as written and its note; nothing where none was.
pub fn lost(drawing: &Drawing, width: f64) -> Option<Block> {
    let lost = &drawing.findings.as_ref()?.joined.lost;
    let line = |f: &super::findings::Finding| format!("{}  {}  {}", f.number, spelled(f.point), shown(&f.note));
    let lines = lost.iter().flat_map(|finding| wrapped(&line(finding), width / TEXT));
    let rows: Vec<Row> = lines.map(|text| plain(text, true)).collect();
    let heading = format!("{} with no vertex in this plan:", many(lost.len(), "finding", "findings"));
    (!rows.is_empty()).then_some(Block { heading, rows })
}
