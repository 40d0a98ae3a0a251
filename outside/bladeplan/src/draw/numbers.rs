//! The findings on the plan, drawn: rings and lines, and above them all the boxes of numbers.

use super::callouts::{callouts, Callout, Place, LINE};
use super::geometry::{edge, place};
use super::ink::{ALARM, PAPER};
use super::page::Page;
use super::text::{exact, short};
use super::Drawing;

/// The findings of a drawing; nothing where it has no list. Ring i and box i are of one vertex, and keep their middle when scaled.
pub fn findings(drawing: &Drawing, page: &Page) -> String {
    let Some(findings) = &drawing.findings else { return String::new() };
    let at = |(vertex, numbers): (usize, Vec<u32>)| {
        let record = drawing.plan.records()[vertex];
        let (x, y) = place(record.point);
        let at = (page.origin.0 + page.scale * x, page.origin.1 + page.scale * y);
        Place { at, edge: page.scale * edge(record.level), numbers }
    };
    let places: Vec<Place> = findings.joined.places().into_iter().map(at).collect();
    let all = callouts(&places, (page.width, page.sheet));
    let group = |kind: &str, i: usize, one: &Callout, what: &str| {
        format!("<g id=\"{kind}{i}\" transform=\"translate({} {})\"><g>{what}</g></g>\n", exact(one.at.0), exact(one.at.1))
    };
    let ((x, y), type_size) = (page.origin, all.first().map_or(1.0, |one| one.type_size));
    let mut out = format!("<g id=\"findings\" data-type=\"{type_size}\" transform=\"translate({} {})\">\n", short(-x), short(-y));
    all.iter().enumerate().for_each(|(i, one)| out += &group("ring", i, one, &ring(one)));
    all.iter().enumerate().for_each(|(i, one)| out += &group("box", i, one, &numbers(one)));
    out + "</g>\n"
}

/// The numbers in their box.
fn numbers(one: &Callout) -> String {
    let ((left, top), (width, height), size) = (one.corner, one.size, one.type_size);
    let mut out = format!(
        "<rect x=\"{}\" y=\"{}\" width=\"{}\" height=\"{}\" rx=\".6\" fill=\"{PAPER}\" stroke=\"{ALARM}\" stroke-width=\".2\"/>",
        short(left),
        short(top),
        short(width),
        short(height)
    );
    for (line, text) in one.lines.iter().enumerate() {
        let (x, y) = (short(left + width / 2.0), short(top + one.type_size * (LINE * (line as f64 + 1.0) - 0.12)));
        out += &format!("<text x=\"{x}\" y=\"{y}\" font-size=\"{size}\" font-weight=\"bold\" text-anchor=\"middle\">{text}</text>");
    }
    out
}

/// The ring, and a line from it to the nearest place of the box.
fn ring(one: &Callout) -> String {
    let ((left, top), (width, height), r) = (one.corner, one.size, one.ring);
    let (x, y) = (0f64.clamp(left, left + width), 0f64.clamp(top, top + height));
    let far = (x * x + y * y).sqrt().max(r);
    let circle =
        |width: &str, color: &str| format!("<circle r=\"{}\" fill=\"none\" stroke=\"{color}\" stroke-width=\"{width}\"/>", short(r));
    let (from_x, from_y) = (short(x * r / far), short(y * r / far));
    let line = format!("<path d=\"M{from_x} {from_y}L{} {}\" stroke=\"{ALARM}\" stroke-width=\".3\"/>", short(x), short(y));
    circle("1", PAPER) + &circle(".4", ALARM) + &line
}
