//! The page: the sheet to look about in, the findings in a list beside it, and switches. One file, with nothing loaded from elsewhere.

use super::findings::Finding;
use super::geometry::place;
use super::page::Page;
use super::text::{escaped, many, short, shown};
use super::{Drawing, Findings};
use crate::points::spelled;
use flaskbloom::normalise;
use std::collections::BTreeMap;

const STYLE: &str = include_str!("page.css");
const SCRIPT: &str = include_str!("page.js");
/// The browser itself is told to load nothing.
const ALONE: &str = "default-src 'none'; style-src 'unsafe-inline'; script-src 'unsafe-inline'";
/// The colours of levels 0 to 12: neighbours differ in hue, and all are light enough for black lines.
const COLOURS: [&str; 13] = [
    "#f3ead3", "#c6e2f5", "#c9e7b5", "#ffd9a0", "#d9c8ee", "#f7bcb4", "#a9ddd3", "#f4e27f", "#b3c4ef", "#e5b7d6", "#b8d977", "#e9b98a",
    "#9fc3cf",
];

/// The whole page, ended by a line feed.
pub fn html(drawing: &Drawing, page: &Page, sheet: &str) -> String {
    let title = escaped(&drawing.title);
    let (x, y) = page.origin;
    let plan = page.plan(drawing);
    let mut out = format!("<!DOCTYPE html>\n<html lang=\"en\">\n<head>\n<meta charset=\"utf-8\">\n<title>{title}</title>\n");
    out +=
        &format!("<meta http-equiv=\"Content-Security-Policy\" content=\"{ALONE}\">\n<style>\n{STYLE}{}</style>\n</head>\n", style(page));
    out += &format!("<body>\n<main id=\"desk\" tabindex=\"0\" data-plan=\"{} {x} {y}\" data-box=\"{plan}\">\n", page.scale);
    out += &sheet.replacen(">\n", ">\n<g id=\"moved\">\n", 1).replace("</svg>\n", "<g id=\"labels\"></g>\n</g>\n</svg>\n");
    out += &format!("</main>\n<aside>\n<h1>{title}</h1>\n{}", switches(drawing));
    out += &drawing.findings.as_ref().map_or(String::new(), |findings| lists(drawing, findings, page));
    out += "</aside>\n<script type=\"text/plain\" id=\"points\">\n";
    for record in drawing.plan.records() {
        out += &format!("{} {} {} {}\n", record.point.a, record.point.b, record.point.m, record.level);
    }
    out + "</script>\n<script>\n" + SCRIPT + "</script>\n</body>\n</html>\n"
}

/// What depends on the drawing: the size of its sheet, and the colours of levels.
fn style(page: &Page) -> String {
    let (width, height, sheet) = (short(page.width), short(page.height), short(page.sheet));
    let mut out =
        format!(":root {{ --width: {width}mm; --height: {height}mm; --sheet: {sheet}mm; }}\n@page sheet {{ size: {width}mm {sheet}mm; margin: 0; }}\n");
    for (level, colour) in COLOURS.iter().enumerate() {
        out += &format!(".coloured #faces .l{level}, .coloured #caption .l{level} {{ fill: {colour}; }}\n");
    }
    out
}

fn switches(drawing: &Drawing) -> String {
    let counts = &drawing.counts;
    let (v, e, f) = (many(counts.vertices, "vertex", "vertices"), many(counts.edges, "edge", "edges"), many(counts.faces, "face", "faces"));
    let older = match drawing.older {
        Some(_) => "<label><input type=\"checkbox\" id=\"older-shown\" checked> older plan</label>",
        None => "<label class=\"off\"><input type=\"checkbox\" id=\"older-shown\" disabled> older plan (none given)</label>",
    };
    format!(
        "<p>{v}, {e}, {f}</p>\n<fieldset><legend>Show</legend>\n{older}\n\
         <label><input type=\"checkbox\" id=\"coloured\"> colours by level</label>\n\
         <label><input type=\"checkbox\" id=\"labelled\"> points of vertices <span class=\"hint\" id=\"too-many\" hidden>(zoom in)</span></label>\n\
         <button id=\"plan-seen\" type=\"button\">Plan</button> <button id=\"sheet-seen\" type=\"button\">Sheet</button></fieldset>\n\
         <p class=\"hint\">Wheel to zoom, drag to move. Print gives the A4 sheet and this list.</p>\n"
    )
}

/// The lost findings first, then those at a vertex.
fn lists(drawing: &Drawing, findings: &Findings, page: &Page) -> String {
    let (joined, mut out) = (&findings.joined, String::new());
    let name = escaped(&findings.name);
    if !joined.lost.is_empty() {
        out += &format!("<h2 class=\"lost\">{} with no vertex</h2>\n<ol class=\"lost\">\n", many(joined.lost.len(), "finding", "findings"));
        joined.lost.iter().for_each(|finding| out += &format!("<li><div>{}</div></li>\n", entry(finding)));
        out += "</ol>\n";
    }
    let rings: BTreeMap<usize, usize> = joined.places().into_keys().enumerate().map(|(ring, vertex)| (vertex, ring)).collect();
    let (at, places) = (many(joined.at.len(), "finding", "findings"), many(rings.len(), "vertex", "vertices"));
    out += &format!("<h2>{at} at {places}</h2>\n<p class=\"hint\">{} in {name}</p>\n<ol>\n", many(joined.count(), "line", "lines"));
    for (vertex, finding) in &joined.at {
        let ring = rings[vertex];
        let record = drawing.plan.records()[*vertex];
        let (x, y) = place(record.point);
        let at = format!("{} {} {}", page.origin.0 + page.scale * x, page.origin.1 + page.scale * y, record.level);
        out += &format!("<li><button type=\"button\" data-ring=\"{ring}\" data-at=\"{at}\">{}</button></li>\n", entry(finding));
    }
    out + "</ol>\n"
}

/// Number, note and point; the point in its one written form, and as it was written where that is another.
fn entry(finding: &Finding) -> String {
    let (written, point) = (spelled(finding.point), spelled(normalise(finding.point)));
    let also = if written == point { String::new() } else { format!(", written {written}") };
    let note = if finding.note.is_empty() { "<i>no note</i>".to_string() } else { escaped(&shown(&finding.note)) };
    format!("<span class=\"number\">{}</span><span class=\"note\">{note}</span><span class=\"point\">{point}{also}</span>", finding.number)
}
