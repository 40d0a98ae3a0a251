//! The sheet as SVG: title, plan, scale bar, caption. One path for each level of faces, one for the marks of each degree and level.

use super::caption::TEXT;
use super::geometry::edge;
use super::ink::{ink, shade, EDGES, INK, NEW_FILL, OLDER, PAPER};
use super::layers::{layers, Layer};
use super::marks::{Marks, CIRCLE, OUTLINE};
use super::page::{Page, MARGIN};
use super::text::{breadth, cut, escaped, short};
use super::{legend, numbers, outlines, Drawing};

/// The title's size in millimetres, 16 points, and the smallest that any line may have, 7 points.
const TITLE: f64 = 5.64;
const SMALLEST: f64 = 2.47;
/// Line widths in millimetres: the widest, the part of an edge that a line takes at most, how much wider the older plan's are.
const LINE_WIDTH: f64 = 0.22;
const LINE_PART: f64 = 0.04;
const OLDER_WIDER: f64 = 3.2;

/// What a sheet that stands alone tells a browser: to print it on its own A4 page. A page of HTML has pages of its own.
pub fn own_page(page: &Page) -> String {
    format!("<style>@page{{size:{}mm {}mm;margin:0}}</style>\n", short(page.width), short(page.sheet))
}

/// The whole sheet, ended by a line feed.
pub fn svg(drawing: &Drawing, page: &Page, marks: &[Marks], style: &str) -> String {
    let (w, h) = (short(page.width), short(page.height));
    let mut out = format!(
        "<svg xmlns=\"http://www.w3.org/2000/svg\" width=\"{w}mm\" height=\"{h}mm\" viewBox=\"0 0 {w} {h}\" role=\"img\" \
         font-family=\"Helvetica,Arial,'Liberation Sans',sans-serif\" font-size=\"{TEXT}\" fill=\"{INK}\">\n"
    );
    let counts = &drawing.counts;
    let counted = format!("{} vertices, {} edges, {} faces", counts.vertices, counts.edges, counts.faces);
    out += &format!("<title>{}</title>\n<desc>Blade plan: {counted}</desc>\n{style}", escaped(&drawing.title));
    out += &format!("<rect width=\"{w}\" height=\"{h}\" fill=\"{PAPER}\"/>\n");
    out += &head(drawing, page);
    out += &plan(drawing, page, marks);
    out += &legend::bar(page);
    out += "<g id=\"caption\">\n";
    page.blocks.iter().for_each(|(area, block)| out += &legend::block(drawing, *area, block));
    out + "</g>\n</svg>\n"
}

fn head(drawing: &Drawing, page: &Page) -> String {
    let mut under = vec!["Blade plan".to_string()];
    under.extend(drawing.older.as_ref().map(|older| format!("over {}", older.name)));
    under.extend(drawing.findings.as_ref().map(|findings| format!("with the findings of {}", findings.name)));
    let line = |y: f64, size: f64, more: &str, text: &str| {
        let (size, text) = fitted(text, size, page.width - 2.0 * MARGIN);
        format!("<text x=\"{MARGIN}\" y=\"{y}\" font-size=\"{size}\" {more}>{}</text>\n", escaped(&text))
    };
    let color = format!("fill=\"{EDGES}\"");
    line(MARGIN + 4.5, TITLE, "font-weight=\"bold\"", &drawing.title) + &line(MARGIN + 9.5, TEXT, &color, &under.join(", "))
}

/// A line's size and text: smaller where it would be wider than this, and cut where it would be too small to read.
fn fitted(text: &str, size: f64, width: f64) -> (String, String) {
    let size = size.min(width / breadth(text));
    match size < SMALLEST {
        true => (short(SMALLEST), cut(text, width / SMALLEST)),
        false => (short(size), text.to_string()),
    }
}

fn plan(drawing: &Drawing, page: &Page, marks: &[Marks]) -> String {
    let mut out = format!("<g id=\"plan\" transform=\"translate({} {})\">\n", short(page.origin.0), short(page.origin.1));
    if let Some(older) = &drawing.older {
        out += &format!("<g id=\"older\" fill=\"none\" stroke=\"{OLDER}\" stroke-linejoin=\"bevel\">\n");
        let layers = layers(&older.plan, &older.faces, drawing.piece, |_| false);
        layers.iter().for_each(|layer| out += &faces(layer, page.scale, OLDER_WIDER, ""));
        out += "</g>\n";
    }
    out += &format!("<g id=\"faces\" stroke=\"{EDGES}\" stroke-linejoin=\"bevel\">\n");
    drawing.layers.iter().for_each(|layer| out += &faces(layer, page.scale, 1.0, &fill(drawing, layer)));
    out += "</g>\n<g id=\"marks\">\n";
    marks.iter().for_each(|group| out += &vertices(group, page.scale));
    out + "</g>\n" + &outlines::drawn(drawing, page) + &numbers::findings(drawing, page) + "</g>\n"
}

/// Over an older plan only what is new is filled, and lightly, so that the older lines are seen.
fn fill(drawing: &Drawing, layer: &Layer) -> String {
    match (&drawing.older, layer.new) {
        (None, _) => format!("fill=\"{}\"", shade(drawing, layer.level)),
        (Some(_), true) => format!("fill=\"{NEW_FILL}\" fill-opacity=\".6\""),
        (Some(_), false) => "fill=\"none\"".to_string(),
    }
}

/// The figures of a group: one path, or a few within a group of their own.
fn drawn(attributes: &str, paths: &[String]) -> String {
    match paths {
        [one] => format!("<path {attributes} d=\"{one}\"/>\n"),
        more => {
            let each: String = more.iter().map(|path| format!("<path d=\"{path}\"/>\n")).collect();
            format!("<g {attributes}>\n{each}</g>\n")
        }
    }
}

fn faces(layer: &Layer, scale: f64, wider: f64, fill: &str) -> String {
    let width = short(wider * LINE_WIDTH.min(LINE_PART * edge(layer.level) * scale) * layer.units.side() / scale);
    let (level, new, transform) = (layer.level, if layer.new { " new" } else { "" }, layer.units.transform(scale));
    drawn(&format!("class=\"l{level}{new}\" transform=\"{transform}\" stroke-width=\"{width}\" {fill}"), &layer.paths)
}

fn vertices(group: &Marks, scale: f64) -> String {
    let (fill, line) = ink(group.degree, group.state);
    let unit = group.units.side() / scale;
    let head = format!("data-r=\"{:.3}\" transform=\"{}\"", group.size, group.units.transform(scale));
    let (circle, outline) = (CIRCLE * group.size * unit, OUTLINE * group.size * unit);
    let dots = |color: &str, width: f64| {
        drawn(&format!("{head} stroke-linecap=\"round\" stroke=\"{color}\" stroke-width=\"{}\"", short(width)), &group.paths)
    };
    match group.degree {
        // a circle, and what is within it: the same points, smaller
        0 => dots(line, circle) + &dots(fill, circle - 2.0 * outline),
        _ if fill != line => drawn(&format!("{head} fill=\"{fill}\" stroke=\"{line}\" stroke-width=\"{}\"", short(outline)), &group.paths),
        _ => drawn(&format!("{head} fill=\"{fill}\""), &group.paths),
    }
}
