//! The scale bar, and the caption's blocks: rules, headings, signs, texts, counts.

use super::caption::{Block, Row, Symbol, INDENT, ROW};
use super::ink::{ink, shade, ALARM, EDGES, INK, NEW_FILL, OLDER, OUTLINES, PAPER};
use super::marks::{shape, CIRCLE, OUTLINE};
use super::older::State;
use super::outlines::{DASHES, WIDTH};
use super::page::{Area, Page};
use super::text::{escaped, many, short};
use super::Drawing;

/// A bar as long as a round number of sides.
pub fn bar(page: &Page) -> String {
    let fits = |sides: &usize| *sides as f64 * page.scale <= 60.0;
    let sides = [1, 2, 5, 10, 20, 50, 100, 200, 500].into_iter().take_while(fits).last().unwrap_or(1);
    let (length, x, y) = (sides as f64 * page.scale, page.bar.x, page.bar.y + page.bar.height - 5.0);
    let half = length / 2.0;
    let text = many(sides, "side of a hexagon", "sides of a hexagon");
    format!(
        "<g id=\"bar\"><rect x=\"{x}\" y=\"{0}\" width=\"{1}\" height=\"1.4\" fill=\"{PAPER}\" stroke=\"{INK}\" stroke-width=\".25\"/>\
         <rect x=\"{x}\" y=\"{0}\" width=\"{2}\" height=\"1.4\"/><text x=\"{3}\" y=\"{4}\">{text}</text></g>\n",
        short(y),
        short(length),
        short(half),
        short(x + length + 2.0),
        short(y + 1.9)
    )
}

/// A block of the caption: a rule, its heading, its rows.
pub fn block(drawing: &Drawing, area: Area, block: &Block) -> String {
    let (x, right) = (short(area.x), short(area.x + area.width));
    let rule = short(area.y + 0.2);
    let mut out = format!("<path d=\"M{x} {rule}H{right}\" stroke=\"{EDGES}\" stroke-width=\".25\"/>\n");
    let y = |line: usize| short(area.y + ROW * (line as f64 + 0.95));
    let alarm = if block.rows.iter().all(|row| row.alarm) { format!(" fill=\"{ALARM}\"") } else { String::new() };
    out += &format!("<text x=\"{x}\" y=\"{}\" font-weight=\"bold\"{alarm}>{}</text>\n", y(0), escaped(&block.heading));
    for (at, row) in block.rows.iter().enumerate() {
        out += &row_of(drawing, row, area, area.y + ROW * (at as f64 + 1.95));
    }
    out
}

fn row_of(drawing: &Drawing, row: &Row, area: Area, y: f64) -> String {
    let indent = if row.count.is_empty() && row.symbol == Symbol::None { 0.0 } else { INDENT };
    let alarm = if row.alarm { format!(" fill=\"{ALARM}\"") } else { String::new() };
    let y_text = short(y);
    let mut out = symbol(drawing, row.symbol, area.x + 2.5, y - 1.1);
    out += &format!("<text x=\"{}\" y=\"{y_text}\"{alarm} xml:space=\"preserve\">{}</text>", short(area.x + indent), escaped(&row.text));
    if !row.count.is_empty() {
        let right = short(area.x + area.width);
        out += &format!("<text x=\"{right}\" y=\"{y_text}\"{alarm} text-anchor=\"end\">{}</text>", row.count);
    }
    out + "\n"
}

/// A row's sign, its middle at this place.
fn symbol(drawing: &Drawing, symbol: Symbol, x: f64, y: f64) -> String {
    let swatch = |class: &str, fill: &str, line: &str| {
        let (x, y) = (short(x - 2.3), short(y - 1.4));
        format!("<rect class=\"{class}\" x=\"{x}\" y=\"{y}\" width=\"4.6\" height=\"2.8\" fill=\"{fill}\" stroke=\"{line}\" stroke-width=\".22\"/>")
    };
    match symbol {
        Symbol::None => String::new(),
        Symbol::Shade(level) if drawing.older.is_some() => swatch(&format!("l{level}"), "none", "none"),
        Symbol::Shade(level) => swatch(&format!("l{level}"), &shade(drawing, level), EDGES),
        Symbol::NewFaces => swatch("new", NEW_FILL, EDGES),
        Symbol::OlderEdges => format!("<path d=\"M{} {}h4.6\" stroke=\"{OLDER}\" stroke-width=\".88\"/>", short(x - 2.3), short(y)),
        Symbol::Outline => {
            let line = format!("stroke=\"{OUTLINES}\" stroke-width=\"{WIDTH}\" stroke-dasharray=\"{DASHES}\"");
            format!("<path d=\"M{} {}h4.6\" {line}/>", short(x - 2.3), short(y))
        }
        Symbol::Finding => {
            format!("<circle cx=\"{}\" cy=\"{}\" r=\"1.5\" fill=\"none\" stroke=\"{ALARM}\" stroke-width=\".4\"/>", short(x), short(y))
        }
        Symbol::Mark(degree, state) => mark_symbol(degree, state, x, y),
    }
}

fn mark_symbol(degree: u8, state: State, x: f64, y: f64) -> String {
    let (fill, line) = ink(degree, state);
    if degree == 0 {
        let (x, y, r) = (short(x), short(y), short((CIRCLE - OUTLINE) / 2.0));
        return format!("<circle cx=\"{x}\" cy=\"{y}\" r=\"{r}\" fill=\"{fill}\" stroke=\"{line}\" stroke-width=\"{OUTLINE}\"/>");
    }
    let corners: Vec<String> = shape(degree).iter().map(|(u, v)| format!("{} {}", short(x + u), short(y + v))).collect();
    let stroke = if fill != line { format!(" stroke=\"{line}\" stroke-width=\"{OUTLINE}\"") } else { String::new() };
    format!("<path d=\"M{}z\" fill=\"{fill}\"{stroke}/>", corners.join(" "))
}
