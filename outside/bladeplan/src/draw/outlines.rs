//! Outlines on the sheet: discs as circles, lines across the plan, both cut off at its box; and how many of them are seen.

use super::geometry::Bounds;
use super::ink::OUTLINES;
use super::page::Page;
use super::text::short;
use super::Drawing;
use flaskbloom::Outline;

/// The line's width in millimetres, and its dashes.
pub const WIDTH: f64 = 0.45;
pub const DASHES: &str = "2 1";

/// All outlines of a drawing; nothing where it has none.
pub fn drawn(drawing: &Drawing, page: &Page) -> String {
    if drawing.outlines.is_empty() {
        return String::new();
    }
    let (bounds, scale) = (drawing.bounds(), page.scale);
    let [x, y, width, height] = [bounds.left, bounds.top, bounds.width(), bounds.height()].map(|side| short(side * scale));
    let figures: String = drawing.outlines.iter().filter_map(|outline| figure(*outline, bounds, scale)).collect();
    format!(
        "<clipPath id=\"within\"><rect x=\"{x}\" y=\"{y}\" width=\"{width}\" height=\"{height}\"/></clipPath>\n\
         <g id=\"outlines\" clip-path=\"url(#within)\" fill=\"none\" stroke=\"{OUTLINES}\" stroke-width=\"{WIDTH}\" stroke-dasharray=\"{DASHES}\">\n\
         {figures}</g>\n"
    )
}

/// How many cross the plan's box.
pub fn seen(drawing: &Drawing) -> usize {
    drawing.outlines.iter().filter(|outline| figure(**outline, drawing.bounds(), 1.0).is_some()).count()
}

/// The figure of an outline, its y turned down as the sheet's is; nothing where it lies outside of the box.
fn figure(outline: Outline, bounds: Bounds, scale: f64) -> Option<String> {
    let (middle, half) =
        (((bounds.left + bounds.right) / 2.0, (bounds.top + bounds.bottom) / 2.0), bounds.width().hypot(bounds.height()) / 2.0);
    match outline {
        Outline::Disc { x, y, radius } => {
            let (x, y) = (x, -y);
            let nearest = (x.clamp(bounds.left, bounds.right), y.clamp(bounds.top, bounds.bottom));
            let within = (x - nearest.0).hypot(y - nearest.1) <= radius;
            let [x, y, r] = [x, y, radius].map(|side| short(side * scale));
            within.then(|| format!("<circle cx=\"{x}\" cy=\"{y}\" r=\"{r}\"/>\n"))
        }
        Outline::Line { p, q, s } => {
            let (q, steep) = (-q, p.hypot(q));
            let away = (s - p * middle.0 - q * middle.1) / steep;
            if steep == 0.0 || away.abs() > half {
                return None;
            }
            let (foot, along) = ((middle.0 + away * p / steep, middle.1 + away * q / steep), (-q / steep * half, p / steep * half));
            let ends = [foot.0 - along.0, foot.1 - along.1, foot.0 + along.0, foot.1 + along.1];
            let [a, b, c, d] = ends.map(|side| short(side * scale));
            Some(format!("<path d=\"M{a} {b}L{c} {d}\"/>\n"))
        }
    }
}

#[cfg(test)]
mod tests {
    use super::*;

    const BOX: Bounds = Bounds { left: -1.0, top: -3.0, right: 3.0, bottom: 0.0 };

    #[test]
    fn what_lies_outside_is_not_drawn() {
        let seen = |outline| figure(outline, BOX, 1.0).is_some();
        assert!(seen(Outline::Disc { x: 1.0, y: 1.0, radius: 0.5 }) && seen(Outline::Disc { x: 5.0, y: 0.0, radius: 2.5 }));
        assert!(!seen(Outline::Disc { x: 1.0, y: -1.0, radius: 0.5 }));
        assert!(seen(Outline::Line { p: 0.0, q: 1.0, s: 1.0 }) && seen(Outline::Line { p: -2.0, q: 0.0, s: -4.0 }));
        assert!(!seen(Outline::Line { p: 0.0, q: 1.0, s: 30.0 }) && !seen(Outline::Line { p: 0.0, q: 0.0, s: 0.0 }));
    }

    #[test]
    fn y_goes_up() {
        assert_eq!(
            figure(Outline::Disc { x: 1.0, y: 2.0, radius: 0.5 }, BOX, 10.0).as_deref(),
            Some("<circle cx=\"10\" cy=\"-20\" r=\"5\"/>\n")
        );
        assert_eq!(figure(Outline::Line { p: 0.0, q: 1.0, s: 1.5 }, BOX, 2.0).as_deref(), Some("<path d=\"M-3 -3L7 -3\"/>\n"));
    }
}
