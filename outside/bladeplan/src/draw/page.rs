//! The sheet: A4 upright or lying, whichever shows the plan larger; where the title, the plan and the caption stand. Lost findings that are
//! too many for it follow on further pages below. All in millimetres.

use super::caption::{self, Block};
use super::text::short;
use super::Drawing;

const SHORT: f64 = 210.0;
const LONG: f64 = 297.0;
pub const MARGIN: f64 = 15.0;
/// What the title takes, and the strip for the scale bar under the plan.
const HEAD: f64 = 14.0;
const BAR: f64 = 10.0;
/// A column of the caption, and the gap beside it.
const COLUMN: f64 = 56.0;
const GUTTER: f64 = 6.0;
/// Room round the plan for marks, and for the numbers of findings.
const ROUND: f64 = 2.0;
const LABELS: f64 = 8.0;
/// So high a list of lost findings may be under the caption: about ten lines.
const FEW: f64 = 52.0;

#[derive(Clone, Copy, Debug)]
pub struct Area {
    pub x: f64,
    pub y: f64,
    pub width: f64,
    pub height: f64,
}

pub struct Page {
    pub width: f64,
    /// Of all pages; and of one.
    pub height: f64,
    pub sheet: f64,
    /// The strip of the scale bar.
    pub bar: Area,
    /// Each block of the caption, and where.
    pub blocks: Vec<(Area, Block)>,
    /// Millimetres a side of a hexagon, and where the point [0, 0, 0] lies.
    pub scale: f64,
    pub origin: (f64, f64),
}

impl Page {
    pub fn of(drawing: &Drawing) -> Page {
        let upright = Page::upright(drawing);
        match Page::lying(drawing) {
            Some(lying) if lying.scale > upright.scale => lying,
            _ => upright,
        }
    }

    /// The caption in columns under the plan, and a few lost findings under that.
    fn upright(drawing: &Drawing) -> Page {
        let width = SHORT - 2.0 * MARGIN;
        let columns = columns(&caption::blocks(drawing, COLUMN));
        let tall = columns.iter().map(|list| stack(list)).fold(0.0, f64::max);
        let lost = caption::lost(drawing, width).filter(|block| block.height() <= FEW);
        let below = lost.as_ref().map_or(0.0, Block::height);
        let top = MARGIN + HEAD;
        let room = LONG - MARGIN - top - tall - below;
        let mut placed = Vec::new();
        for (at, list) in columns.into_iter().enumerate() {
            let x = MARGIN + at as f64 * (COLUMN + GUTTER);
            placed.extend(stacked(list, x, top + room, COLUMN));
        }
        let here = lost.is_some();
        placed.extend(stacked(lost.into_iter().collect(), MARGIN, top + room + tall, width));
        let page = Page::with(drawing, (SHORT, LONG), Area { x: MARGIN, y: top, width, height: room }, placed);
        if here {
            page
        } else {
            page.continued(drawing)
        }
    }

    /// The caption in one column beside the plan; nothing where it is too long for that.
    fn lying(drawing: &Drawing) -> Option<Page> {
        let mut blocks = caption::blocks(drawing, COLUMN);
        let top = MARGIN + HEAD;
        let room = SHORT - MARGIN - top;
        let lost = caption::lost(drawing, COLUMN).filter(|lost| stack(&blocks) + lost.height() <= room);
        let here = lost.is_some();
        blocks.extend(lost);
        if stack(&blocks) > room {
            return None;
        }
        let x = LONG - MARGIN - COLUMN;
        let area = Area { x: MARGIN, y: top, width: x - GUTTER - MARGIN, height: room };
        let page = Page::with(drawing, (LONG, SHORT), area, stacked(blocks, x, top, COLUMN));
        Some(if here { page } else { page.continued(drawing) })
    }

    /// The lost findings on further pages of the same size, in two columns each: many of them must not squeeze the plan.
    fn continued(mut self, drawing: &Drawing) -> Page {
        let width = (self.width - 2.0 * MARGIN - GUTTER) / 2.0;
        let Some(lost) = caption::lost(drawing, width) else { return self };
        let counted = |row: &&mut caption::Row| row.alarm && !row.count.is_empty();
        self.blocks.iter_mut().flat_map(|(_, block)| &mut block.rows).filter(counted).for_each(|row| row.text += ": next page");
        let (page, lines) = (self.height, ((self.height - 2.0 * MARGIN - caption::GAP) / caption::ROW) as usize - 1);
        for (at, rows) in lost.rows.chunks(lines).enumerate() {
            let heading = if at == 0 { lost.heading.clone() } else { "with no vertex, continued".to_string() };
            let x = MARGIN + (at % 2) as f64 * (width + GUTTER);
            let y = page * (at / 2 + 1) as f64 + MARGIN;
            self.blocks.extend(stacked(vec![Block { heading, rows: rows.to_vec() }], x, y, width));
            self.height = page * (at / 2 + 2) as f64;
        }
        self
    }

    /// The plan as large as the area allows, in its middle.
    fn with(drawing: &Drawing, (width, height): (f64, f64), area: Area, blocks: Vec<(Area, Block)>) -> Page {
        let round = if drawing.findings.is_some() { LABELS } else { ROUND };
        let inner = Area { x: area.x + round, y: area.y + round, width: area.width - 2.0 * round, height: area.height - BAR - 2.0 * round };
        let bounds = drawing.bounds();
        let scale = (inner.width / bounds.width()).min(inner.height / bounds.height());
        let x = inner.x + (inner.width - scale * bounds.width()) / 2.0 - scale * bounds.left;
        let y = inner.y + (inner.height - scale * bounds.height()) / 2.0 - scale * bounds.top;
        let hundredth = |x: f64| (x * 100.0).round() / 100.0; // as it is written
        let bar = Area { x: area.x, y: area.y + area.height - BAR, width: area.width, height: BAR };
        Page { width, height, sheet: height, bar, blocks, scale, origin: (hundredth(x), hundredth(y)) }
    }

    /// The plan's box on the sheet, with the room round it: x, y, width, height.
    pub fn plan(&self, drawing: &Drawing) -> String {
        let bounds = drawing.bounds();
        let (x, y) = (self.origin.0 + self.scale * bounds.left, self.origin.1 + self.scale * bounds.top);
        let (width, height) = (self.scale * bounds.width(), self.scale * bounds.height());
        [x - LABELS, y - LABELS, width + 2.0 * LABELS, height + 2.0 * LABELS].map(short).join(" ")
    }
}

/// The blocks in three columns, each under the column that is shortest so far.
fn columns(blocks: &[Block]) -> [Vec<Block>; 3] {
    let mut columns = [const { Vec::new() }; 3];
    for block in blocks {
        let shortest = (0..columns.len()).min_by(|one, other| stack(&columns[*one]).total_cmp(&stack(&columns[*other])));
        columns[shortest.unwrap_or(0)].push(block.clone());
    }
    columns
}

fn stack(blocks: &[Block]) -> f64 {
    blocks.iter().map(Block::height).sum()
}

fn stacked(blocks: Vec<Block>, x: f64, top: f64, width: f64) -> Vec<(Area, Block)> {
    let mut y = top;
    let mut placed = Vec::new();
    for block in blocks {
        let height = block.height();
        placed.push((Area { x, y, width, height }, block));
        y += height;
    }
    placed
}
