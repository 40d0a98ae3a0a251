//! The numbers of findings at their vertices: a ring, and beside it the numbers in a box, moved about until no box lies on another where
//! there is room for that.

use super::text::breadth;
use std::collections::HashMap;

/// The numbers' size in millimetres: 8 points, and 7 and 6 where there are more places than this.
const SIZES: [(usize, f64); 3] = [(40, 2.82), (120, 2.47), (usize::MAX, 2.12)];
/// In parts of that: the height of a line of numbers, the room in a box, how far from the ring's middle it stands.
pub const LINE: f64 = 1.14;
const INSIDE: f64 = 0.25;
const STEPS: [f64; 5] = [1.3, 2.2, 3.6, 5.2, 7.0];
/// A ring's radius: about the length of the edges at its vertex, between these.
const SMALL_RING: f64 = 1.2;
const LARGE_RING: f64 = 2.3;
const RING_PART: f64 = 0.7;
/// The ways a box may stand from its ring, the readiest first.
const WAYS: [(f64, f64); 8] = [(0.8, -0.6), (0.8, 0.6), (-0.8, -0.6), (-0.8, 0.6), (0.0, -1.0), (1.0, 0.0), (-1.0, 0.0), (0.0, 1.0)];
/// How far a box keeps from the rings of others.
const CLEAR: f64 = 1.0;
/// Boxes are looked for in cells of this size; one that holds so many is full, and more do not count.
const CELL: f64 = 10.0;
const FULL: usize = 40;

/// A vertex with findings: where, the length of its edges on the page, and the numbers.
pub struct Place {
    pub at: (f64, f64),
    pub edge: f64,
    pub numbers: Vec<u32>,
}

/// A box of numbers, its corner given from the middle of its ring.
#[derive(Clone, Debug)]
pub struct Callout {
    pub at: (f64, f64),
    pub ring: f64,
    pub lines: Vec<String>,
    pub corner: (f64, f64),
    pub size: (f64, f64),
    /// Of the numbers.
    pub type_size: f64,
}

type Rect = (f64, f64, f64, f64);

/// The boxes for these places and their numbers, within a page of this size.
pub fn callouts(places: &[Place], page: (f64, f64)) -> Vec<Callout> {
    let mut taken = Taken::default();
    places.iter().for_each(|place| taken.add(Shape::Ring(place.at, ring(place.edge))));
    let type_size = SIZES.iter().find(|(most, _)| places.len() <= *most).map_or(SIZES[0].1, |(_, size)| *size);
    places.iter().map(|place| callout(place, page, type_size, &mut taken)).collect()
}

fn ring(edge: f64) -> f64 {
    (RING_PART * edge).clamp(SMALL_RING, LARGE_RING)
}

fn callout(place: &Place, page: (f64, f64), type_size: f64, taken: &mut Taken) -> Callout {
    let (at, lines) = (place.at, lines(&place.numbers));
    let widest = lines.iter().map(|line| breadth(line)).fold(0.0, f64::max);
    let size = ((widest + 2.0 * INSIDE) * type_size, (lines.len() as f64 * LINE + INSIDE) * type_size);
    let ring = ring(place.edge);
    let mut best = (usize::MAX, (0.0, 0.0));
    for corner in corners(size, ring.max(type_size), type_size) {
        let (x, y) = (at.0 + corner.0, at.1 + corner.1);
        let rect = (x, y, x + size.0, y + size.1);
        let outside = rect.0 < 1.0 || rect.1 < 1.0 || rect.2 > page.0 - 1.0 || rect.3 > page.1 - 1.0;
        let hits = taken.hits(rect, at) + if outside { 1000 } else { 0 };
        if hits < best.0 {
            best = (hits, corner);
        }
        if hits == 0 {
            break;
        }
    }
    let (x, y) = (at.0 + best.1 .0, at.1 + best.1 .1);
    taken.add(Shape::Box((x, y, x + size.0, y + size.1)));
    Callout { at, ring, lines, corner: best.1, size, type_size }
}

/// Where a box of this size may have its corner, nearest first.
fn corners(size: (f64, f64), ring: f64, type_size: f64) -> impl Iterator<Item = (f64, f64)> {
    STEPS.iter().flat_map(move |step| {
        WAYS.iter().map(move |(x, y)| {
            let away = ring + (step - 1.0) * type_size;
            let middle = (x * (away + size.0 / 2.0), y * (away + size.1 / 2.0));
            (middle.0 - size.0 / 2.0, middle.1 - size.1 / 2.0)
        })
    })
}

/// Numbers in lines, so many in each that the box is about as wide as high.
fn lines(numbers: &[u32]) -> Vec<String> {
    let each = (1..).find(|n| n * n * 2 >= numbers.len()).unwrap_or(1).max(2);
    let text = |some: &[u32]| some.iter().map(u32::to_string).collect::<Vec<_>>().join(", ");
    numbers.chunks(each).map(text).collect()
}

/// What is taken on the page, by cells.
#[derive(Default)]
struct Taken {
    cells: HashMap<(i64, i64), Vec<Shape>>,
}

#[derive(Clone, Copy)]
enum Shape {
    Box(Rect),
    /// Its middle and its radius.
    Ring((f64, f64), f64),
}

impl Taken {
    fn add(&mut self, shape: Shape) {
        let rect = match shape {
            Shape::Box(rect) => rect,
            Shape::Ring((x, y), r) => (x - r - CLEAR, y - r - CLEAR, x + r + CLEAR, y + r + CLEAR),
        };
        for cell in cells(rect) {
            let list = self.cells.entry(cell).or_default();
            if list.len() < FULL {
                list.push(shape);
            }
        }
    }

    /// How many lie on a box whose ring has this middle; one that lies in two cells may count twice.
    fn hits(&self, rect: Rect, own: (f64, f64)) -> usize {
        cells(rect).filter_map(|cell| self.cells.get(&cell)).map(|list| list.iter().filter(|shape| meets(rect, own, shape)).count()).sum()
    }
}

/// A box must not lie on another, nor on its own ring, and stays clear of other rings, so that it is seen whose it is.
fn meets(rect: Rect, own: (f64, f64), shape: &Shape) -> bool {
    match shape {
        Shape::Box(other) => other.0 < rect.2 && rect.0 < other.2 && other.1 < rect.3 && rect.1 < other.3,
        Shape::Ring((x, y), r) => {
            let (near_x, near_y) = (x.clamp(rect.0, rect.2) - x, y.clamp(rect.1, rect.3) - y);
            let room = if (*x, *y) == own { *r } else { r + CLEAR };
            near_x * near_x + near_y * near_y < room * room
        }
    }
}

fn cells(rect: Rect) -> impl Iterator<Item = (i64, i64)> {
    let cell = |x: f64| (x / CELL).floor() as i64;
    (cell(rect.0)..=cell(rect.2)).flat_map(move |x| (cell(rect.1)..=cell(rect.3)).map(move |y| (x, y)))
}

#[cfg(test)]
mod tests {
    use super::*;

    #[test]
    fn boxes_keep_apart() {
        let place = |i: u32| Place { at: (20.0 + f64::from(8 * (i % 6)), 20.0 + f64::from(8 * (i / 6))), edge: 9.0, numbers: vec![i + 1] };
        let places: Vec<Place> = (0..30).map(place).collect();
        let all = callouts(&places, (210.0, 297.0));
        let rect = |c: &Callout| (c.at.0 + c.corner.0, c.at.1 + c.corner.1, c.at.0 + c.corner.0 + c.size.0, c.at.1 + c.corner.1 + c.size.1);
        for (i, one) in all.iter().enumerate() {
            for other in &all[..i] {
                let (p, q) = (rect(one), rect(other));
                assert!(p.0 >= q.2 || q.0 >= p.2 || p.1 >= q.3 || q.1 >= p.3, "{one:?} {other:?}");
            }
        }
    }

    #[test]
    fn every_number_is_in_its_box() {
        let numbers: Vec<u32> = (1..=40).collect();
        let all = callouts(&[Place { at: (50.0, 50.0), edge: 1.0, numbers }], (210.0, 297.0));
        let shown: Vec<String> = all[0].lines.iter().flat_map(|line| line.split(", ")).map(str::to_string).collect();
        assert_eq!(shown, (1..=40).map(|n| n.to_string()).collect::<Vec<_>>());
    }
}
