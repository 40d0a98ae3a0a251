//! The vertices by degree. A mark has as many corners as the vertex has neighbours, and a size of its own, so that a grey print tells them
//! apart; at the rim it is an open circle.

use super::geometry::{edge, Units};
use super::older::State;
use super::paths::Path;
use super::pieces::pieces;
use crate::plan::Plan;
use flaskbloom::Point;
use std::collections::BTreeMap;

pub const DEGREES: [u8; 5] = [0, 3, 4, 5, 6];
/// A mark's size in print, in millimetres, and at most this part of the edges at its vertex.
const SIZE: f64 = 1.15;
const PART: f64 = 0.13;
/// A mark's size in its path's own units, at least: so finely its corners are placed.
const FINE: f64 = 24.0;

/// The marks of one degree, level and state, in one path.
pub struct Marks {
    pub degree: u8,
    pub state: State,
    /// In millimetres.
    pub size: f64,
    pub units: Units,
    pub paths: Vec<String>,
}

impl Marks {
    /// The marks that the paths draw.
    pub fn count(&self) -> usize {
        self.paths.iter().map(|path| path.matches('m').count()).sum()
    }
}

/// All marks of a plan, at so many millimetres a side, in paths of at most so many; those that matter more come later, and so above others.
pub fn marks(plan: &Plan, scale: f64, most: usize, state: impl Fn(usize) -> State) -> Vec<Marks> {
    let mut sorted: BTreeMap<(State, u8, u8), Vec<Point>> = BTreeMap::new();
    for (at, record) in plan.records().iter().enumerate() {
        sorted.entry((state(at), record.degree, record.level)).or_default().push(record.point);
    }
    let groups = sorted.into_iter();
    groups
        .map(|((state, degree, level), points)| group(state, degree, size(degree, level, scale), scale, pieces(points, most, &|p| *p)))
        .collect()
}

/// Degrees 4 and 5 have neighbours of the next level too.
fn size(degree: u8, level: u8, scale: f64) -> f64 {
    let near = if degree == 4 || degree == 5 { level + 1 } else { level };
    SIZE.min(PART * edge(near) * scale)
}

fn group(state: State, degree: u8, size: f64, scale: f64, pieces: Vec<Vec<Point>>) -> Marks {
    let depth = pieces.iter().flatten().map(|p| p.m).max().unwrap_or(0);
    let coarse = Units { depth, finer: 1 };
    let finer = if degree == 0 { 1 } else { (FINE * scale / (size * coarse.side())).ceil() as i64 };
    let units = Units { depth, finer: finer.max(1) };
    let drawn = |points: Vec<Point>| {
        let mut path = Path::default();
        points.iter().for_each(|p| mark(&mut path, degree, size * units.side() / scale, units.at(*p)));
        path.text().to_string()
    };
    Marks { degree, state, size, units, paths: pieces.into_iter().map(drawn).collect() }
}

fn mark(path: &mut Path, degree: u8, size: f64, (x, y): (i64, i64)) {
    let corners: Vec<(i64, i64)> =
        shape(degree).iter().map(|(u, v)| (x + (u * size).round() as i64, y + (v * size).round() as i64)).collect();
    match corners.is_empty() {
        true => path.dot((x, y)),
        false => path.figure(&corners),
    }
}

/// The corners of a degree's mark of size 1; none at the rim.
pub fn shape(degree: u8) -> &'static [(f64, f64)] {
    match degree {
        3 => &[(0.0, -1.1), (0.95, 0.55), (-0.95, 0.55)],
        4 => &[(-0.8, -0.8), (0.8, -0.8), (0.8, 0.8), (-0.8, 0.8)],
        5 => &[(0.0, -1.2), (1.14, -0.37), (0.71, 0.97), (-0.71, 0.97), (-1.14, -0.37)],
        6 => &[(0.0, -1.6), (1.39, -0.8), (1.39, 0.8), (0.0, 1.6), (-1.39, 0.8), (-1.39, -0.8)],
        _ => &[],
    }
}

/// How thick the outline of an open mark is, in parts of its size; how wide the circle at the rim.
pub const OUTLINE: f64 = 0.3;
pub const CIRCLE: f64 = 1.7;
