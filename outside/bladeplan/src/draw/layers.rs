//! The faces of a plan by level, each level one path. A face's level is the highest of its corners'.

use super::geometry::Units;
use super::paths::Path;
use super::pieces::pieces;
use crate::plan::{Face, Plan};
use std::collections::BTreeMap;

/// The faces of one level, drawn.
pub struct Layer {
    pub level: u8,
    /// Whether these are faces that an older plan has not got.
    pub new: bool,
    pub count: usize,
    pub units: Units,
    pub paths: Vec<String>,
}

/// The layers of a plan's faces, by level, in paths of at most so many faces; `new` says which faces are.
pub fn layers(plan: &Plan, faces: &[Face], most: usize, new: impl Fn(usize) -> bool) -> Vec<Layer> {
    let mut sorted: BTreeMap<(u8, bool), Vec<Face>> = BTreeMap::new();
    for (at, face) in faces.iter().enumerate() {
        sorted.entry((level(plan, face), new(at))).or_default().push(*face);
    }
    sorted.into_iter().map(|((level, new), faces)| layer(level, new, faces, most)).collect()
}

fn layer(level: u8, new: bool, faces: Vec<Face>, most: usize) -> Layer {
    let (count, depth) = (faces.len(), faces.iter().flatten().map(|corner| corner.m).max().unwrap_or(0));
    let units = Units { depth, finer: 1 };
    let drawn = |faces: Vec<Face>| {
        let mut path = Path::default();
        faces.iter().for_each(|face| path.figure(&face.map(|corner| units.at(corner))));
        path.text().to_string()
    };
    Layer { level, new, count, units, paths: pieces(faces, most, &|face| face[0]).into_iter().map(drawn).collect() }
}

fn level(plan: &Plan, face: &Face) -> u8 {
    face.iter().filter_map(|corner| plan.vertex(*corner)).map(|record| record.level).max().unwrap_or(0)
}
