//! Sheets and grown meshes: lists of centres, discs, meshes grown at random.

use crate::rng::Rng;
use mesher::lines;
use mesher::mesh::{base, Mesh};
use mesher::record::Record;
use std::collections::HashSet;

/// From a hexagon to the six next to it.
const NEXT: [(i32, i32); 6] = [(1, 1), (-1, 2), (-2, 1), (-1, -1), (1, -2), (2, -1)];

/// A good list of centres: a cluster, with holes and islands now and then, and now and then at the limit of the range.
pub fn centres(rng: &mut Rng, most: usize) -> Vec<(i32, i32)> {
    let origin = match rng.below(8) {
        0 => *rng.pick(&[(250, 250), (-250, -250), (250, -248), (-250, 248), (250, 1), (0, 249), (-249, 0)]),
        1 => {
            let b = rng.from_to(-240, 240);
            (b + 3 * rng.from_to(-2, 2), b)
        }
        _ => (0, 0),
    };
    let mut list = vec![origin];
    for _ in 1..1 + rng.below(most) {
        let (a, b) = *rng.pick(&list);
        let (x, y) = *rng.pick(&NEXT);
        let far = if rng.once_in(12) { 4 } else { 1 };
        let next = (a + far * x, b + far * y);
        if next.0.abs() <= 250 && next.1.abs() <= 250 && !list.contains(&next) {
            list.push(next);
        }
    }
    list
}

pub fn flat(centres: &[(i32, i32)]) -> Vec<i32> {
    centres.iter().flat_map(|(a, b)| [*a, *b]).collect()
}

/// A compact cluster of this many hexagons, ring by ring.
pub fn disc(hexagons: usize) -> Vec<(i32, i32)> {
    let mut list = vec![(0, 0)];
    let mut seen: HashSet<(i32, i32)> = list.iter().copied().collect();
    let mut at = 0;
    while list.len() < hexagons {
        let (a, b) = list[at];
        at += 1;
        for (x, y) in NEXT {
            let next = (a + x, b + y);
            if list.len() < hexagons && next.0.abs() <= 250 && next.1.abs() <= 250 && seen.insert(next) {
                list.push(next);
            }
        }
    }
    list
}

/// A grown mesh of at most about this many records: on a compact sheet, which has more to subdivide, or on a ragged one.
pub fn grown(rng: &mut Rng, most: usize) -> Vec<Record> {
    let hexagons = 1 + rng.below(1 + most / 8);
    let list = if rng.once_in(3) { base(&centres(rng, hexagons)) } else { base(&disc(hexagons.max(3))) };
    let deep = rng.below(4);
    grow(rng, &list, most, deep)
}

/// A mesh grown on, up to this many records: the greater `deep`, the more at its highest level.
pub fn grow(rng: &mut Rng, from: &[Record], most: usize, deep: usize) -> Vec<Record> {
    let mut mesh = Mesh::of(from);
    while mesh.len() + 6 <= most {
        let mut sixes: Vec<Record> = mesh.records().filter(|r| r.d == 6 && r.n < 12).copied().collect();
        sixes.sort_by_key(|r| (r.n, r.m, r.a, r.b));
        if sixes.is_empty() || rng.once_in(40) {
            break;
        }
        let v = if deep > 0 && !rng.once_in(1 + 2 * deep) { sixes[sixes.len() - 1] } else { *rng.pick(&sixes) };
        let subdivision = mesh.subdivision(&v).expect("a grown mesh is not torn");
        mesh.make(&subdivision);
    }
    ordered(&mesh)
}

/// The records of a mesh in file order, so that a seed gives the same everywhere.
pub fn ordered(mesh: &Mesh) -> Vec<Record> {
    let mut list: Vec<Record> = mesh.records().copied().collect();
    list.sort_by_key(lines::key);
    list
}
