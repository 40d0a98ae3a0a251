//! Meshes that are nearly grown: turned, shifted, shrunk, mixed from two, cut off, half made. They look right almost everywhere.

use super::meshes::{disc, grow};
use super::torn::{half_made, torn};
use crate::rng::Rng;
use mesher::lines;
use mesher::mesh::base;
use mesher::record::Record;
use mesher::spot::Point;
use std::collections::HashMap;

/// The mesh turned by 60 degrees; by 120 degrees it would be a grown one again.
fn turned(list: &[Record], times: usize) -> Vec<Record> {
    let turn = |r: &Record| {
        let orientations = match r.d {
            0 => 1,
            3 => 4,
            6 => 2,
            _ => 12,
        };
        Record { a: -r.b, b: r.a + r.b, k: (r.k + 2) % orientations, ..*r }
    };
    (0..times).fold(list.to_vec(), |list, _| list.iter().map(turn).collect())
}

fn shifted(list: &[Record], (x, y): (i32, i32)) -> Vec<Record> {
    let up = |r: &Record| 3i32.pow(r.m as u32);
    list.iter().map(|r| Record { a: r.a + x * up(r), b: r.b + y * up(r), ..*r }).collect()
}

/// The mesh turned by 30 degrees and shrunk, boundary and all.
fn shrunk(list: &[Record]) -> Vec<Record> {
    let shrink = |r: &Record| {
        let p = Point::new(r.a - r.b, r.a + 2 * r.b, r.m + 1).normalised();
        let orientations = match r.d {
            0 => 1,
            3 => 4,
            6 => 2,
            _ => 12,
        };
        Record::at(p, r.d, (r.k + 1) % orientations, if r.d == 0 { 0 } else { r.n + 1 })
    };
    list.iter().map(shrink).collect()
}

/// For each point of either mesh the record of one of them, or none.
fn mixed(rng: &mut Rng, one: &[Record], other: &[Record]) -> Vec<Record> {
    let by_point = |list: &[Record]| -> HashMap<Point, Record> { list.iter().map(|r| (r.point(), *r)).collect() };
    let (x, y) = (by_point(one), by_point(other));
    let mut out: Vec<Record> = one.iter().map(|r| if rng.once_in(6) { *y.get(&r.point()).unwrap_or(r) } else { *r }).collect();
    out.extend(other.iter().filter(|r| !x.contains_key(&r.point()) && rng.once_in(3)));
    out
}

/// A mesh that is nearly grown, or grown after all: records valid, no point twice, in file order.
///
/// Beside small edits: turned, shifted, shrunk, mixed from two, cut off, half made. They look right almost everywhere.
pub fn nearly_grown(rng: &mut Rng, mesh: &[Record]) -> Vec<Record> {
    let mut list = nearly(rng, mesh);
    list.retain(Record::is_valid);
    list.sort_by_key(lines::key);
    list.dedup_by_key(|r| r.point());
    list
}

fn nearly(rng: &mut Rng, mesh: &[Record]) -> Vec<Record> {
    match rng.below(14) {
        0 => mesh.to_vec(),
        1 => turned(mesh, 1 + rng.below(5)),
        2 => {
            let by = (rng.from_to(-3, 3), rng.from_to(-3, 3));
            shifted(mesh, by)
        }
        3 => shrunk(mesh),
        4 => {
            let other = grow(rng, &base(&disc(1 + mesh.len() / 12)), mesh.len(), 1);
            mixed(rng, mesh, &other)
        }
        5 => {
            let level = rng.below(4) as u8;
            mesh.iter().filter(|r| r.n <= level).copied().collect()
        }
        6 => {
            let other = shifted(mesh, (3, 0));
            mixed(rng, mesh, &other)
        }
        7 => {
            let away = rng.below(mesh.len());
            mesh.iter().enumerate().filter(|(i, _)| i % 19 != away % 19).map(|(_, r)| *r).collect()
        }
        8 | 9 => half_made(rng, mesh),
        _ => torn(rng, mesh),
    }
}
