//! Number 11 by a local check: each record is looked at with a bounded number of others, no replay.
//!
//! A point has a first level at which it can be subdivided; below it, it is born with degree 3 and three parents, the far ends of its
//! star at birth. How many parents were subdivided at that level fixes its degree and orientation; one parent, the creator, entered it.

use crate::lattice::{rows, sum, Point, Star};
use crate::mesh::records;
use crate::table::find;

const UNITS: [(i32, i32); 6] = [(1, 0), (0, 1), (-1, 1), (-1, 0), (0, -1), (1, -1)];

/// The least level at which the point can be subdivided.
pub fn first(p: Point) -> u8 {
    let apart = (p.a - p.b).rem_euclid(3);
    match p.m {
        0 if apart == 1 => 0,
        0 => 1,
        m if apart == 0 => 2 * m,
        m => 2 * m + 1,
    }
}

/// The orientation at birth of a point whose first level is over 0.
pub fn birth(p: Point) -> u8 {
    let apart = (p.a - p.b).rem_euclid(3);
    match p.m {
        0 => apart as u8,
        _ if apart == 0 => [0, 3, 1][p.a.rem_euclid(3) as usize],
        _ if apart == 1 => 2,
        _ => 0,
    }
}

/// Whether the records of a table in order are a grown mesh.
pub fn is_grown(table: &[u8]) -> bool {
    let mut some = false;
    records(table).all(|(p, s)| {
        some = true;
        present(table, p, s) && (s.d == 0 || starred(table, p, s)) && (s.d != 6 || complete(table, p, s))
    }) && some
}

/// Whether the point may be there, and is a boundary vertex just where it should be.
fn present(table: &[u8], p: Point, s: Star) -> bool {
    if p.m > 0 {
        return s.d != 0 && created(table, p);
    }
    let there = |(x, y): &(i32, i32)| find(table, Point { a: p.a + x, b: p.b + y, m: 0 }).is_some();
    match (p.a - p.b).rem_euclid(3) {
        0 => s.d != 0 && UNITS.iter().all(there),
        apart => {
            let hexagons = UNITS.iter().skip(if apart == 1 { 1 } else { 0 }).step_by(2).filter(|u| there(u)).count();
            hexagons > 0 && (s.d == 0) == (hexagons < 3)
        }
    }
}

pub fn parents(p: Point) -> [Point; 3] {
    let born = Star { d: 3, k: birth(p), n: first(p) - 1 };
    let mut out = [p; 3];
    for (q, row) in out.iter_mut().zip(rows(born)) {
        *q = sum(p, row.adjacent, born.n);
    }
    out
}

/// A point of depth over 0: its parents are there, and its creator was subdivided.
fn created(table: &[u8], p: Point) -> bool {
    let level = first(p) - 1;
    parents(p).into_iter().all(|q| match find(table, q) {
        None => false,
        Some((_, s)) => first(q) == level || (s.d == 6 && s.n >= level),
    })
}

/// Degree, orientation and level, by which parents were subdivided at the level of birth.
fn starred(table: &[u8], p: Point, s: Star) -> bool {
    let from = first(p);
    if from == 0 {
        return s.d == 6;
    }
    let (born, k) = (from - 1, birth(p));
    let done = parents(p).map(|q| find(table, q).is_some_and(|(_, u)| u.d == 6 && u.n > born));
    let lone = |value: bool| 4 * done.iter().position(|d| *d == value).unwrap_or(0) as u8;
    let wanted = match done.iter().filter(|d| **d).count() {
        0 => Star { d: 3, k, n: born },
        1 => Star { d: 4, k: (k + lone(true) + 4) % 12, n: born },
        2 => Star { d: 5, k: (k + lone(false)) % 12, n: born },
        _ => return s.d == 6 && s.n >= from,
    };
    s == wanted
}

fn complete(table: &[u8], p: Point, s: Star) -> bool {
    s.n >= first(p) && rows(s).iter().all(|row| find(table, sum(p, row.adjacent, s.n)).is_some())
}
