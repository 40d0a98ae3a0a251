//! A vertex's record from a base and the list of what was subdivided, without any table: one scan of the list for a record, and to judge the list one
//! scan of the earlier pairs for each.

use crate::grown::{birth, first, parents};
use crate::lattice::{in_range, reduce, Point};
use crate::mesh::{inside, judged, place, UNITS};

type Row = [i32; 6];

fn pair_point(pair: &[i32]) -> Point {
    reduce(Point { a: pair[0], b: pair[1], m: pair[2] as u8 })
}

/// What was seen of a point in a list: which of its parents were subdivided at the level of its birth, whether its creator was at the level before,
/// and how often it was itself.
#[derive(Default)]
struct Seen {
    parents: [bool; 3],
    creator: bool,
    times: i32,
}

fn scan(pairs: &[i32], p: Point) -> Seen {
    let mut seen = Seen::default();
    let rank = first(p) as i32;
    let wanted = if rank == 0 { [p; 3] } else { parents(p) };
    let creator = wanted.iter().copied().find(|q| (first(*q) as i32) < rank - 1).unwrap_or(wanted[2]);
    for pair in pairs.chunks_exact(4) {
        let (q, z) = (pair_point(pair), pair[3]);
        for (saw, parent) in seen.parents.iter_mut().zip(wanted) {
            *saw |= q == parent && z == rank - 1;
        }
        seen.creator |= q == creator && z == rank - 2;
        seen.times += (q == p) as i32;
    }
    seen
}

/// Whether the base has a point of depth 0, and whether it is internal there.
fn on_the_ground(listed: &[bool], p: Point) -> (bool, bool) {
    let is_listed = |a: i32, b: i32| inside(a, b) && listed[place(a, b)];
    match (p.a - p.b).rem_euclid(3) {
        0 => (is_listed(p.a, p.b), is_listed(p.a, p.b)),
        apart => {
            let round = UNITS.iter().skip((apart == 1) as usize).step_by(2).filter(|(x, y)| is_listed(p.a + x, p.b + y)).count();
            (round > 0, round == 3)
        }
    }
}

/// The record at a normalised point after these pairs, which are good.
fn record(listed: &[bool], pairs: &[i32], p: Point) -> Option<Row> {
    if !in_range(p) {
        return None;
    }
    let seen = scan(pairs, p);
    let row = |d: i32, k: i32, n: i32| Some([p.a, p.b, p.m as i32, d, k, n]);
    let (there, internal) = if p.m == 0 { on_the_ground(listed, p) } else { (seen.creator, true) };
    let rank = first(p) as i32;
    let (level, k) = (rank + seen.times, if rank == 0 { 0 } else { birth(p) as i32 });
    let lone = |value: bool| 4 * seen.parents.iter().position(|saw| *saw == value).unwrap_or(0) as i32;
    match seen.parents.iter().filter(|saw| **saw).count() {
        _ if !there => None,
        _ if !internal => row(0, 0, 0),
        _ if rank == 0 => row(6, level % 2, level),
        0 => row(3, k, rank - 1),
        1 => row(4, (k + lone(true) + 4) % 12, rank - 1),
        2 => row(5, (k + lone(false)) % 12, rank - 1),
        _ => row(6, level % 2, level),
    }
}

fn judge(centres: &[i32], pairs: &[i32]) -> Result<Vec<bool>, u8> {
    let listed = judged(centres).map_err(|_| 2u8)?;
    let fits = |j: usize| {
        let pair = &pairs[4 * j..4 * j + 4];
        let six = |r: Row| r[3] == 6 && r[5] < 12 && r[5] == pair[3];
        (0..256).contains(&pair[2]) && record(&listed, &pairs[..4 * j], pair_point(pair)).is_some_and(six)
    };
    match pairs.len() % 4 == 0 && (0..pairs.len() / 4).all(fits) {
        true => Ok(listed),
        false => Err(21),
    }
}

pub fn vertex(centres: &[i32], pairs: &[i32], a: i32, b: i32, m: u8) -> (u8, Row) {
    match judge(centres, pairs) {
        Ok(listed) => record(&listed, pairs, reduce(Point { a, b, m })).map_or((3, [0; 6]), |row| (0, row)),
        Err(number) => (number, [0; 6]),
    }
}

pub fn vertices(centres: &[i32], pairs: &[i32], points: &[i32], records: &mut [i32]) -> u8 {
    let listed = match judge(centres, pairs) {
        Ok(listed) => listed,
        Err(number) => return number,
    };
    if records.len() / 6 < points.len() / 3 {
        return 13;
    }
    for (point, out) in points.chunks_exact(3).zip(records.chunks_exact_mut(6)) {
        let depth = u8::try_from(point[2]).ok();
        let row = depth.and_then(|m| record(&listed, pairs, reduce(Point { a: point[0], b: point[1], m })));
        out.copy_from_slice(&row.unwrap_or([0; 6]));
    }
    0
}
