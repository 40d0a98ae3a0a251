//! Lists of subdivisions: a base, the pairs of a mesh grown on it in the order made, points spelled in several ways; and such lists damaged.

use super::meshes::{centres, disc, flat, ordered};
use crate::rng::Rng;
use mesher::mesh::{base, Mesh};
use mesher::record::Record;

/// A base, the pairs that were made on it, and the records that they leave.
#[derive(Clone)]
pub struct Listed {
    pub centres: Vec<i32>,
    pub pairs: Vec<i32>,
    pub records: Vec<Record>,
}

/// A list of at most so many pairs, on about so many hexagons; now and then ever at one vertex, so that it comes to level 12.
pub fn listed(rng: &mut Rng, most: usize, hexagons: usize) -> Listed {
    let hexagons = 1 + rng.below(hexagons);
    let list = if rng.once_in(3) { centres(rng, hexagons) } else { disc(hexagons.max(3)) };
    let deep = rng.below(4);
    let mut mesh = Mesh::of(&base(&list));
    let mut pairs = Vec::new();
    let mut sixes: Vec<Record> = ordered(&mesh).into_iter().filter(|r| r.d == 6).collect();
    for _ in 0..rng.below(most + 1) {
        sixes.retain(|r| r.n < 12);
        let Some(highest) = sixes.iter().map(|r| r.n).max() else { break };
        let at = match deep > 0 && !rng.once_in(1 + 2 * deep) {
            true => sixes.iter().position(|r| r.n == highest).unwrap_or(0),
            false => rng.below(sixes.len()),
        };
        let v = sixes[at];
        pairs.extend(spelled(rng, &v));
        let subdivision = mesh.subdivision(&v).expect("a grown mesh is not torn");
        mesh.make(&subdivision);
        sixes[at] = subdivision.changed[0];
        sixes.extend(subdivision.changed[1..].iter().filter(|r| r.d == 6));
    }
    Listed { centres: flat(&list), pairs, records: ordered(&mesh) }
}

/// A pair, its point spelled in some way.
fn spelled(rng: &mut Rng, v: &Record) -> [i32; 4] {
    let (mut a, mut b, mut m) = (v.a, v.b, v.m as i32);
    while rng.once_in(4) && m < 9 {
        (a, b, m) = (3 * a, 3 * b, m + 1);
    }
    [a, b, m, v.n as i32]
}

/// One thing about the list changed; it may still be a good one.
pub fn damaged_list(rng: &mut Rng, list: &mut Listed) {
    if list.pairs.is_empty() {
        let v = *rng.pick(&list.records);
        list.pairs.extend(spelled(rng, &v));
        return;
    }
    let (at, other) = (4 * rng.below(list.pairs.len() / 4), 4 * rng.below(list.pairs.len() / 4));
    let pairs = &mut list.pairs;
    match rng.below(12) {
        0 => (0..4).for_each(|i| pairs.swap(at + i, other + i)),
        1 => pairs[at + 3] = pairs[at + 3].wrapping_add(*rng.pick(&[1, -1, 2, 12, -13])),
        2 => {
            let i = at + rng.below(2);
            pairs[i] = pairs[i].wrapping_add(*rng.pick(&[1, -1, 3]));
        }
        3 => drop(pairs.drain(at..at + 4)),
        4 => pairs.extend_from_within(at..at + 4),
        5 => (0..1 + rng.below(3)).for_each(|_| pairs.push(rng.next() as i32)),
        6 => {
            let m = pairs[at + 2];
            pairs[at + 2] = match rng.once_in(2) {
                true => *rng.pick(&[m.wrapping_sub(256), m.wrapping_add(256)]),
                false => *rng.pick(&[-1, 256, 255, i32::MIN, i32::MAX]),
            };
        }
        7 => pairs[at] = *rng.pick(&[i32::MIN, i32::MAX, 1_000_000, -300]),
        8 => pairs[at + 3] = *rng.pick(&[12, 13, -1, i32::MIN, i32::MAX]),
        9 => {
            let highest = list.records.iter().filter(|r| r.d == 6).max_by_key(|r| r.n).copied();
            let v = highest.filter(|_| rng.once_in(2)).unwrap_or(*rng.pick(&list.records));
            let pair = spelled(rng, &v);
            pairs.extend(pair);
        }
        10 => drop(pairs.drain(..at)),
        _ => {
            let v = *rng.pick(&list.records);
            let pair = spelled(rng, &v);
            pairs.splice(at..at, pair);
        }
    }
}
