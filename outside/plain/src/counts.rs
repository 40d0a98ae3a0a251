//! Edges and faces counted: those of any table by sorting, those of a census, whose mesh is known to be grown, where they are met first: at
//! the least internal vertex that has them, a side from rim to rim at the lesser of its two hexagons.

use crate::files::read_full;
use crate::lattice::{rows, sum, Point};
use crate::mesh::{opposite, records};
use crate::table::{find, fits, in_order};
use crate::Numbers;

/// The numbers of any table in order.
pub fn counts(table: &[u8]) -> (u8, Numbers) {
    if in_order(table).is_none() {
        return (1, [0; 8]);
    }
    let (mut c, mut faces) = ([0; 8], Vec::new());
    for (p, v) in records(table) {
        c[0] += 1;
        c[by_degree(v.d)] += 1;
        let (here, rows) = (packed(p), rows(v));
        let mut adjacent = [0; 6];
        for (key, row) in adjacent.iter_mut().zip(rows) {
            *key = packed(sum(p, row.adjacent, v.n));
        }
        for (j, row) in rows.iter().enumerate() {
            let (there, next) = (adjacent[j], adjacent[(j + 1) % rows.len()]);
            faces.extend(opposite(table, p, v, row).map(|far| from_least([here, there, packed(far), next])));
        }
    }
    let faces = different(faces);
    let sides = faces.iter().flat_map(|f| (0..4).map(|i| (f[i], f[(i + 1) % 4]))).map(|(p, q)| [p.min(q), p.max(q)]);
    (c[1], c[2]) = (different(sides.collect()).len() as u32, faces.len() as u32);
    (0, c)
}

/// Where the vertices of a degree are counted.
fn by_degree(d: u8) -> usize {
    match d {
        0 => 3,
        d => d as usize + 1,
    }
}

/// A point in one number; those that a star names have far less than 29 bits in a and b.
fn packed(p: Point) -> u64 {
    let above_zero = |x: i32| (x + (1 << 29)) as u64;
    (p.m as u64) << 60 | above_zero(p.a) << 30 | above_zero(p.b)
}

/// A face read from its least vertex on.
fn from_least(mut face: [u64; 4]) -> [u64; 4] {
    let least = face[0].min(face[1]).min(face[2].min(face[3]));
    while face[0] != least {
        face.rotate_left(1);
    }
    face
}

fn different<T: Ord>(mut list: Vec<T>) -> Vec<T> {
    list.sort_unstable();
    list.dedup();
    list
}

fn order(p: Point) -> (u8, i32, i32) {
    (p.m, p.a, p.b)
}

/// What an internal vertex sees of another vertex of its faces: where it stands at the rim, or which of the two comes first.
#[derive(Clone, Copy, PartialEq)]
enum Other {
    Rim(Point),
    Before,
    After,
}

/// The numbers of a grown mesh.
fn counts_of_grown(table: &[u8]) -> Numbers {
    let mut c = [0; 8];
    for (p, v) in records(table) {
        c[0] += 1;
        c[by_degree(v.d)] += 1;
        let other = |q: Point| match find(table, q) {
            Some((_, u)) if u.d == 0 => Other::Rim(q),
            _ if order(q) < order(p) => Other::Before,
            _ => Other::After,
        };
        let rows = rows(v);
        let mut adjacent = [Other::After; 6];
        for (there, row) in adjacent.iter_mut().zip(rows) {
            *there = other(sum(p, row.adjacent, v.n));
            c[1] += (*there != Other::Before) as u32;
        }
        for (j, row) in rows.iter().enumerate() {
            let (there, next) = (adjacent[j], adjacent[(j + 1) % rows.len()]);
            let far = other(opposite(table, p, v, row).expect("a grown mesh"));
            if ![there, far, next].contains(&Other::Before) {
                c[1] += (is_first(table, there, far) as u32) + (is_first(table, far, next) as u32);
                c[2] += 1;
            }
        }
    }
    c
}

/// Whether a side of a face is from rim to rim and counted with it. The face lies to its left; the hexagon to its right, if listed, has the
/// side running back.
fn is_first(table: &[u8], from: Other, to: Other) -> bool {
    let (Other::Rim(p), Other::Rim(q)) = (from, to) else { return false };
    let (x, y) = (q.a - p.a, q.b - p.b);
    let right = Point { a: p.a + x + y, b: p.b - x, m: 0 };
    order(p) < order(q) || find(table, right).is_none()
}

pub fn census(input: &[u8], table: &mut [u8], scratch: &mut [u8], out: &mut [u8]) -> (u8, u64) {
    let lengths_fit = fits(table.len()) && scratch.len() == table.len();
    let (number, line) = if lengths_fit && input.len() > 65_536 {
        table.fill(255);
        scratch.fill(255);
        (8, 0)
    } else {
        read_full(table, scratch, input)
    };
    let text = if number == 0 {
        let counts = counts_of_grown(table).map(|c| c.to_string()).join("\t");
        format!("V\tE\tF\td0\td3\td4\td5\td6\n{counts}\n")
    } else {
        format!("refused\t{number}\t{line}\n")
    };
    if text.len() > out.len() {
        return (13, 0);
    }
    out[..text.len()].copy_from_slice(text.as_bytes());
    (number, text.len() as u64)
}
