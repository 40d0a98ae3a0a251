//! Stars, drawn from 000's Fig. 6: one arrangement of angles a degree, edges of two lengths.
//!
//! An edge is `toward` (in units of 30 degrees) and the level of its length. Angles of 60 and 120 degrees part edges of one length,
//! an angle of 90 degrees a long and a short one; the first edge, at 30k degrees, is a long one. The opposites of a corner are the far
//! corners of the one or two faces, diamond or kite, that have this angle there: the nearer first.

use crate::record::Record;
use crate::slips::{made, Slip};
use crate::spot::{edge, Spot};

/// One corner of a star: the edge it begins with, and the possible far corners of its face, all as places.
#[derive(Clone, Copy, Debug, PartialEq)]
pub struct Corner {
    pub adjacent: Spot,
    pub first: Spot,
    pub second: Option<Spot>,
}

/// The angles round a vertex, counter-clockwise from its first edge, in units of 30 degrees: ccc, cbab, baaab, aaaaaa.
pub fn angles(d: u8) -> &'static [i64] {
    match d {
        3 => &[4, 4, 4],
        4 => &[4, 3, 2, 3],
        5 => &[3, 2, 2, 2, 3],
        6 => &[2; 6],
        _ => &[],
    }
}

/// The star of a valid record: its corners in counter-clockwise order. Degree 0 has none.
pub fn star(v: &Record) -> Vec<Corner> {
    let angles = angles(v.d);
    let scale = if made(Slip::ScaledByDepth) { v.m } else { v.n };
    if (v.k as i64 - scale as i64) % 2 != 0 {
        return Vec::new(); // only a slip gets here: a valid record's k and n are both even or both odd
    }
    let (mut toward, mut short) = (v.k as i64, 0);
    let mut edges = Vec::new();
    for angle in angles {
        edges.push((edge(toward, scale + short), short));
        toward += angle;
        if *angle == 3 {
            short = 1 - short;
        }
    }
    let here = Spot::of(v.point());
    let mut corners = Vec::new();
    for (j, angle) in angles.iter().enumerate() {
        let (p, p_short) = edges[j];
        let (q, _) = edges[(j + 1) % edges.len()];
        let (first, second) = opposites(*angle, p, q, p_short == 0);
        corners.push(Corner { adjacent: here + p, first: here + first, second: second.map(|s| here + s) });
    }
    if made(Slip::StarFromTheRight) {
        corners.rotate_left((angles.len() - v.k as usize / 2 % angles.len().max(1)) % angles.len().max(1));
    }
    corners
}

/// The far corners of the faces that have this angle between the edges p and q.
fn opposites(angle: i64, p: Spot, q: Spot, p_long: bool) -> (Spot, Option<Spot>) {
    let diamond = p + q;
    match angle {
        // the sharp end of a kite: its far corner is at two thirds of the diamond's
        2 => (diamond.doubled().third(), Some(diamond)),
        // the blunt end of a kite: its far corner is twice as far as the diamond's
        4 => (diamond, Some(diamond.doubled())),
        // the right angle of a kite: turn about the far end of the long edge, where its angle of 60 degrees is
        _ if p_long => (p + (-p).turned_by(-1), None),
        _ => (q + (-q).turned_by(1), None),
    }
}
