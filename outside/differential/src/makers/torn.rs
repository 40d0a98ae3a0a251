//! Meshes torn: valid records, no point twice, wrong here and there; and subdivisions half made.

use super::tables::{some_star, star_of_degree};
use crate::rng::Rng;
use mesher::mesh::Mesh;
use mesher::record::{in_reach, Record};
use mesher::spot::Spot;
use mesher::star::star;

/// Changes that keep every record valid and no point twice, but tear the mesh as often as not.
pub fn torn(rng: &mut Rng, records: &[Record]) -> Vec<Record> {
    let mut list = records.to_vec();
    for _ in 0..1 + rng.below(3) {
        if !list.is_empty() {
            tear(rng, &mut list);
        }
    }
    list
}

fn tear(rng: &mut Rng, list: &mut Vec<Record>) {
    if rng.once_in(6) {
        *list = half_made(rng, list);
        return;
    }
    let sixes: Vec<Record> = list.iter().filter(|r| r.d == 6).copied().collect();
    if !sixes.is_empty() && !rng.once_in(3) {
        let v = *rng.pick(&sixes);
        return tear_beside(rng, list, v);
    }
    let i = rng.below(list.len());
    let r = list[i];
    match rng.below(5) {
        0 => drop(list.remove(i)),
        1 => list[i] = some_star(rng, r.point()),
        2 if r.d > 2 => {
            let turned = Record { k: (r.k + 2) % if r.d == 3 { 4 } else { 12 }, ..r };
            list[i] = if turned.is_valid() { turned } else { r };
        }
        3 if r.d > 2 => {
            let raised = Record { n: r.n + 2, ..r };
            list[i] = if raised.is_valid() { raised } else { Record { n: r.n.saturating_sub(2), ..r } };
        }
        _ => {
            let corners = star(&r);
            if !corners.is_empty() {
                let corner = rng.pick(&corners);
                let spot = *rng.pick(&[corner.adjacent, corner.first, corner.second.unwrap_or(corner.first)]);
                add(rng, list, spot);
            }
        }
    }
}

/// A subdivision of which only some is done, or some is taken back: it looks right but for the records about one vertex.
pub fn half_made(rng: &mut Rng, list: &[Record]) -> Vec<Record> {
    let mesh = Mesh::of(list);
    let sixes: Vec<Record> = list.iter().filter(|r| r.d == 6).copied().collect();
    if sixes.is_empty() {
        return list.to_vec();
    }
    let v = *rng.pick(&sixes);
    let mut out = list.to_vec();
    let put = |r: Record, out: &mut Vec<Record>| match out.iter().position(|old| old.point() == r.point()) {
        Some(i) => out[i] = r,
        None => out.push(r),
    };
    match mesh.subdivision(&v) {
        // new vertices alone, as if their creator had been subdivided
        Ok(made) if rng.once_in(3) => {
            for r in made.entered.into_iter().skip(rng.below(6)).take(1 + rng.below(6)) {
                put(r, &mut out);
            }
        }
        Ok(made) if rng.once_in(2) => {
            let left_out = rng.below(13);
            for (i, r) in made.changed.into_iter().chain(made.entered).enumerate() {
                if i != left_out && !rng.once_in(8) {
                    put(r, &mut out);
                }
            }
        }
        _ if v.n > 0 => put(Record { n: v.n - 1, k: v.k ^ 1, ..v }, &mut out),
        _ => put(Record { n: v.n + 1, k: v.k ^ 1, ..v }, &mut out),
    }
    out
}

/// A change at a neighbour of a vertex of degree 6, or at one of its new points.
fn tear_beside(rng: &mut Rng, list: &mut Vec<Record>, v: Record) {
    let beside = rng.pick(&star(&v)).adjacent;
    match list.iter().position(|r| Spot::of(r.point()) == beside) {
        Some(i) if rng.below(5) > 0 => {
            let degree = *rng.pick(&[3, 4, 5, 6]);
            let other = star_of_degree(rng, list[i].point(), degree);
            let same_level = Record { n: v.n, k: other.k / 2 * 2 + v.n % 2, ..other };
            list[i] = if rng.once_in(4) { other } else { same_level };
        }
        Some(i) if rng.once_in(2) => drop(list.remove(i)),
        _ if v.n < 12 => {
            let now = Record { k: (v.k + 1) % 2, n: v.n + 1, ..v };
            let spot = rng.pick(&star(&now)).adjacent;
            add(rng, list, spot);
        }
        _ => {}
    }
}

/// A neighbour of degree 6 of a vertex of degree 3 to 5, put at another level: that vertex, where there is one.
pub fn misplaced(rng: &mut Rng, list: &mut [Record]) -> Option<Record> {
    let lower: Vec<Record> = list.iter().filter(|r| (3..6).contains(&r.d)).copied().collect();
    let v = *lower.get(rng.below(lower.len().max(1)))?;
    let beside = star(&v).first()?.adjacent;
    let u = list.iter_mut().find(|r| r.d == 6 && Spot::of(r.point()) == beside)?;
    u.n = if u.n < 12 && rng.once_in(4) { 12 } else { (u.n + 1 + rng.below(4) as u8) % 13 };
    u.k = u.n % 2;
    Some(v)
}

fn add(rng: &mut Rng, list: &mut Vec<Record>, spot: Spot) {
    let p = spot.point();
    if in_reach(p) && list.iter().all(|r| r.point() != p) {
        let r = some_star(rng, p);
        list.push(r);
    }
}
