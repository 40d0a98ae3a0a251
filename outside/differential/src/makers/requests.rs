//! Requests: points of vertices in any spelling, others; base lists, good and faulty.

use super::meshes::{centres, flat};
use crate::rng::Rng;
use mesher::record::Record;
use mesher::spot::Point;

/// A request's point: a vertex's, spelled at some depth; or another.
pub fn request(rng: &mut Rng, records: &[Record], degree_six: bool) -> ([i32; 2], u8) {
    if records.is_empty() || rng.once_in(12) {
        let (a, b) = match rng.below(3) {
            0 => (rng.next() as i32, rng.next() as i32),
            1 => (*rng.pick(&[i32::MIN, i32::MAX, 0, 3, -9]), *rng.pick(&[i32::MIN, i32::MAX, 0, 6, -27])),
            _ => (rng.from_to(-20, 20), rng.from_to(-20, 20)),
        };
        let m = *rng.pick(&[0, 0, 1, 2, 3, 6, 7, 8, 20, 255]);
        return ([a, b], m);
    }
    let sixes: Vec<&Record> = records.iter().filter(|r| r.d == 6).collect();
    let r = if degree_six && !sixes.is_empty() && !rng.once_in(8) { **rng.pick(&sixes) } else { *rng.pick(records) };
    let mut p = r.point();
    while rng.once_in(3) && p.m < 255 {
        match (p.a.checked_mul(3), p.b.checked_mul(3)) {
            (Some(a), Some(b)) => p = Point::new(a, b, p.m + 1),
            _ => break,
        }
    }
    ([p.a, p.b], p.m)
}

/// Of the vertices of degree 3 to 5 the tenth that is nearest the middle: there the rim is far.
pub fn far_from_the_rim(records: &[Record]) -> Vec<Record> {
    let away = |r: &Record| {
        let (a, b, scale) = (r.a as i64, r.b as i64, 9i64.pow(r.m as u32));
        (a * a + a * b + b * b) * 1_000 / scale
    };
    let mut lower: Vec<Record> = records.iter().filter(|r| (3..6).contains(&r.d)).copied().collect();
    lower.sort_by_key(|r| (away(r), r.m, r.a, r.b));
    lower.truncate(lower.len().div_ceil(10));
    lower
}

/// A base list, good or with a fault.
pub fn base_list(rng: &mut Rng) -> Vec<i32> {
    let most = *rng.pick(&[1, 3, 8, 30]);
    let mut list = flat(&centres(rng, most));
    if rng.once_in(2) {
        return list;
    }
    let centre = 2 * rng.below(list.len() / 2);
    match rng.below(8) {
        0 => list.clear(),
        1 => drop(list.pop()),
        2 => list[centre] = *rng.pick(&[251, -251, i32::MIN, i32::MAX, 1000]),
        3 => list[centre + 1] = *rng.pick(&[251, -251, 253, i32::MIN, i32::MAX]),
        4 => list[centre] += 1,
        5 => list[centre + 1] += 1,
        6 => list.extend_from_within(centre..centre + 2),
        _ => {
            let a = rng.from_to(-260, 260);
            list.splice(centre..centre, [a, a + 3 * rng.from_to(-3, 3)]);
        }
    }
    list
}
