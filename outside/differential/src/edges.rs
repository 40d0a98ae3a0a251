//! The tests of E, for any caller against the mesher: sheets that are nearly all rim, refined as far as they can be; and small meshes with each
//! star changed, so that sides are named from one end only, corners have no opposite, ends are absent. The stream of `random` has both too.

use crate::caller::{Caller, Mesher};
use crate::case::Case;
use crate::makers::*;
use crate::rng::Rng;
use crate::suite::{every_star, same, seed};
use mesher::mesh::base as base_records;
use mesher::record::Record;
use mesher::spot::Point;
use mesher::star::{star, Corner};

type Centres = Vec<(i32, i32)>;

/// Sheets with sides from rim to rim between their hexagons: pairs, rows, rings, hexagons apart, discs; and of each its
/// pieces less its holes.
fn rims() -> Vec<(Centres, i64)> {
    let ring: [(i32, i32); 6] = [(1, 1), (-1, 2), (-2, 1), (-1, -1), (1, -2), (2, -1)];
    let next: Vec<(i32, i32)> = ring.iter().map(|(a, b)| (a + 3, *b)).filter(|c| !ring.contains(c)).collect();
    vec![
        (vec![(0, 0)], 1),
        (vec![(0, 0), (1, 1)], 1),
        (vec![(0, 0), (3, 3)], 2),
        ((0..40).map(|i| (i, i)).collect(), 1),
        ((0..20).map(|i| (i / 2 * 3 + i % 2, i % 2)).collect(), 1),
        (ring.to_vec(), 0),
        ([&ring[..], &next].concat(), -1),
        ((0..30).map(|i| (6 * (i % 6), 6 * (i / 6))).collect(), 30),
        (disc(3), 1),
        (disc(7), 1),
        (disc(61), 1),
    ]
}

/// The numbers of a table, the same by the caller and the mesher, and the census of its file too.
fn counted(caller: &dyn Caller, rng: &mut Rng, records: &[Record]) -> Vec<i64> {
    let table = laid(rng, records, records.len() + 16);
    let lent = vec![4; table.len()];
    let input = file(records, false).into_bytes();
    same(caller, &Case::Census { input, table: lent.clone(), scratch: lent, out: vec![1; 128] });
    let case = Case::Counts { table };
    assert_eq!(same(caller, &case), 0);
    case.run(&Mesher).value
}

/// "An edge is from now on a side of a face": on rims, bare and grown on, V - E + F is pieces less holes.
pub fn edges_at_the_rim(caller: &dyn Caller) {
    let mut rng = Rng::new(seed() ^ 0xe0);
    for (centres, whole) in rims() {
        let base = base_records(&centres);
        for round in 0..8 {
            let grown = grow(&mut rng, &base, base.len() + 30 * round, round % 4);
            let numbers = counted(caller, &mut rng, &grown);
            assert_eq!(numbers[0] - numbers[1] + numbers[2], whole, "{centres:?}");
        }
    }
    for _ in 0..400 {
        let most = 1 + rng.below(40);
        let records = base_records(&centres(&mut rng, most));
        counted(caller, &mut rng, &records);
    }
}

/// Each record of small meshes with each other star, and without it, counted; and so once more with another one left out.
pub fn edges_of_edited_tables(caller: &dyn Caller) {
    let mut rng = Rng::new(seed() ^ 0xe1);
    let three = base_records(&[(0, 0), (1, 1), (2, -1)]);
    let meshes =
        [base_records(&[(0, 0), (1, 1)]), three.clone(), grow(&mut rng, &three, 28, 0), grow(&mut rng, &base_records(&disc(7)), 50, 1)];
    for mesh in meshes {
        for i in 0..mesh.len() {
            let mut without = mesh.clone();
            without.remove(i);
            let edited = every_star(mesh[i].point()).into_iter().map(|r| [&without[..], &[r]].concat());
            for mut list in edited.chain([without.clone()]) {
                for _ in 0..2 {
                    let slots = list.len().max(16) + rng.below(6);
                    let table = laid(&mut rng, &list, slots);
                    assert_eq!(same(caller, &Case::Counts { table }), 0);
                    list.remove(rng.below(list.len()));
                }
            }
        }
    }
}

/// Stars of every kind about one point, and no rim: sides that only one end names, and that no end names.
pub fn edges_of_scattered_stars(caller: &dyn Caller) {
    let mut rng = Rng::new(seed() ^ 0xe2);
    for _ in 0..20_000 {
        let level = rng.below(3) as u8;
        let mut list: Vec<Record> = Vec::new();
        for _ in 0..2 + rng.below(14) {
            let p = if list.is_empty() { Point::new(1, 0, 0) } else { beside(&mut rng, &list) };
            let stars: Vec<Record> = every_star(p).into_iter().filter(|r| r.n <= level + 1).collect();
            if !stars.is_empty() && list.iter().all(|r| r.point() != p) {
                list.push(*rng.pick(&stars));
            }
        }
        let slots = 16 + rng.below(8);
        let table = laid(&mut rng, &list, slots);
        assert_eq!(same(caller, &Case::Counts { table }), 0);
    }
}

/// A point that some star names as an adjacent or opposite one.
fn beside(rng: &mut Rng, list: &[Record]) -> Point {
    let corners: Vec<Corner> = list.iter().flat_map(star).collect();
    if corners.is_empty() {
        return list[0].point();
    }
    let corner = *rng.pick(&corners);
    rng.pick(&[corner.adjacent, corner.first, corner.second.unwrap_or(corner.adjacent)]).point()
}
