//! The tests of refining round an outline, for any caller against the mesher: the examples of the readings, every number in its order by cases written
//! out, values at zero, whole sheets with room for part of a list. The stream of `random` has it too.

use crate::caller::Caller;
use crate::case::{Case, Outcome};
use crate::makers::*;
use crate::rng::Rng;
use crate::suite::{same, seed};
use mesher::mesh::{base as base_records, Mesh};
use mesher::outlines::{position, Outline};
use mesher::record::Record;
use mesher::slots::{decode, SLOT};
use mesher::spot::Point;

const THREE: [(i32, i32); 3] = [(0, 0), (1, 1), (2, -1)];

/// A disc round [1, 0, 0] of THREE, and the next number above 1,000.
const PIT: [f64; 3] = [1.0, 0.0, 0.3];
const PAST: f64 = 1000.0000000000001;

fn disc(table: &[u8], disc: [f64; 3], passes: u8, level: u8) -> Case {
    Case::RefineDisc { table: table.to_vec(), scratch: vec![7; table.len()], outline: disc.map(f64::to_bits), passes, level }
}

fn line(table: &[u8], line: [f64; 3], passes: u8, level: u8) -> Case {
    Case::RefineLine { table: table.to_vec(), scratch: vec![7; table.len()], outline: line.map(f64::to_bits), passes, level }
}

/// The outcome, the same from both.
fn both(caller: &dyn Caller, case: Case) -> Outcome {
    same(caller, &case);
    case.run(caller)
}

fn stored(table: &[u8]) -> Vec<Record> {
    table.chunks(SLOT).filter(|s| **s != [255; SLOT]).map(decode).collect()
}

/// The readings' own examples.
pub fn outline_examples(caller: &dyn Caller) {
    let mut rng = Rng::new(seed() ^ 0x91);
    let three = base_records(&THREE);
    let narrow = both(caller, disc(&laid(&mut rng, &three, 28), PIT, 3, 12));
    assert_eq!((narrow.number, &narrow.value[..], stored(&narrow.lent[0]).len()), (8, &[2][..], 28));
    let table = laid(&mut rng, &three, 64);
    let listed = |case: Case| {
        let outcome = both(caller, case);
        assert_eq!(outcome.number, 0);
        (stored(&outcome.lent[0]).len() - three.len()) / 6
    };
    // y turns on the spelling; a value of 0 where it is exactly below; a line, and the same turned round; a radius whose square is 0; no line at all
    assert_eq!(position(Point::new(0, 1, 0))[1], 0.8660254037844386);
    assert_eq!(position(Point::new(0, 3, 1))[1], 0.8660254037844387);
    let value = Outline::Line { p: 0.2, q: 1.5, s: 1.599038105676658 }.value(position(Point::new(1, 1, 0)));
    assert_eq!(value.to_bits(), 0);
    assert_eq!(listed(line(&table, [0.2, 1.5, 1.599038105676658], 1, 12)), 1);
    assert_eq!(listed(line(&table, [0.0, 1.0, 0.8660254037844386], 1, 12)), 1);
    assert_eq!(listed(line(&table, [0.0, -1.0, -0.8660254037844386], 1, 12)), 0);
    assert_eq!(listed(disc(&table, [1.0, 0.0, 5e-324], 1, 12)), 0);
    assert_eq!(listed(line(&table, [0.0, 0.0, 0.0], 12, 12)), 0);
    assert_eq!(listed(disc(&table, PIT, 0, 12)), 0);
    assert_eq!(listed(disc(&table, PIT, 1, 0)), 0);
    assert_eq!(listed(disc(&table, PIT, 12, 1)), 1);
    assert_eq!(listed(disc(&table, PIT, 2, 2)), 2);
}

/// "Refusals: 1; 17 ..; then 7, 8 as the subdivisions, in list order, meet them."
pub fn outline_refusals_in_order(caller: &dyn Caller) {
    let mut rng = Rng::new(seed() ^ 0x92);
    let three = base_records(&THREE);
    let table = laid(&mut rng, &three, 64);
    let not_finite = [f64::NAN, f64::INFINITY, f64::NEG_INFINITY];
    for i in 0..3 {
        for (x, wanted) in not_finite.map(|x| (x, 17)).into_iter().chain([(1000.0, 0), (PAST, 17), (-PAST, 17), (f64::MAX, 17)]) {
            let mut numbers = PIT;
            numbers[i] = x;
            for passes in [0, 1] {
                assert_eq!(both(caller, disc(&table, numbers, passes, 12)).number, wanted, "{numbers:?}");
                assert_eq!(both(caller, line(&table, numbers, passes, 12)).number, wanted, "{numbers:?}");
            }
        }
    }
    for (radius, wanted) in [(0.0, 17), (-0.0, 17), (-1.0, 17), (-1000.0, 17), (5e-324, 0), (f64::MIN_POSITIVE, 0)] {
        assert_eq!(both(caller, disc(&table, [1.0, 0.0, radius], 1, 12)).number, wanted, "{radius}");
        assert_eq!(both(caller, line(&table, [1.0, 0.0, radius], 1, 12)).number, 0);
    }
    for (passes, level, wanted) in [(12, 12, 0), (13, 12, 17), (12, 13, 17), (255, 0, 17), (0, 255, 17), (0, 0, 0)] {
        assert_eq!(both(caller, line(&table, [1.0, 0.0, 900.0], passes, level)).number, wanted);
    }
    // 1 before 17; scratch is cleared with both, but not where lengths don't fit
    let mut spoiled = table.clone();
    spoiled[9] ^= 64;
    let outcome = both(caller, disc(&spoiled, [f64::NAN, 0.0, 0.0], 13, 13));
    assert!(outcome.number == 1 && outcome.lent[0] == spoiled && outcome.lent[1].iter().all(|byte| *byte == 255));
    let outcome = both(caller, disc(&table, [f64::NAN, 0.0, 0.0], 1, 1));
    assert!(outcome.number == 17 && outcome.lent[0] == table && outcome.lent[1].iter().all(|byte| *byte == 255));
    for (table_len, scratch) in [(768, 756), (768, 780), (768, 0), (0, 0), (191, 191), (180, 180), (193, 193), (768, 769)] {
        let (table, scratch) = (vec![255; table_len], vec![9; scratch]);
        let case = Case::RefineLine { table, scratch, outline: PIT.map(f64::to_bits), passes: 1, level: 12 };
        assert_eq!(both(caller, case).number, 1);
    }
    outline_torn(caller, &three);
}

/// 7, with nothing to undo and with something; and that it can turn on what was made before in the pass.
fn outline_torn(caller: &dyn Caller, three: &[Record]) {
    let mut rng = Rng::new(seed() ^ 0x93);
    let torn: Vec<Record> = three.iter().filter(|r| r.point() != Point::new(2, 0, 0)).copied().collect();
    assert_eq!(both(caller, disc(&laid(&mut rng, &torn, 64), PIT, 2, 12)).number, 7);
    let amid = |p: Point, n: u8| {
        let v = Record::at(p, 6, 0, n);
        let round = mesher::star::star(&v).into_iter().zip([2, 0, 2, 0, 2, 0]).map(move |(c, k)| Record::at(c.adjacent.point(), 3, k, n));
        [v].into_iter().chain(round)
    };
    let (coarse, fine) = (Point::new(0, 0, 0), Point::new(2, 2, 2));
    let apart: Vec<Record> = amid(coarse, 0).chain(amid(fine, 2)).collect();
    let table = laid(&mut rng, &apart, 32);
    for p in [coarse, fine] {
        assert_eq!(same(caller, &Case::Subdivide { table: table.clone(), point: ([p.a, p.b], p.m) }), 0);
    }
    let outcome = both(caller, line(&table, [1.0, 0.0, 0.1], 1, 12));
    assert!(outcome.number == 7 && outcome.value == [0] && outcome.lent[0] == table);
}

/// Sheets of some hundred hexagons, grown, with every number of slots about what a list takes: 8 alone, and the mesh is grown still.
pub fn outline_rooms(caller: &dyn Caller) {
    let mut rng = Rng::new(seed() ^ 0x94);
    for round in 0..24 {
        let mesh = match round % 3 {
            0 => base_records(&crate::makers::disc(200)),
            _ => grown(&mut rng, 300),
        };
        for room in [0, 5, 6, 30, 100, 400] {
            let table = laid(&mut rng, &mesh, mesh.len().max(16) + room);
            let (disc_of, line_of) = (disc_outline(&mut rng, &mesh), line_outline(&mut rng, &mesh));
            let wide = [disc_of[0], disc_of[1], 4.0];
            let level = 1 + rng.below(12) as u8;
            for case in [disc(&table, disc_of, 3, level), disc(&table, wide, 2, level), line(&table, line_of, 3, level)] {
                let outcome = both(caller, case);
                assert!([0, 8].contains(&outcome.number));
                assert!(Mesh::of(&stored(&outcome.lent[0])).is_grown());
            }
        }
    }
}

/// Passes over the largest table: a long list made, and a long one undone for want of room.
pub fn outline_largest(caller: &dyn Caller) {
    let mut rng = Rng::new(seed() ^ 0x95);
    let mesh = base_records(&crate::makers::disc(20_000));
    let table = laid(&mut rng, &mesh, 65_536);
    assert_eq!(both(caller, disc(&table, [0.0, 0.0, 60.0], 3, 12)).number, 0);
    let full = laid(&mut rng, &mesh, mesh.len() + 300);
    let outcome = both(caller, disc(&full, [0.0, 0.0, 60.0], 1, 12));
    assert!(outcome.number == 8 && outcome.lent[0] == full);
}
