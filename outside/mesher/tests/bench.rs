//! Document 01's bench examples, starred and others, its one-hexagon file and its table of stars.

mod common;
use common::*;
use mesher::record::Record;
use mesher::spot::{Point, Spot};
use mesher::*;

const THREE: [i32; 6] = [0, 0, 1, 1, 2, -1];

#[test]
fn three_normalisations() {
    assert_eq!(normalise(3, 0, 1).value, [1, 0, 0]);
    assert_eq!(normalise(9, -18, 3).value, [1, -2, 1]);
    assert_eq!(normalise(0, 0, 6).value, [0, 0, 0]);
    assert_eq!(normalise(0, 0, 255).value, [0, 0, 0]);
    assert_eq!(normalise(i32::MIN, i32::MAX, 255).value, [i32::MIN, i32::MAX, 255]);
}

#[test]
fn turning_rules() {
    for (a, b) in [(1, 0), (2, -7), (-5, 3)] {
        let turned = Spot::of(Point::new(a, b, 0)).turned().point();
        assert_eq!(turned, Point::new(-b, a + b, 0));
        let s = Spot::of(Point::new(a, b, 0));
        assert_eq!((s + s.turned()).third().point(), Point::new(a - b, a + 2 * b, 1).normalised());
    }
}

/// Document 01's rows, as adjacent, first opposite, second opposite.
type Row = ([i32; 3], [i32; 3], Option<[i32; 3]>);

fn rows(d: u8) -> Vec<Row> {
    match d {
        3 => vec![
            ([1, 0, 0], [0, 1, 0], Some([0, 2, 0])),
            ([-1, 1, 0], [-1, 0, 0], Some([-2, 0, 0])),
            ([0, -1, 0], [1, -1, 0], Some([2, -2, 0])),
        ],
        4 => vec![
            ([1, 0, 0], [0, 1, 0], Some([0, 2, 0])),
            ([-1, 1, 0], [-1, 0, 0], None),
            ([-1, -1, 1], [0, -2, 1], Some([0, -1, 0])),
            ([1, -2, 1], [1, -1, 0], None),
        ],
        5 => vec![
            ([1, 0, 0], [0, 1, 0], None),
            ([-1, 2, 1], [-2, 2, 1], Some([-1, 1, 0])),
            ([-2, 1, 1], [-2, 0, 1], Some([-1, 0, 0])),
            ([-1, -1, 1], [0, -2, 1], Some([0, -1, 0])),
            ([1, -2, 1], [1, -1, 0], None),
        ],
        _ => {
            let mut row: Row = ([1, 0, 0], [2, 2, 1], Some([1, 1, 0]));
            let mut all = Vec::new();
            for _ in 0..6 {
                all.push(row);
                row = turned(row);
            }
            all
        }
    }
}

fn turned((p, q, r): Row) -> Row {
    let turn = |[a, b, m]: [i32; 3]| [-b, a + b, m];
    (turn(p), turn(q), r.map(turn))
}

fn shrunk((p, q, r): Row) -> Row {
    let shrink = |[a, b, m]: [i32; 3]| [a - b, a + 2 * b, m + 1];
    (shrink(p), shrink(q), r.map(shrink))
}

/// "adds each pattern point, with its m raised by half of n rounded down, to v, and normalises", on fractions.
fn added(v: &Record, [a, b, m]: [i32; 3]) -> Point {
    let m = m + v.n as i32 / 2;
    let deep = m.max(v.m as i32);
    let up = |from: i32| 3i32.pow((deep - from) as u32);
    Point::new(v.a * up(v.m as i32) + a * up(m), v.b * up(v.m as i32) + b * up(m), deep as u8).normalised()
}

#[test]
fn drawn_stars_are_the_documents_table() {
    for d in [3, 4, 5, 6] {
        for k in 0..12 {
            for n in (0..=12).filter(|n| n % 2 == k % 2) {
                for (a, b, m) in [(0, 0, 0), (5, -7, 0), (1, 1, 1), (-10, 4, 3), (17, -1, 6)] {
                    let v = Record { a, b, m, d, k, n };
                    if !v.is_valid() {
                        continue;
                    }
                    let mut pattern = rows(d);
                    if k % 2 == 1 {
                        pattern = pattern.into_iter().map(shrunk).collect();
                    }
                    for _ in 0..k / 2 {
                        pattern = pattern.into_iter().map(turned).collect();
                    }
                    let drawn = mesher::star::star(&v);
                    assert_eq!(drawn.len(), pattern.len());
                    for (corner, (adjacent, first, second)) in drawn.iter().zip(pattern) {
                        assert_eq!(corner.adjacent.point(), added(&v, adjacent));
                        assert_eq!(corner.first.point(), added(&v, first));
                        assert_eq!(corner.second.map(|s| s.point()), second.map(|s| added(&v, s)));
                    }
                }
            }
        }
    }
}

#[test]
fn degree_six_orientation_one() {
    let points = mesher::star(0, 0, 0, 6, 1, 1).value;
    assert_eq!(points[..10], [6, 1, 1, 1, -1, 2, 1, -2, 1, 1]);
}

#[test]
fn star_refusals() {
    assert_eq!(mesher::star(3, 0, 1, 3, 0, 0).number, 9);
    assert_eq!(mesher::star(0, 0, 0, 0, 1, 1).number, 9);
    assert_eq!(mesher::star(0, 0, 0, 0, 0, 0).number, 14);
    assert_eq!(mesher::star(1, 0, 1, 0, 0, 0).number, 14);
    assert_eq!(mesher::star(0, 0, 0, 0, 0, 0).value, [0; 19]);
    // the deepest adjacent point, one deeper than any record's
    assert_eq!(mesher::star(1, 0, 6, 4, 0, 12).value[9], 7);
    // out of a record's ranges, and given all the same
    assert_eq!(mesher::star(251, 251, 0, 6, 0, 0).value[..7], [6, 252, 251, 0, 251, 252, 0]);
}

#[test]
fn one_hexagon() {
    let table = based(16, &[0, 0]);
    let file = "-1 0 0 0 0 0\n-1 1 0 0 0 0\n0 -1 0 0 0 0\n0 0 0 3 0 0\n0 1 0 0 0 0\n1 -1 0 0 0 0\n1 0 0 0 0 0\n".replace(' ', "\t");
    assert_eq!(full_text(&table), file);
    assert_eq!(reduced_text(&table), file);
    assert_eq!(census_text(file.as_bytes()), "V\tE\tF\td0\td3\td4\td5\td6\n7\t9\t3\t6\t1\t0\t0\t0\n");
    let mut again = vec![9; table.len()];
    let mut scratch = vec![7; table.len()];
    assert_eq!(read_full(&mut again, &mut scratch, file.as_bytes()).number, 0);
    assert_eq!(full_text(&again), file);
    assert!(scratch.iter().all(|byte| *byte == 255));
    assert_eq!(read_reduced(&mut again, &mut scratch, file.as_bytes()).number, 0);
}

#[test]
fn three_hexagons() {
    let table = based(16, &THREE);
    assert_eq!(records(&table).len(), 16);
    let sixes: Vec<Record> = records(&table).into_iter().filter(|r| r.d == 6).collect();
    assert_eq!(sixes, [Record { a: 1, b: 0, m: 0, d: 6, k: 0, n: 0 }]);
    assert_eq!(census_text(full_text(&table).as_bytes()), "V\tE\tF\td0\td3\td4\td5\td6\n16\t24\t9\t12\t3\t0\t0\t1\n");
    assert_eq!(reduced_text(&table).lines().count(), 13);
}

#[test]
fn a_first_subdivision() {
    let mut table = based(22, &THREE);
    let before = records(&table);
    assert_eq!(subdivide(&mut table, 3, 0, 1).number, 0);
    let after = records(&table);
    assert_eq!(after.len(), 22);
    let entered = [(4, 1, 3), (2, 2, 1), (1, 1, 3), (2, -1, 1), (4, -2, 3), (5, -1, 1)];
    for (a, b, k) in entered {
        assert!(after.contains(&Record { a, b, m: 1, d: 3, k, n: 1 }));
        assert!(!before.iter().any(|r| r.a == a && r.b == b && r.m == 1));
    }
    for (a, b, k) in [(1, 1, 0), (0, 0, 4), (2, -1, 8)] {
        assert!(after.contains(&Record { a, b, m: 0, d: 4, k, n: 0 }));
    }
    assert!(after.contains(&Record { a: 1, b: 0, m: 0, d: 6, k: 1, n: 1 }));
    assert_eq!(reduced_text(&table).lines().count(), 16);
    assert_eq!(full_text(&table).lines().count(), 22);
}

/// The records enter in star order: with one free slot in reach after the other, the order shows in the slots.
#[test]
fn entering_in_star_order() {
    let mut table = based(64, &THREE);
    let mut expected = mesher::slots::Slots::of(&table).unwrap();
    assert_eq!(subdivide(&mut table, 3, 0, 1).number, 0);
    for (a, b, k) in [(4, 1, 3), (2, 2, 1), (1, 1, 3), (2, -1, 1), (4, -2, 3), (5, -1, 1)] {
        expected.enter(Record { a, b, m: 1, d: 3, k, n: 1 });
    }
    for (a, b, m, d, k, n) in [(1, 0, 0, 6, 1, 1), (1, 1, 0, 4, 0, 0), (0, 0, 0, 4, 4, 0), (2, -1, 0, 4, 8, 0)] {
        expected.replace(Record { a, b, m, d, k, n });
    }
    let mut bytes = vec![0; table.len()];
    expected.store(&mut bytes);
    assert_eq!(bytes, table);
}

#[test]
fn a_second_subdivision() {
    let mut table = based(28, &THREE);
    assert_eq!(subdivide(&mut table, 1, 0, 0).number, 0);
    assert_eq!(subdivide(&mut table, 1, 0, 0).number, 0);
    assert!(records(&table).contains(&Record { a: 4, b: 0, m: 1, d: 3, k: 2, n: 2 }));
    assert!(records(&table).contains(&Record { a: 4, b: 1, m: 1, d: 4, k: 11, n: 1 }));
    assert_eq!(neighbours(&table, 1, 0, 0).value[..4], [6, 4, 0, 1]);
}

#[test]
fn refusals_in_three() {
    let table = based(64, &THREE);
    let mut touched = table.clone();
    assert_eq!(subdivide(&mut touched, 0, 0, 0).number, 4);
    assert_eq!(subdivide(&mut touched, 5, 5, 0).number, 3);
    assert_eq!(touched, table);
    assert_eq!(neighbours(&table, 2, 0, 0).number, 14);
    assert_eq!(faces(&table, 2, 0, 0).number, 14);
    assert_eq!(subdivide(&mut touched, 2, 0, 0).number, 4);
}

/// "d 4 with k = k' = 2 gives d 5 k 6; with k = 2, k' = 6 gives d 5 k 2": v = [0,0,0] sees the adjacent at place j toward 2j, k' is 6 + 2j.
#[test]
fn the_two_degree_four_rules() {
    for (j, k_after) in [(4usize, 6), (0, 2)] {
        let mut table = vec![255; 64 * 12];
        let ring = [(1, 0), (0, 1), (-1, 1), (-1, 0), (0, -1), (1, -1)];
        let mut list = vec![Record { a: 0, b: 0, m: 0, d: 6, k: 0, n: 0 }];
        for (i, (a, b)) in ring.into_iter().enumerate() {
            let (d, k) = if i == j { (4, 2) } else { (0, 0) };
            list.push(Record { a, b, m: 0, d, k, n: 0 });
        }
        place(&mut table, &list);
        assert_eq!(subdivide(&mut table, 0, 0, 0).number, 0);
        let (a, b) = ring[j];
        assert!(records(&table).contains(&Record { a, b, m: 0, d: 5, k: k_after, n: 0 }));
    }
}

#[test]
fn level_eleven_may_be_subdivided() {
    let mut table = based(16 + 12 * 6, &THREE);
    for level in 0..12 {
        assert_eq!(neighbours(&table, 1, 0, 0).number, 0);
        assert_eq!(subdivide(&mut table, 1, 0, 0).number, 0, "level {level}");
    }
    let left = table.clone();
    assert_eq!(subdivide(&mut table, 1, 0, 0).number, 5);
    assert_eq!(table, left);
    let file = full_text(&table);
    let mut scratch = table.clone();
    assert_eq!(read_full(&mut table, &mut scratch, file.as_bytes()).number, 0);
}

#[test]
fn six_free_slots_suffice() {
    let mut table = based(22, &THREE);
    assert_eq!(subdivide(&mut table, 1, 0, 0).number, 0);
    let mut table = based(21, &THREE);
    let left = table.clone();
    assert_eq!(subdivide(&mut table, 1, 0, 0).number, 8);
    assert_eq!(table, left);
}

#[test]
fn centres_to_250() {
    let mut table = vec![0; 16 * 12];
    assert_eq!(base(&mut table, &[250, 250]).number, 0);
    assert_eq!(base(&mut table, &[-250, -250]).number, 0);
    for bad in [[251, 251], [251, 2], [-1, -253], [-251, -251]] {
        table.fill(3);
        let answer = base(&mut table, &bad);
        assert_eq!((answer.number, answer.value), (2, 0));
        assert!(table.iter().all(|byte| *byte == 255));
    }
}

#[test]
fn the_nearer_opposite_where_both_are_there() {
    // After a subdivision of [1,0,0] its neighbour [0,0,0] (d 4) has a corner whose near and far opposites are both vertices.
    let mut table = based(64, &THREE);
    assert_eq!(subdivide(&mut table, 1, 0, 0).number, 0);
    let present = |s: Spot| records(&table).iter().any(|r| Spot::of(r.point()) == s);
    let mut both = 0;
    for v in records(&table).into_iter().filter(|v| v.d != 0) {
        let points = faces(&table, v.a, v.b, v.m).value;
        for (j, corner) in mesher::star::star(&v).iter().enumerate() {
            if present(corner.first) && corner.second.is_some_and(present) {
                both += 1;
                let near = corner.first.point();
                assert_eq!(points[1 + 3 * j..4 + 3 * j], [near.a, near.b, near.m as i32]);
            }
        }
    }
    assert!(both > 0);
}

/// Ticket 7: every edge of a level up to 12 has depth at most 6, so has its sum with a point of depth at most 6.
#[test]
fn no_new_point_is_deeper_than_6() {
    for level in 0..=12u8 {
        for toward in (0..12).filter(|e| e % 2 == level as i64 % 2) {
            assert_eq!(mesher::spot::edge(toward, level).point().m, level.div_ceil(2));
        }
    }
    for n in 0..12 {
        for (a, b) in [(1, 0), (-1, 1), (728, 1), (251 * 729, -1)] {
            let now = Record { a, b, m: 6, d: 6, k: (n + 1) % 2, n: n + 1 };
            assert!(mesher::star::star(&now).iter().all(|c| c.adjacent.point().m <= 6));
        }
    }
}
