//! Bringing to degree 6: what is made and in which order, by the readings of document 02's ticket 4; and that every way to the goal has it.

use mesher::bring::brought;
use mesher::mesh::{base, Mesh, Refused};
use mesher::slots::Slots;
use mesher::{Point, Record};

/// A hexagon with so many rings of others round it.
fn sheet(rings: usize) -> Mesh {
    let mut centres = vec![(0, 0)];
    for _ in 0..rings {
        for (a, b) in centres.clone() {
            for (x, y) in [(1, 1), (-1, 2), (-2, 1), (-1, -1), (1, -2), (2, -1)] {
                if !centres.contains(&(a + x, b + y)) {
                    centres.push((a + x, b + y));
                }
            }
        }
    }
    Mesh::of(&base(&centres))
}

fn subdivide(mesh: &mut Mesh, v: &Record) {
    let made = mesh.subdivision(v).expect("to be subdivided");
    mesh.make(&made);
}

/// What is made to bring the vertex at p to degree 6, with room enough.
fn made(mesh: &Mesh, p: Point) -> Result<Vec<(Point, u8)>, Refused> {
    let (mut slots, mut mesh) = (Slots::cleared(4_000), mesh.clone());
    mesh.records().for_each(|r| assert!(slots.enter(*r)));
    let v = *mesh.at(p).expect("a vertex");
    let list = brought(&mut slots, &mut mesh, &v)?;
    let level = if v.d == 6 { v.n } else { v.n + 1 };
    assert_eq!(mesh.at(p), Some(&Record { d: 6, k: level % 2, n: level, ..v }));
    assert!(mesh.is_grown());
    Ok(list)
}

/// The mesh with all subdivided that can be, up to a level, but for one point at one level.
fn all_but(mesh: &Mesh, level: u8, left_out: Option<(Point, u8)>) -> Mesh {
    let mut mesh = mesh.clone();
    loop {
        let due = |r: &&Record| r.d == 6 && r.n <= level && left_out != Some((r.point(), r.n));
        let Some(v) = mesh.records().find(due).copied() else { return mesh };
        subdivide(&mut mesh, &v);
    }
}

#[test]
fn seven_hexagons() {
    let places = [(1, 0), (-1, 1), (0, -1)].map(|(a, b)| (Point::new(a, b, 0), 0));
    assert_eq!(made(&sheet(1), Point::new(0, 0, 0)), Ok(places.to_vec()));
    assert_eq!(made(&sheet(1), Point::new(1, 0, 0)), Ok(Vec::new()));
    assert_eq!(made(&sheet(0), Point::new(0, 0, 0)), Err(Refused(16, "a neighbour on the rim")));
    assert_eq!(made(&sheet(0), Point::new(1, 0, 0)), Err(Refused(14, "degree 0")));
}

/// The star of a vertex that is brought on the way is the one that it has when its turn comes.
#[test]
fn stars_when_their_turn_comes() {
    let mut mesh = sheet(2);
    let middle = *mesh.at(Point::new(1, 0, 0)).expect("a vertex");
    subdivide(&mut mesh, &middle);
    let wanted = [((2, 1), 0), ((0, 2), 0), ((1, 1), 1), ((1, 0), 1), ((3, -1), 0), ((2, 0), 1)];
    let wanted = wanted.map(|((a, b), n)| (Point::new(a, b, 0), n));
    assert_eq!(made(&mesh, Point::new(4, 1, 1)), Ok(wanted.to_vec()));
}

/// "The subdivisions made are exactly those that every sequence reaching the goal must contain": without any one of them, and with all else
/// that can be made, the vertex is not of degree 6; and where it is refused with 16, no sequence reaches the goal.
#[test]
fn every_sequence_has_them() {
    let mut mesh = sheet(3);
    let [mut brought, mut at_the_rim] = [0; 2];
    for _ in 0..3 {
        let lower: Vec<Record> = mesh.records().filter(|r| (3..6).contains(&r.d) && r.n < 3).copied().collect();
        for v in lower.iter().step_by(3) {
            let six = |mesh: &Mesh| mesh.at(v.point()).expect("a vertex").d == 6;
            match made(&mesh, v.point()) {
                Ok(list) => {
                    brought += 1;
                    list.iter().for_each(|one| assert!(!six(&all_but(&mesh, v.n, Some(*one))), "{v:?} without {one:?}"));
                }
                Err(refused) => {
                    at_the_rim += 1;
                    assert_eq!(refused, Refused(16, "a neighbour on the rim"));
                    assert!(!six(&all_but(&mesh, v.n, None)), "{v:?}");
                }
            }
        }
        let middle = *mesh.at(Point::new(1, 0, 0)).expect("a vertex");
        subdivide(&mut mesh, &middle);
    }
    assert!(brought > 10 && at_the_rim > 10, "{brought} {at_the_rim}");
}
