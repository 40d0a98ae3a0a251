//! The tests of OFF and OBJ files, for any caller against the mesher: every number in its order, outputs of every length, numbers of every
//! width, coordinates at every depth; files read back by `drawing`; tables that are not grown. The stream of `random` has them too.

use crate::caller::Caller;
use crate::case::Case;
use crate::drawing::{read, Drawing};
use crate::makers::*;
use crate::rng::Rng;
use crate::suite::{every_star, same, seed};
use mesher::mesh::{base as base_records, Mesh};
use mesher::record::Record;
use mesher::slots::SLOT;
use mesher::spot::Point;
use mesher::star::star;
use mesher::viewer::Format;

const FORMATS: [Format; 2] = [Format::Off, Format::Obj];
const THREE: [(i32, i32); 3] = [(0, 0), (1, 1), (2, -1)];

fn view(format: Format, table: &[u8], room: usize) -> Case {
    let (table, out) = (table.to_vec(), vec![3; room]);
    match format {
        Format::Off => Case::WriteOff { table, out },
        Format::Obj => Case::WriteObj { table, out },
    }
}

/// The number, the same from both, of both formats.
fn number(caller: &dyn Caller, table: &[u8], room: usize) -> u8 {
    let numbers = FORMATS.map(|format| same(caller, &view(format, table, room)));
    assert_eq!(numbers[0], numbers[1]);
    numbers[0]
}

/// The file of a table that is to have one, with each of the outputs about its length: one byte short, exact, longer.
fn written(caller: &dyn Caller, table: &[u8], format: Format) -> Vec<u8> {
    let case = view(format, table, table.len() / SLOT * (29 + 6 * 26) + 32);
    assert_eq!(same(caller, &case), 0);
    let outcome = case.run(caller);
    let long = outcome.value[0] as usize;
    if long > 0 {
        assert_eq!(same(caller, &view(format, table, long - 1)), 13);
    }
    assert_eq!(same(caller, &view(format, table, long)), 0);
    outcome.lent[1][..long].to_vec()
}

/// Both files read back and seen to be the table's.
fn drawn(caller: &dyn Caller, table: &[u8], records: &[Record]) -> Drawing {
    let [off, obj] = FORMATS.map(|format| read(&written(caller, table, format), format));
    off.is_of(caller, table, records);
    obj.is_of(caller, table, records);
    assert_eq!((&off.vertices, &off.faces), (&obj.vertices, &obj.faces));
    off
}

/// "Refusals: 1, 7, 13": lengths, a record where it must not be, an absent adjacent, a corner without opposite, too little room.
pub fn viewer_refusals_in_order(caller: &dyn Caller) {
    let mut rng = Rng::new(seed() ^ 0x0f1);
    let three = base_records(&THREE);
    let table = laid(&mut rng, &three, 40);
    for len in [0, 1, 11, 15 * SLOT, 16 * SLOT + 1, 65_537 * SLOT] {
        assert_eq!([0, 1, 600].map(|room| number(caller, &vec![255; len], room)), [1; 3]);
    }
    for at in 0..table.len() {
        let mut spoiled = table.clone();
        spoiled[at] ^= 1;
        for room in [0, 600] {
            number(caller, &spoiled, room);
        }
    }
    for gone in &three {
        let rest: Vec<Record> = three.iter().filter(|r| *r != gone).copied().collect();
        let table = laid(&mut rng, &rest, 20);
        let is_torn = Mesh::of(&rest).records().any(|v| Mesh::of(&rest).opposites(v).is_err());
        assert_eq!([0, 600].map(|room| number(caller, &table, room)), if is_torn { [7; 2] } else { [13, 0] });
    }
    // an internal vertex with its neighbours and no opposite; the same with one opposite missing, and with all
    let v = Record::at(Point::new(0, 0, 0), 3, 0, 0);
    let rim = |p: Point| Record::at(p, 0, 0, 0);
    let adjacent: Vec<Record> = star(&v).iter().map(|c| rim(c.adjacent.point())).collect();
    let opposite: Vec<Record> = star(&v).iter().map(|c| rim(c.first.point())).collect();
    for (left, wanted) in [(0, [7; 3]), (1, [7; 3]), (2, [7; 3]), (3, [13, 13, 0])] {
        let table = laid(&mut rng, &[&[v], &adjacent[..], &opposite[..left]].concat(), 16);
        assert_eq!([0, 1, 600].map(|room| number(caller, &table, room)), wanted);
    }
    assert_eq!(number(caller, &table, 100), 13);
    assert_eq!(number(caller, &table, 1_000), 0);
}

/// Outputs of every length up to past the file's, of the empty table, of one vertex, of meshes with numbers of one digit and of two.
pub fn viewer_every_length(caller: &dyn Caller) {
    let mut rng = Rng::new(seed() ^ 0x0f2);
    let empty = vec![255; 16 * SLOT];
    assert_eq!(written(caller, &empty, Format::Off), b"OFF\n0 0 0\n");
    assert_eq!(written(caller, &empty, Format::Obj), b"");
    let lists =
        [vec![], vec![Record::at(Point::new(-1, 1, 0), 0, 0, 0)], base_records(&[(0, 0)]), base_records(&THREE), grown(&mut rng, 40)];
    for list in lists {
        let table = laid(&mut rng, &list, list.len().max(16));
        for format in FORMATS {
            let long = written(caller, &table, format).len();
            for room in 0..long + 3 {
                assert_eq!(same(caller, &view(format, &table, room)), if room < long { 13 } else { 0 });
            }
        }
    }
}

/// Vertices about as many as make numbers longer, in both formats: a disc and so many of the rim apart.
pub fn viewer_widths(caller: &dyn Caller) {
    let mut rng = Rng::new(seed() ^ 0x0f3);
    for (hexagons, turn) in [(1, 10), (20, 100), (300, 1_000), (3_200, 10_000)] {
        let disc = base_records(&disc(hexagons));
        for vertices in turn - 1..=turn + 1 {
            let apart = (0..).map(|i| Record::at(Point::new(1 + i % 2 - 3 * (i / 2), 243, 6), 0, 0, 0));
            let list: Vec<Record> = disc.iter().copied().chain(apart).take(vertices).collect();
            assert!(disc.len() < vertices);
            let table = laid(&mut rng, &list, vertices + 20);
            drawn(caller, &table, &list);
        }
    }
}

/// Vertices alone, all of the rim: each depth, each sign, zero, the ends of the ranges, and where y is nearest to a tie.
pub fn viewer_coordinates(caller: &dyn Caller) {
    let mut rng = Rng::new(seed() ^ 0x0f4);
    let mut points = vec![Point::new(1, 48_479, 5), Point::new(-1, -48_479, 5)];
    for m in 0..=6 {
        let reach = 251 * 3i32.pow(m as u32);
        let ends = [0, 1, -1, 2, -2, 4, -5, 7, reach, -reach, reach - 1, 1 - reach, reach / 2, -reach / 2];
        points.extend(ends.iter().flat_map(|a| ends.map(|b| Point::new(*a, b, m))));
        points.extend((0..3_000).map(|_| Point::new(rng.from_to(-reach, reach), rng.from_to(-reach, reach), m)));
    }
    let mut list: Vec<Record> = points.into_iter().filter(|p| p.is_normalised()).map(|p| Record::at(p, 0, 0, 0)).collect();
    list.sort_by_key(|r| (r.m, r.a, r.b));
    list.dedup();
    let table = laid(&mut rng, &list, list.len() * 4 / 3);
    assert!(drawn(caller, &table, &list).faces.is_empty());
}

/// Files of grown meshes, small and large, read back.
pub fn viewer_read_back(caller: &dyn Caller) {
    let mut rng = Rng::new(seed() ^ 0x0f5);
    for most in [7, 16, 30, 60, 120, 400, 3_000] {
        for _ in 0..12 {
            let mesh = grown(&mut rng, most);
            let slots = slots_for(&mut rng, mesh.len());
            let table = laid(&mut rng, &mesh, slots);
            let drawing = drawn(caller, &table, &mesh);
            assert!(drawing.faces.len() < drawing.vertices.len());
        }
    }
}

/// Each record of small meshes with each other star, and without it: torn or not, grown or not.
pub fn viewer_of_edited_tables(caller: &dyn Caller) {
    let mut rng = Rng::new(seed() ^ 0x0f6);
    let three = base_records(&THREE);
    let mut done = 0;
    for mesh in [base_records(&[(0, 0), (1, 1)]), grow(&mut rng, &three, 28, 0), grow(&mut rng, &base_records(&disc(7)), 50, 1)] {
        for i in 0..mesh.len() {
            let mut without = mesh.clone();
            without.remove(i);
            let edited = every_star(mesh[i].point()).into_iter().map(|r| [&without[..], &[r]].concat());
            for list in edited.chain([without.clone()]) {
                let table = laid(&mut rng, &list, list.len().max(16) + i % 6);
                if number(caller, &table, 4_000) == 0 {
                    drawn(caller, &table, &list);
                    done += 1;
                }
            }
        }
    }
    assert!(done > 100);
}

/// Stars of every kind about one point, each closed by vertices of the rim: faces that only one of their vertices names, sides of many faces.
pub fn viewer_of_scattered_stars(caller: &dyn Caller) {
    let mut rng = Rng::new(seed() ^ 0x0f7);
    let mut done = 0;
    for _ in 0..4_000 {
        let mut list: Vec<Record> = vec![some_star(&mut rng, Point::new(1, 0, 0))];
        for _ in 0..rng.below(4) {
            let named: Vec<Point> = list.iter().flat_map(star).flat_map(|c| [c.adjacent, c.first]).map(|s| s.point()).collect();
            let free: Vec<Point> = named.into_iter().filter(|p| p.m <= 6 && list.iter().all(|r| r.point() != *p)).collect();
            if !free.is_empty() {
                let p = *rng.pick(&free);
                list.push(some_star(&mut rng, p));
            }
        }
        for c in list.iter().flat_map(star).collect::<Vec<_>>() {
            let opposite = c.second.filter(|_| c.first.point().m > 6 || rng.once_in(8)).unwrap_or(c.first);
            for r in [c.adjacent, opposite].map(|spot| Record::at(spot.point(), 0, 0, 0)) {
                if r.is_valid() && list.iter().all(|old| old.point() != r.point()) {
                    list.push(r);
                }
            }
        }
        let table = laid(&mut rng, &list, list.len().max(16) + 3);
        if number(caller, &table, 6_000) == 0 {
            drawn(caller, &table, &list);
            done += 1;
        }
    }
    assert!(done > 1_000);
}
