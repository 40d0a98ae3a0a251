//! The tests of bringing a vertex to degree 6, for any caller against the mesher: every number in its order by cases written out; every vertex
//! of grown and of torn meshes; the deepest chain. The stream of `random` has it too.

use crate::caller::Caller;
use crate::case::{Case, Outcome};
use crate::makers::*;
use crate::rng::Rng;
use crate::suite::{same, seed};
use mesher::mesh::{base as base_records, Mesh};
use mesher::record::Record;
use mesher::slots::{decode, SLOT};
use mesher::spot::Point;

const THREE: [(i32, i32); 3] = [(0, 0), (1, 1), (2, -1)];

fn bring(table: &[u8], [a, b, m]: [i32; 3]) -> Case {
    Case::BringToSix { table: table.to_vec(), scratch: vec![7; table.len()], point: ([a, b], m as u8) }
}

/// The number, the same from both.
fn number(caller: &dyn Caller, table: &[u8], point: [i32; 3]) -> u8 {
    same(caller, &bring(table, point))
}

fn of(r: &Record) -> [i32; 3] {
    [r.a, r.b, r.m as i32]
}

fn stored(table: &[u8]) -> Vec<Record> {
    table.chunks(SLOT).filter(|s| **s != [255; SLOT]).map(decode).collect()
}

/// "Refusals: 1 (scratch length included), 3, 14, 5 .., then the first met".
pub fn bring_refusals_in_order(caller: &dyn Caller) {
    let mut rng = Rng::new(seed() ^ 0xb1);
    let three = base_records(&THREE);
    let table = laid(&mut rng, &three, 40);
    assert_eq!([[0, 0, 0], [2, 0, 0], [3, 0, 1], [5, 5, 0], [0, 0, 255]].map(|p| number(caller, &table, p)), [16, 14, 0, 3, 16]);
    // the table is full: the first neighbour's subdivision finds no slot before the second is met on the rim
    assert_eq!(number(caller, &laid(&mut rng, &three, 16), [0, 0, 0]), 8);
    // "5 for a vertex of degree below 6 at level 12", whatever stands round it; at degree 6 nothing is looked at past its record
    for (d, wanted) in [(3, 5), (4, 5), (5, 5), (6, 0), (0, 14)] {
        let lone = Record::at(Point::new(1, 1, 0), d, 0, if d == 0 { 0 } else { 12 });
        assert_eq!(number(caller, &laid(&mut rng, &[lone], 16), [1, 1, 0]), wanted);
    }
    // one neighbour changed: absent, at another level, of a lower degree a level off, torn further on
    let six = Point::new(1, 0, 0);
    let changed = |u: Option<Record>| -> Vec<Record> { three.iter().filter(|r| r.point() != six).copied().chain(u).collect() };
    let star = |d, k, n| Some(Record::at(six, d, k, n));
    let cases = [(None, 7), (star(6, 0, 2), 7), (star(6, 1, 1), 7), (star(3, 0, 0), 7), (star(5, 1, 11), 7), (star(0, 0, 0), 16)];
    for (u, wanted) in cases {
        assert_eq!(number(caller, &laid(&mut rng, &changed(u), 40), [0, 0, 0]), wanted, "{u:?}");
    }
    let torn: Vec<Record> = three.iter().filter(|r| r.point() != Point::new(2, 0, 0)).copied().collect();
    assert_eq!(number(caller, &laid(&mut rng, &torn, 40), [0, 0, 0]), 7);
    bring_lengths(caller, &table);
}

/// Lengths of table and scratch, and tables that are not in order: 1, and which of the two are untouched.
fn bring_lengths(caller: &dyn Caller, table: &[u8]) {
    for len in [0, 1, 180, 191, 192, 193, 479, 481, 492] {
        let lent = |table: &[u8], scratch| Case::BringToSix { table: table.to_vec(), scratch: vec![9; scratch], point: ([1, 0], 0) };
        assert_eq!(same(caller, &lent(table, len)), 1);
        let bytes = vec![1; len];
        assert_eq!(same(caller, &lent(&bytes, len)), 1);
    }
    for at in 0..table.len() {
        let mut spoiled = table.to_vec();
        spoiled[at] ^= 1;
        same(caller, &bring(&spoiled, [0, 0, 0]));
    }
}

/// Every vertex of grown meshes, each on its own; done, the mesh is grown still and the vertex has risen by a level. Then the same of torn ones.
pub fn bring_every_vertex(caller: &dyn Caller) {
    let mut rng = Rng::new(seed() ^ 0xb2);
    for _ in 0..120 {
        let mesh = {
            let most = *rng.pick(&[30, 80, 160, 260]);
            grown(&mut rng, most)
        };
        let slots = mesh.len().max(16) + *rng.pick(&[6, 30, 400]);
        let table = laid(&mut rng, &mesh, slots);
        for v in mesh.iter().filter(|v| v.d != 0) {
            let outcome = bring(&table, of(v)).run(caller);
            assert_ne!(outcome.number, 7, "{v:?}");
            assert_eq!(number(caller, &table, of(v)), outcome.number);
            if outcome.number == 0 {
                risen(&outcome, v);
            }
        }
        let torn = torn(&mut rng, &mesh);
        let table = laid(&mut rng, &torn, torn.len().max(16) + 60);
        for v in &torn {
            number(caller, &table, of(v));
        }
    }
}

fn risen(outcome: &Outcome, v: &Record) {
    let after = stored(&outcome.lent[0]);
    let mesh = Mesh::of(&after);
    let level = if v.d == 6 { v.n } else { v.n + 1 };
    assert_eq!(mesh.at(v.point()), Some(&Record { d: 6, k: level % 2, n: level, ..*v }));
    assert!(mesh.is_grown());
}

/// A table of this many slots whose middle vertex was subdivided eleven times, and one of the vertices that the last time made: to bring it to
/// degree 6 takes a chain through all levels, twelve vertices under way at once.
pub fn deepest(slots: usize) -> (Vec<u8>, [i32; 3]) {
    let mut mesh = Mesh::of(&base_records(&disc(61)));
    let middle = Point::new(1, 0, 0);
    for _ in 0..11 {
        let v = *mesh.at(middle).expect("the middle");
        let made = mesh.subdivision(&v).expect("a grown mesh is not torn");
        mesh.make(&made);
    }
    let list = ordered(&mesh);
    let last = list.iter().filter(|r| r.n == 11 && r.d == 3).map(of).next().expect("made last");
    (laid(&mut Rng::new(3), &list, slots), last)
}

/// The deepest chain, in room enough and in every room that is too little.
pub fn bring_deepest(caller: &dyn Caller) {
    let (table, last) = deepest(4_000);
    let case = bring(&table, last);
    assert_eq!(same(caller, &case), 0);
    let records = stored(&table).len();
    let made = (stored(&case.run(caller).lent[0]).len() - records) / 6;
    println!("{made} subdivisions");
    assert!(made >= 12);
    for free in (0..6 * made).step_by(5) {
        let (table, last) = deepest(records + free);
        assert_eq!(number(caller, &table, last), 8);
    }
    let (table, last) = deepest(records + 6 * made);
    assert_eq!(number(caller, &table, last), 0);
}
