//! The meshes that are timed: discs of hexagons, and one refined level by level.

use differential::makers;
use plain::lattice::{rows, sum, Point};
use plain::mesh::{opposite, records};
use plain::table::{enter, SLOT};
use std::collections::{BTreeMap, HashMap};

pub fn disc(hexagons: usize) -> Vec<i32> {
    makers::flat(&makers::disc(hexagons))
}

pub fn count(table: &[u8]) -> usize {
    records(table).count()
}

/// A base of about so many vertices, in a table of so many slots.
pub fn based_to(vertices: usize, slots: usize) -> Vec<u8> {
    let mut hexagons = 1 + vertices / 2;
    loop {
        let mut table = vec![0; slots * SLOT];
        if plain::base(&mut table, &disc(hexagons)).0 == 0 && count(&table) <= vertices {
            return table;
        }
        hexagons -= 1 + hexagons / 200;
    }
}

/// The hexagons of the sheet that is refined.
pub const SHEET: usize = 54;

/// That sheet and six levels of it, each with the points that are subdivided next.
pub fn levels() -> Vec<(Vec<u8>, Vec<i32>)> {
    refined(&disc(SHEET), 6)
}

/// Document 000's sheet, 11 columns of hexagons, alternately 6 and 5 high, at level 6: 52,891 vertices.
pub fn published() -> Vec<u8> {
    let column = |x: i32| (0..6 - x % 2).flat_map(move |row| [3 * (x / 2) + x % 2 - row, x % 2 + 2 * row]);
    let centres: Vec<i32> = (0..11).flat_map(column).collect();
    let table = refined(&centres, 6).pop().expect("six levels").0;
    assert_eq!(count(&table), 52_891);
    table
}

/// A sheet and so many levels of it.
fn refined(centres: &[i32], levels: u8) -> Vec<(Vec<u8>, Vec<i32>)> {
    let mut table = vec![0; 65_536 * SLOT];
    assert_eq!(plain::base(&mut table, centres).0, 0);
    let mut all = Vec::new();
    for level in 0..levels {
        let due = records(&table).filter(|(_, s)| s.d == 6 && s.n == level);
        let list: Vec<i32> = due.flat_map(|(p, _)| [p.a, p.b, p.m as i32]).collect();
        all.push((table.clone(), list.clone()));
        assert_eq!(plain::subdivide_all(&mut table, &list).0, 0);
    }
    all.push((table, Vec::new()));
    all
}

/// A mesh as an OFF file: its vertices as positions, and its faces, each once.
pub fn off(table: &[u8]) -> String {
    let places: HashMap<Point, usize> = records(table).enumerate().map(|(i, (p, _))| (p, i)).collect();
    let mut faces = BTreeMap::new();
    for (p, v) in records(table) {
        let rows = rows(v);
        for (j, row) in rows.iter().enumerate() {
            let next = sum(p, rows[(j + 1) % rows.len()].adjacent, v.n);
            let face = [p, sum(p, row.adjacent, v.n), opposite(table, p, v, row).expect("a grown mesh"), next].map(|q| places[&q]);
            let mut sorted = face;
            sorted.sort_unstable();
            faces.entry(sorted).or_insert(face);
        }
    }
    let mut text = format!("OFF\n{} {} 0\n", places.len(), faces.len());
    for (p, _) in records(table) {
        let scale = 3f64.powi(p.m as i32);
        let (a, b) = (p.a as f64 / scale, p.b as f64 / scale);
        text += &format!("{} {} 0\n", a + b / 2.0, b * 0.75f64.sqrt());
    }
    for [v, adjacent, opposite, next] in faces.into_values() {
        text += &format!("4 {v} {adjacent} {opposite} {next}\n");
    }
    text
}

/// The same records in a table of so many slots.
pub fn relaid(table: &[u8], slots: usize) -> Vec<u8> {
    let mut other = vec![255; slots.clamp(16, 65_536) * SLOT];
    for (p, s) in records(table) {
        assert!(enter(&mut other, p, s));
    }
    other
}

/// The full file of a disc refined to level 3, the largest that the census takes.
pub fn refined_input() -> Vec<u8> {
    largest_input(|hexagons| refined(&disc(hexagons), 3).pop().expect("three levels").0)
}

/// The full file of hexagons that share no vertex, as many as the census takes: no vertex but their centres is internal.
pub fn apart_input() -> Vec<u8> {
    const ROW: usize = 26;
    let centre = |i: usize| [3 * (i % ROW) as i32 - 39, 3 * (i / ROW) as i32 - 39];
    largest_input(|hexagons| refined(&(0..hexagons).flat_map(centre).collect::<Vec<i32>>(), 0).pop().expect("a base").0)
}

const CENSUS_BYTES: usize = 65_536;

/// The full file of the largest of some sheets, by their tens of hexagons, that the census takes.
fn largest_input(sheet: impl Fn(usize) -> Vec<u8>) -> Vec<u8> {
    let file = |table: Vec<u8>| {
        let mut out = vec![0; 26 * count(&table)];
        let (_, long) = plain::write_full(&table, &mut out);
        out.truncate(long as usize);
        out
    };
    (1..).map(|tens| file(sheet(10 * tens))).take_while(|text| text.len() <= CENSUS_BYTES).last().expect("a sheet that fits")
}
