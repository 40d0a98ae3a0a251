//! Document 000's reported numbers, on its base mesh: 11 columns of hexagons, alternately 6 and 5 high (Fig. 12, top left).
//!
//! Used: Tables 4, 5, 6 and 8 (uniform meshes) as far as 65,536 slots reach, and the growth that Tables 4 and 9 share.
//! Not used: Tables 2, 10, 11, 13 (the curve is not given), 7 and 12 (compressed sizes), OBJ and OFF sizes.

mod common;
use common::*;
use mesher::mesh::Mesh;
use mesher::record::Record;
use mesher::slots::Slots;
use mesher::*;

/// A column is a step of 1 + w or of 2 - w to the right, a row a step of w + w^2 = -1 + 2w up (Fig. 9).
fn base_mesh() -> Vec<i32> {
    let mut centres = Vec::new();
    for column in 0..11 {
        let (a, b) = (3 * (column / 2) + column % 2, column % 2);
        for row in 0..6 - column % 2 {
            centres.extend([a - row, b + 2 * row]);
        }
    }
    centres
}

/// "uniform meshes, where all vertices of degree 6 are refined to a given refinement level"
fn uniform(slots: usize, level: u8) -> Vec<u8> {
    let mut table = based(slots, &base_mesh());
    for at in 0..level {
        let mut points = Vec::new();
        for r in records(&table).iter().filter(|r| r.d == 6 && r.n == at) {
            points.extend([r.a, r.b, r.m as i32]);
        }
        assert_eq!(subdivide_all(&mut table, &points).number, 0);
    }
    table
}

/// Table 4: V, E, F; E are the sides of the faces, as in ticket 2. Table 5: degrees 0, 3, 4, 5, 6.
const SIZES: [[usize; 8]; 7] = [
    [217, 399, 183, 66, 106, 0, 0, 45],
    [487, 939, 453, 66, 272, 16, 25, 108],
    [1135, 2235, 1101, 66, 650, 72, 75, 272],
    [2767, 5499, 2733, 66, 1634, 182, 167, 718],
    [7075, 14115, 7041, 66, 4310, 404, 311, 1984],
    [18979, 37923, 18945, 66, 11906, 784, 571, 5652],
    [52891, 105747, 52857, 66, 33914, 1460, 1019, 16432],
];

#[test]
fn tables_4_and_5_sizes_and_degrees() {
    for (level, counted) in SIZES.into_iter().enumerate() {
        let table = uniform(65_536, level as u8);
        let mesh = Mesh::of(Slots::of(&table).unwrap().records());
        assert_eq!(mesh.census(), counted, "level {level}");
        assert!(mesh.is_grown());
    }
}

/// Table 6, columns CSV and reduced. A comma is as long as a tab; a head line `a,b,m,d,k,n` of 12 bytes stands before the records; and
/// orientations are kept mod 12, so the new vertex at place 2 of each subdivision has one of two digits (10 or 11). Those of degree 6
/// that have two digits depend on the order of subdivisions, and are alike in both columns.
#[test]
fn table_6_file_sizes() {
    let sizes = [(2751, 1460), (6466, 2767), (15321, 6461), (38528, 15330), (99571, 38495), (284920, 99636), (812611, 284881)];
    for (level, (csv, csv_reduced)) in sizes.into_iter().enumerate() {
        let table = uniform(65_536, level as u8);
        let (full, reduced) = (full_text(&table).len(), reduced_text(&table).len());
        let subdivided_last = if level == 0 { 0 } else { SIZES[level - 1][7] };
        assert_eq!(csv - csv_reduced, full - reduced + subdivided_last, "level {level}");
        let two_digits = csv_reduced - 12 - reduced;
        assert!(two_digits <= SIZES[level][7], "level {level}");
        assert!(level > 0 || two_digits == 0);
    }
}

/// Table 8: the least and the greatest numerator, and the greatest depth.
#[test]
fn table_8_coordinates() {
    let extremes = [(-6, 16, 0), (-11, 44, 1), (-11, 44, 1), (-29, 128, 2), (-29, 128, 2), (-83, 380, 3)];
    for (level, (least, greatest, depth)) in extremes.into_iter().enumerate() {
        let list = records(&uniform(65_536, level as u8));
        let numerators = || list.iter().flat_map(|r| [r.a, r.b]);
        let found = (numerators().min().unwrap(), numerators().max().unwrap(), list.iter().map(|r| r.m).max().unwrap());
        assert_eq!(found, (least, greatest, depth), "level {level}");
    }
}

/// Tables 4 and 9 alike: whatever is subdivided, faces grow as vertices do, and edges twice as much.
#[test]
fn growth_of_adaptive_meshes() {
    for (v, e, f) in [(277, 519, 243), (1159, 2283, 1125), (18949, 37863, 18915)] {
        assert_eq!((v - 217, e - 399), (f - 183, 2 * (v - 217)));
    }
    let mut table = based(4096, &base_mesh());
    for step in 0..300usize {
        let sixes: Vec<Record> = records(&table).into_iter().filter(|r| r.d == 6 && r.n < 12).collect();
        let v = sixes[step * 7919 % sixes.len()];
        assert_eq!(subdivide(&mut table, v.a, v.b, v.m).number, 0);
    }
    let mesh = Mesh::of(Slots::of(&table).unwrap().records());
    let [v, e, f, ..] = mesh.census();
    assert_eq!((v, e, f), (217 + 1800, 399 + 3600, 183 + 1800));
    assert!(mesh.is_grown());
}
