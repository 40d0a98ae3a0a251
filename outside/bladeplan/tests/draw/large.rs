//! Plans of 50,000 vertices: at most 60 bytes a vertex, flat or fine, and fine in a few places.

use crate::common::Desk;
use crate::sheet::Sheet;
use flaskbloom::{Point, Table};

const VERTICES: usize = 50_000;
const BYTES: usize = 60;

/// A rectangle of hexagons, so many sides across and high each way.
fn laid(across: i32, high: i32) -> Table {
    let lies_in = |a: i32, b: i32| (2 * a + b).abs() <= 2 * across && b.abs() <= high && (a - b) % 3 == 0;
    let all = (-250..=250).flat_map(|a| (-250..=250).map(move |b| [a, b]));
    let centres: Vec<[i32; 2]> = all.filter(|[a, b]| lies_in(*a, *b)).collect();
    Table::base(65_536, &centres).expect("a base")
}

/// Subdivides what is within so many sides of the middle, level by level, until there are 50,000 vertices.
fn grown(mut table: Table, within: f64) -> Table {
    for level in 0..12 {
        let near = |p: Point| f64::from(p.a.abs().max(p.b.abs())) / 3f64.powi(i32::from(p.m)) <= within;
        let mut list: Vec<Point> =
            table.records().filter(|r| r.degree == 6 && r.level == level && near(r.point)).map(|r| r.point).collect();
        list.sort_by_key(|p| (p.m, p.a, p.b));
        list.truncate(VERTICES.saturating_sub(table.records().count()).div_ceil(6));
        table.subdivide_all(&list).expect("room");
    }
    table
}

pub fn put(desk: &Desk, name: &str, table: &Table) -> usize {
    desk.put(name, table.write_full().expect("a file"));
    table.records().count()
}

/// Fine all over, to level 3 and on.
pub fn fine() -> Table {
    grown(laid(25, 30), 100.0)
}

#[test]
fn at_most_sixty_bytes_a_vertex() {
    let desk = Desk::new("large-drawn");
    for (name, table) in [("fine", fine()), ("deep", grown(laid(110, 64), 3.0))] {
        let vertices = put(&desk, name, &table);
        assert!(vertices >= VERTICES - 6, "{name}: {vertices} vertices");
        let svg = desk.good(&format!("draw {name} -q"));
        println!("{name}: {vertices} vertices, {} bytes a vertex", svg.len() / vertices);
        assert!(svg.len() <= BYTES * vertices, "{name}: {} bytes for {vertices} vertices", svg.len());
        let sheet = Sheet::of(&svg);
        let rim = table.records().filter(|r| r.degree == 0).count();
        assert_eq!(sheet.moves("marks"), vertices + rim);
        let levels = sheet.all("faces", "path").count();
        assert!(levels <= 13, "{levels} paths for the faces: one for each level");
        let page = Sheet::of_page(&desk.good(&format!("draw {name} --html -q")));
        assert_eq!((page.moves("faces"), page.moves("marks")), (sheet.moves("faces"), sheet.moves("marks")), "in pieces");
    }
}
