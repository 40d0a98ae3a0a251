//! A vertex brought to degree 6, by plain recursion: the places of a star of degree d with no 60 degree angle beside them are its first 6 - d.

use crate::lattice::{in_range, reduce, rows, sum, Point, Star};
use crate::mesh::{subdivide_in, Flat, Store};
use crate::table::{fits, in_order};

fn bring<S: Store>(store: &mut S, p: Point, v: Star) -> u8 {
    for row in &rows(v)[..6 - v.d as usize] {
        let q = sum(p, row.adjacent, v.n);
        let number = match store.find(q) {
            None => 7,
            Some((_, u)) if u.d == 0 => 16,
            Some((_, u)) if u.d == 6 && u.n == v.n => subdivide_in(store, q),
            Some((_, u)) if u.d < 6 && u.n + 1 == v.n => match bring(store, q, u) {
                0 => subdivide_in(store, q),
                number => number,
            },
            Some(_) => 7,
        };
        if number != 0 {
            return number;
        }
    }
    0
}

pub fn bring_to_six(table: &mut [u8], scratch: &mut [u8], a: i32, b: i32, m: u8) -> u8 {
    if !fits(table.len()) || scratch.len() != table.len() {
        return 1;
    }
    let number = request(table, scratch, reduce(Point { a, b, m }));
    scratch.fill(255);
    number
}

fn request(table: &mut [u8], scratch: &mut [u8], p: Point) -> u8 {
    let Some(free) = in_order(table) else { return 1 };
    let mut flat = Flat { bytes: table, free };
    let Some((_, v)) = Some(p).filter(|p| in_range(*p)).and_then(|p| flat.find(p)) else { return 3 };
    match v.d {
        0 => return 14,
        6 => return 0,
        _ if v.n == 12 => return 5,
        _ => {}
    }
    scratch.copy_from_slice(flat.bytes);
    let number = bring(&mut flat, p, v);
    if number != 0 {
        table.copy_from_slice(scratch);
    }
    number
}
