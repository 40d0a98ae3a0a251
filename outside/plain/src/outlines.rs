//! Refining round an outline: a pass's list in a vector, and the table that it began with in scratch.

use crate::lattice::{rows, sum, Point, Star};
use crate::mesh::{records, subdivide_in, Flat};
use crate::table::{fits, in_order};

#[derive(Clone, Copy)]
enum Outline {
    Disc([f64; 3]),
    Line([f64; 3]),
}

const ROOT: f64 = 1.7320508075688772;
const OVER: [f64; 8] = [2.0, 6.0, 18.0, 54.0, 162.0, 486.0, 1458.0, 4374.0];

impl Outline {
    fn fits(self) -> bool {
        let within = |numbers: [f64; 3]| numbers.iter().all(|x| (-1000.0..=1000.0).contains(x));
        match self {
            Outline::Disc(numbers) => within(numbers) && numbers[2] > 0.0,
            Outline::Line(numbers) => within(numbers),
        }
    }

    #[inline]
    fn below(self, p: Point) -> bool {
        let over = OVER[p.m as usize];
        let x = (2 * p.a + p.b) as f64 / over;
        let y = p.b as f64 * ROOT / over;
        let value = match self {
            Outline::Disc([u, v, r]) => {
                let (dx, dy) = (x - u, y - v);
                dx * dx + dy * dy - r * r
            }
            Outline::Line([p, q, s]) => p * x + q * y - s,
        };
        value < 0.0
    }

    #[inline]
    fn wants(self, level: u8, p: Point, s: Star) -> bool {
        if s.d != 6 || s.n >= level {
            return false;
        }
        let here = self.below(p);
        rows(s).iter().any(|row| self.below(sum(p, row.adjacent, s.n)) != here)
    }
}

/// One pass; refused, the table and its free slots are as they were.
fn pass(flat: &mut Flat, scratch: &mut [u8], outline: Outline, level: u8) -> u8 {
    let mut list: Vec<Point> = records(flat.bytes).filter(|(p, s)| outline.wants(level, *p, *s)).map(|(p, _)| p).collect();
    list.sort_unstable_by_key(|p| (p.m, p.a, p.b));
    scratch.copy_from_slice(flat.bytes);
    let free = flat.free;
    for p in list {
        let number = subdivide_in(flat, p);
        if number != 0 {
            flat.bytes.copy_from_slice(scratch);
            flat.free = free;
            return number;
        }
    }
    0
}

fn request(table: &mut [u8], scratch: &mut [u8], outline: Outline, passes: u8, level: u8) -> (u8, u64) {
    let Some(free) = in_order(table) else { return (1, 0) };
    if !outline.fits() || passes > 12 || level > 12 {
        return (17, 0);
    }
    let mut flat = Flat { bytes: table, free };
    for done in 0..passes {
        let number = pass(&mut flat, scratch, outline, level);
        if number != 0 {
            return (number, done as u64);
        }
    }
    (0, passes as u64)
}

fn refine(table: &mut [u8], scratch: &mut [u8], outline: Outline, passes: u8, level: u8) -> (u8, u64) {
    if !fits(table.len()) || scratch.len() != table.len() {
        return (1, 0);
    }
    let outcome = request(table, scratch, outline, passes, level);
    scratch.fill(255);
    outcome
}

/// Round the disc of this centre and radius: the number, and how many passes were made.
pub fn refine_disc(table: &mut [u8], scratch: &mut [u8], disc: [f64; 3], passes: u8, level: u8) -> (u8, u64) {
    refine(table, scratch, Outline::Disc(disc), passes, level)
}

/// Along the line p*x + q*y = s.
pub fn refine_line(table: &mut [u8], scratch: &mut [u8], line: [f64; 3], passes: u8, level: u8) -> (u8, u64) {
    refine(table, scratch, Outline::Line(line), passes, level)
}
