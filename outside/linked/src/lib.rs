//! The library as a caller of the differential tests: the C calls on slices, nothing added.

use differential::caller::{Caller, Numbers, Points, Row};
use flaskbloom::slices;

pub struct Library;

impl Caller for Library {
    fn normalise(&self, a: i32, b: i32, m: u8) -> (u8, [i32; 3]) {
        slices::normalise(a, b, m)
    }
    fn star(&self, a: i32, b: i32, m: u8, d: u8, k: u8, n: u8) -> (u8, Points) {
        slices::star(a, b, m, d, k, n)
    }
    fn base(&self, table: &mut [u8], centres: &[i32]) -> (u8, u64) {
        slices::base(table, centres)
    }
    fn subdivide(&self, table: &mut [u8], a: i32, b: i32, m: u8) -> u8 {
        slices::subdivide(table, a, b, m)
    }
    fn subdivide_all(&self, table: &mut [u8], points: &[i32]) -> (u8, u64) {
        slices::subdivide_all(table, points)
    }
    fn bring_to_six(&self, table: &mut [u8], scratch: &mut [u8], a: i32, b: i32, m: u8) -> u8 {
        slices::bring_to_six(table, scratch, a, b, m)
    }
    fn refine_disc(&self, table: &mut [u8], scratch: &mut [u8], disc: [f64; 3], passes: u8, level: u8) -> (u8, u64) {
        slices::refine_disc(table, scratch, disc, passes, level)
    }
    fn refine_line(&self, table: &mut [u8], scratch: &mut [u8], line: [f64; 3], passes: u8, level: u8) -> (u8, u64) {
        slices::refine_line(table, scratch, line, passes, level)
    }
    fn neighbours(&self, table: &[u8], a: i32, b: i32, m: u8) -> (u8, Points) {
        slices::neighbours(table, a, b, m)
    }
    fn faces(&self, table: &[u8], a: i32, b: i32, m: u8) -> (u8, Points) {
        slices::faces(table, a, b, m)
    }
    fn neighbours_all(&self, table: &[u8], points: &[i32], answers: &mut [i32]) -> u8 {
        slices::neighbours_all(table, points, answers)
    }
    fn faces_all(&self, table: &[u8], points: &[i32], answers: &mut [i32]) -> u8 {
        slices::faces_all(table, points, answers)
    }
    fn write_full(&self, table: &[u8], out: &mut [u8]) -> (u8, u64) {
        slices::write_full(table, out)
    }
    fn write_reduced(&self, table: &[u8], out: &mut [u8]) -> (u8, u64) {
        slices::write_reduced(table, out)
    }
    fn write_off(&self, table: &[u8], out: &mut [u8]) -> (u8, u64) {
        slices::write_off(table, out)
    }
    fn write_obj(&self, table: &[u8], out: &mut [u8]) -> (u8, u64) {
        slices::write_obj(table, out)
    }
    fn read_full(&self, table: &mut [u8], scratch: &mut [u8], file: &[u8]) -> (u8, u64) {
        slices::read_full(table, scratch, file)
    }
    fn read_reduced(&self, table: &mut [u8], scratch: &mut [u8], file: &[u8]) -> (u8, u64) {
        slices::read_reduced(table, scratch, file)
    }
    fn census(&self, input: &[u8], table: &mut [u8], scratch: &mut [u8], out: &mut [u8]) -> (u8, u64) {
        slices::census(input, table, scratch, out)
    }
    fn counts(&self, table: &[u8]) -> (u8, Numbers) {
        slices::counts(table)
    }
    fn findings(&self, table: &[u8], list: &[u8], out: &mut [u8]) -> (u8, [u64; 2]) {
        slices::findings(table, list, out)
    }
    fn salvage(&self, table: &mut [u8], scratch: &mut [u8], file: &[u8], out: &mut [u8], changes: &mut [u8]) -> (u8, [u64; 2]) {
        slices::salvage(table, scratch, file, out, changes)
    }
    fn vertex(&self, centres: &[i32], pairs: &[i32], a: i32, b: i32, m: u8) -> (u8, Row) {
        slices::vertex(centres, pairs, a, b, m)
    }
    fn vertices(&self, centres: &[i32], pairs: &[i32], points: &[i32], records: &mut [i32]) -> u8 {
        slices::vertices(centres, pairs, points, records)
    }
}
