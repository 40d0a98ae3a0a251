//! The C calls on slices, number and value as they come: safe, since slices are valid for their lengths and do not overlap.

use crate::raw;

/// A count and six points as a, b, m.
pub type Points = [i32; 19];
/// V, E, F, and the vertices of degree 0, 3, 4, 5, 6.
pub type Numbers = [u32; 8];
/// A record: a, b, m, d, k, n.
pub type Row = [i32; 6];

/// What out-parameters hold before a call: nothing that a call gives, so one left unset is seen.
const UNSET: u64 = u64::MAX;
const NO_POINTS: Points = [i32::MIN; 19];
const NO_NUMBERS: Numbers = [u32::MAX; 8];
const NO_ROW: Row = [i32::MIN; 6];

pub fn normalise(a: i32, b: i32, m: u8) -> (u8, [i32; 3]) {
    let mut point = [i32::MIN; 3];
    (unsafe { raw::fb_normalise(a, b, m, point.as_mut_ptr()) }, point)
}

pub fn star(a: i32, b: i32, m: u8, d: u8, k: u8, n: u8) -> (u8, Points) {
    let mut points = NO_POINTS;
    (unsafe { raw::fb_star(a, b, m, d, k, n, points.as_mut_ptr()) }, points)
}

pub fn base(table: &mut [u8], centres: &[i32]) -> (u8, u64) {
    let mut place = UNSET;
    (unsafe { raw::fb_base(table.as_mut_ptr(), table.len(), centres.as_ptr(), centres.len(), &mut place) }, place)
}

pub fn subdivide(table: &mut [u8], a: i32, b: i32, m: u8) -> u8 {
    unsafe { raw::fb_subdivide(table.as_mut_ptr(), table.len(), a, b, m) }
}

pub fn subdivide_all(table: &mut [u8], points: &[i32]) -> (u8, u64) {
    let mut done = UNSET;
    (unsafe { raw::fb_subdivide_all(table.as_mut_ptr(), table.len(), points.as_ptr(), points.len(), &mut done) }, done)
}

pub fn bring_to_six(table: &mut [u8], scratch: &mut [u8], a: i32, b: i32, m: u8) -> u8 {
    unsafe { raw::fb_bring_to_six(table.as_mut_ptr(), table.len(), scratch.as_mut_ptr(), scratch.len(), a, b, m) }
}

/// How many passes were made.
pub fn refine_disc(table: &mut [u8], scratch: &mut [u8], [x, y, radius]: [f64; 3], passes: u8, level: u8) -> (u8, u64) {
    let mut done = UNSET;
    let (t, l) = (table.as_mut_ptr(), scratch.as_mut_ptr());
    (unsafe { raw::fb_refine_disc(t, table.len(), l, scratch.len(), x, y, radius, passes, level, &mut done) }, done)
}

/// How many passes were made.
pub fn refine_line(table: &mut [u8], scratch: &mut [u8], [p, q, s]: [f64; 3], passes: u8, level: u8) -> (u8, u64) {
    let mut done = UNSET;
    let (t, l) = (table.as_mut_ptr(), scratch.as_mut_ptr());
    (unsafe { raw::fb_refine_line(t, table.len(), l, scratch.len(), p, q, s, passes, level, &mut done) }, done)
}

pub fn neighbours(table: &[u8], a: i32, b: i32, m: u8) -> (u8, Points) {
    let mut points = NO_POINTS;
    (unsafe { raw::fb_neighbours(table.as_ptr(), table.len(), a, b, m, points.as_mut_ptr()) }, points)
}

pub fn faces(table: &[u8], a: i32, b: i32, m: u8) -> (u8, Points) {
    let mut points = NO_POINTS;
    (unsafe { raw::fb_faces(table.as_ptr(), table.len(), a, b, m, points.as_mut_ptr()) }, points)
}

pub fn neighbours_all(table: &[u8], points: &[i32], answers: &mut [i32]) -> u8 {
    let (out, room) = (answers.as_mut_ptr(), answers.len());
    unsafe { raw::fb_neighbours_all(table.as_ptr(), table.len(), points.as_ptr(), points.len(), out, room) }
}

pub fn faces_all(table: &[u8], points: &[i32], answers: &mut [i32]) -> u8 {
    let (out, room) = (answers.as_mut_ptr(), answers.len());
    unsafe { raw::fb_faces_all(table.as_ptr(), table.len(), points.as_ptr(), points.len(), out, room) }
}

pub fn vertex(centres: &[i32], pairs: &[i32], a: i32, b: i32, m: u8) -> (u8, Row) {
    let mut record = NO_ROW;
    let (c, p) = (centres.as_ptr(), pairs.as_ptr());
    (unsafe { raw::fb_vertex(c, centres.len(), p, pairs.len(), a, b, m, record.as_mut_ptr()) }, record)
}

pub fn vertices(centres: &[i32], pairs: &[i32], points: &[i32], records: &mut [i32]) -> u8 {
    let (c, p, q) = (centres.as_ptr(), pairs.as_ptr(), points.as_ptr());
    let (out, room) = (records.as_mut_ptr(), records.len());
    unsafe { raw::fb_vertices(c, centres.len(), p, pairs.len(), q, points.len(), out, room) }
}

pub fn write_full(table: &[u8], out: &mut [u8]) -> (u8, u64) {
    let mut written = UNSET;
    (unsafe { raw::fb_write_full(table.as_ptr(), table.len(), out.as_mut_ptr(), out.len(), &mut written) }, written)
}

pub fn write_reduced(table: &[u8], out: &mut [u8]) -> (u8, u64) {
    let mut written = UNSET;
    (unsafe { raw::fb_write_reduced(table.as_ptr(), table.len(), out.as_mut_ptr(), out.len(), &mut written) }, written)
}

pub fn write_off(table: &[u8], out: &mut [u8]) -> (u8, u64) {
    let mut written = UNSET;
    (unsafe { raw::fb_write_off(table.as_ptr(), table.len(), out.as_mut_ptr(), out.len(), &mut written) }, written)
}

pub fn write_obj(table: &[u8], out: &mut [u8]) -> (u8, u64) {
    let mut written = UNSET;
    (unsafe { raw::fb_write_obj(table.as_ptr(), table.len(), out.as_mut_ptr(), out.len(), &mut written) }, written)
}

pub fn read_full(table: &mut [u8], scratch: &mut [u8], file: &[u8]) -> (u8, u64) {
    let mut line = UNSET;
    let (t, s) = (table.as_mut_ptr(), scratch.as_mut_ptr());
    (unsafe { raw::fb_read_full(t, table.len(), s, scratch.len(), file.as_ptr(), file.len(), &mut line) }, line)
}

pub fn read_reduced(table: &mut [u8], scratch: &mut [u8], file: &[u8]) -> (u8, u64) {
    let mut line = UNSET;
    let (t, s) = (table.as_mut_ptr(), scratch.as_mut_ptr());
    (unsafe { raw::fb_read_reduced(t, table.len(), s, scratch.len(), file.as_ptr(), file.len(), &mut line) }, line)
}

pub fn census(input: &[u8], table: &mut [u8], scratch: &mut [u8], out: &mut [u8]) -> (u8, u64) {
    let mut written = UNSET;
    let (t, s) = (table.as_mut_ptr(), scratch.as_mut_ptr());
    let number =
        unsafe { raw::fb_census(input.as_ptr(), input.len(), t, table.len(), s, scratch.len(), out.as_mut_ptr(), out.len(), &mut written) };
    (number, written)
}

pub fn counts(table: &[u8]) -> (u8, Numbers) {
    let mut numbers = NO_NUMBERS;
    (unsafe { raw::fb_counts(table.as_ptr(), table.len(), numbers.as_mut_ptr()) }, numbers)
}

/// The line at fault and the bytes written.
pub fn findings(table: &[u8], list: &[u8], out: &mut [u8]) -> (u8, [u64; 2]) {
    let (mut line, mut written) = (UNSET, UNSET);
    let (t, l, o) = (table.as_ptr(), list.as_ptr(), out.as_mut_ptr());
    let number = unsafe { raw::fb_findings(t, table.len(), l, list.len(), o, out.len(), &mut line, &mut written) };
    (number, [line, written])
}

/// The bytes of both outputs.
pub fn salvage(table: &mut [u8], scratch: &mut [u8], file: &[u8], out: &mut [u8], changes: &mut [u8]) -> (u8, [u64; 2]) {
    let (mut written, mut changed) = (UNSET, UNSET);
    let (t, s, f) = (table.as_mut_ptr(), scratch.as_mut_ptr(), file.as_ptr());
    let (o, c) = ((out.as_mut_ptr(), out.len()), (changes.as_mut_ptr(), changes.len()));
    let number =
        unsafe { raw::fb_salvage(t, table.len(), s, scratch.len(), f, file.len(), o.0, o.1, c.0, c.1, &mut written, &mut changed) };
    (number, [written, changed])
}
