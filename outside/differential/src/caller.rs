//! The calls of the C interface as a trait: each gives its number and its value (points, place, line, count, passes made, bytes written, counts or a
//! record; of findings line and bytes, of salvage the bytes of both outputs).

use mesher::slips::{self, Slip};

pub type Points = [i32; 19];
pub type Numbers = [u32; 8];
pub type Row = [i32; 6];

pub trait Caller: Sync {
    fn normalise(&self, a: i32, b: i32, m: u8) -> (u8, [i32; 3]);
    fn star(&self, a: i32, b: i32, m: u8, d: u8, k: u8, n: u8) -> (u8, Points);
    fn base(&self, table: &mut [u8], centres: &[i32]) -> (u8, u64);
    fn subdivide(&self, table: &mut [u8], a: i32, b: i32, m: u8) -> u8;
    fn subdivide_all(&self, table: &mut [u8], points: &[i32]) -> (u8, u64);
    fn bring_to_six(&self, table: &mut [u8], scratch: &mut [u8], a: i32, b: i32, m: u8) -> u8;
    fn refine_disc(&self, table: &mut [u8], scratch: &mut [u8], disc: [f64; 3], passes: u8, level: u8) -> (u8, u64);
    fn refine_line(&self, table: &mut [u8], scratch: &mut [u8], line: [f64; 3], passes: u8, level: u8) -> (u8, u64);
    fn neighbours(&self, table: &[u8], a: i32, b: i32, m: u8) -> (u8, Points);
    fn faces(&self, table: &[u8], a: i32, b: i32, m: u8) -> (u8, Points);
    fn neighbours_all(&self, table: &[u8], points: &[i32], answers: &mut [i32]) -> u8;
    fn faces_all(&self, table: &[u8], points: &[i32], answers: &mut [i32]) -> u8;
    fn write_full(&self, table: &[u8], out: &mut [u8]) -> (u8, u64);
    fn write_reduced(&self, table: &[u8], out: &mut [u8]) -> (u8, u64);
    fn write_off(&self, table: &[u8], out: &mut [u8]) -> (u8, u64);
    fn write_obj(&self, table: &[u8], out: &mut [u8]) -> (u8, u64);
    fn read_full(&self, table: &mut [u8], scratch: &mut [u8], file: &[u8]) -> (u8, u64);
    fn read_reduced(&self, table: &mut [u8], scratch: &mut [u8], file: &[u8]) -> (u8, u64);
    fn census(&self, input: &[u8], table: &mut [u8], scratch: &mut [u8], out: &mut [u8]) -> (u8, u64);
    fn counts(&self, table: &[u8]) -> (u8, Numbers);
    fn findings(&self, table: &[u8], list: &[u8], out: &mut [u8]) -> (u8, [u64; 2]);
    fn salvage(&self, table: &mut [u8], scratch: &mut [u8], file: &[u8], out: &mut [u8], changes: &mut [u8]) -> (u8, [u64; 2]);
    fn vertex(&self, centres: &[i32], pairs: &[i32], a: i32, b: i32, m: u8) -> (u8, Row);
    fn vertices(&self, centres: &[i32], pairs: &[i32], points: &[i32], records: &mut [i32]) -> u8;
}

thread_local! {
    static WHY: std::cell::Cell<&'static str> = const { std::cell::Cell::new("") };
    static INSIDE: std::cell::RefCell<Vec<(u8, &'static str)>> = const { std::cell::RefCell::new(Vec::new()) };
}

/// Why the mesher's last answer on this thread is what it is.
pub fn why() -> &'static str {
    WHY.with(|why| why.get())
}

/// The number and the reason of each of the answers that its last answer holds, where it is one to many points; of salvage what became of each line.
pub fn inside() -> Vec<(u8, &'static str)> {
    INSIDE.with(|inside| inside.take())
}

fn told<T>(answer: mesher::Answer<T>) -> (u8, T) {
    WHY.with(|why| why.set(answer.why));
    (answer.number, answer.value)
}

fn told_all(answer: mesher::Answer<Vec<(u8, &'static str)>>) -> u8 {
    let (number, all) = told(answer);
    INSIDE.with(|inside| inside.replace(all));
    number
}

/// The separately written mesher: the reference.
pub struct Mesher;

impl Caller for Mesher {
    fn normalise(&self, a: i32, b: i32, m: u8) -> (u8, [i32; 3]) {
        told(mesher::normalise(a, b, m))
    }
    fn star(&self, a: i32, b: i32, m: u8, d: u8, k: u8, n: u8) -> (u8, Points) {
        told(mesher::star(a, b, m, d, k, n))
    }
    fn base(&self, table: &mut [u8], centres: &[i32]) -> (u8, u64) {
        told(mesher::base(table, centres))
    }
    fn subdivide(&self, table: &mut [u8], a: i32, b: i32, m: u8) -> u8 {
        told(mesher::subdivide(table, a, b, m)).0
    }
    fn subdivide_all(&self, table: &mut [u8], points: &[i32]) -> (u8, u64) {
        told(mesher::subdivide_all(table, points))
    }
    fn bring_to_six(&self, table: &mut [u8], scratch: &mut [u8], a: i32, b: i32, m: u8) -> u8 {
        told(mesher::bring_to_six(table, scratch, a, b, m)).0
    }
    fn refine_disc(&self, table: &mut [u8], scratch: &mut [u8], disc: [f64; 3], passes: u8, level: u8) -> (u8, u64) {
        told(mesher::refine_disc(table, scratch, disc, passes, level))
    }
    fn refine_line(&self, table: &mut [u8], scratch: &mut [u8], line: [f64; 3], passes: u8, level: u8) -> (u8, u64) {
        told(mesher::refine_line(table, scratch, line, passes, level))
    }
    fn neighbours(&self, table: &[u8], a: i32, b: i32, m: u8) -> (u8, Points) {
        told(mesher::neighbours(table, a, b, m))
    }
    fn faces(&self, table: &[u8], a: i32, b: i32, m: u8) -> (u8, Points) {
        told(mesher::faces(table, a, b, m))
    }
    fn neighbours_all(&self, table: &[u8], points: &[i32], answers: &mut [i32]) -> u8 {
        told_all(mesher::neighbours_all(table, points, answers))
    }
    fn faces_all(&self, table: &[u8], points: &[i32], answers: &mut [i32]) -> u8 {
        told_all(mesher::faces_all(table, points, answers))
    }
    fn write_full(&self, table: &[u8], out: &mut [u8]) -> (u8, u64) {
        told(mesher::write_full(table, out))
    }
    fn write_reduced(&self, table: &[u8], out: &mut [u8]) -> (u8, u64) {
        told(mesher::write_reduced(table, out))
    }
    fn write_off(&self, table: &[u8], out: &mut [u8]) -> (u8, u64) {
        told(mesher::write_off(table, out))
    }
    fn write_obj(&self, table: &[u8], out: &mut [u8]) -> (u8, u64) {
        told(mesher::write_obj(table, out))
    }
    fn read_full(&self, table: &mut [u8], scratch: &mut [u8], file: &[u8]) -> (u8, u64) {
        told(mesher::read_full(table, scratch, file))
    }
    fn read_reduced(&self, table: &mut [u8], scratch: &mut [u8], file: &[u8]) -> (u8, u64) {
        told(mesher::read_reduced(table, scratch, file))
    }
    fn census(&self, input: &[u8], table: &mut [u8], scratch: &mut [u8], out: &mut [u8]) -> (u8, u64) {
        told(mesher::census(input, table, scratch, out))
    }
    fn counts(&self, table: &[u8]) -> (u8, Numbers) {
        told(mesher::counts(table))
    }

    fn findings(&self, table: &[u8], list: &[u8], out: &mut [u8]) -> (u8, [u64; 2]) {
        told(mesher::findings(table, list, out))
    }

    fn salvage(&self, table: &mut [u8], scratch: &mut [u8], file: &[u8], out: &mut [u8], changes: &mut [u8]) -> (u8, [u64; 2]) {
        let (number, (bytes, lines)) = told(mesher::salvage(table, scratch, file, out, changes));
        INSIDE.with(|inside| inside.replace(lines.into_iter().map(|line| (0, line)).collect()));
        (number, bytes)
    }
    fn vertex(&self, centres: &[i32], pairs: &[i32], a: i32, b: i32, m: u8) -> (u8, Row) {
        told(mesher::vertex(centres, pairs, a, b, m))
    }
    fn vertices(&self, centres: &[i32], pairs: &[i32], points: &[i32], records: &mut [i32]) -> u8 {
        told_all(mesher::vertices(centres, pairs, points, records))
    }
}

/// The mesher with one deliberate mistake.
pub struct Slipped(pub Slip);

impl Caller for Slipped {
    fn normalise(&self, a: i32, b: i32, m: u8) -> (u8, [i32; 3]) {
        slips::with(self.0, || Mesher.normalise(a, b, m))
    }
    fn star(&self, a: i32, b: i32, m: u8, d: u8, k: u8, n: u8) -> (u8, Points) {
        slips::with(self.0, || Mesher.star(a, b, m, d, k, n))
    }
    fn base(&self, table: &mut [u8], centres: &[i32]) -> (u8, u64) {
        slips::with(self.0, || Mesher.base(table, centres))
    }
    fn subdivide(&self, table: &mut [u8], a: i32, b: i32, m: u8) -> u8 {
        slips::with(self.0, || Mesher.subdivide(table, a, b, m))
    }
    fn subdivide_all(&self, table: &mut [u8], points: &[i32]) -> (u8, u64) {
        slips::with(self.0, || Mesher.subdivide_all(table, points))
    }
    fn bring_to_six(&self, table: &mut [u8], scratch: &mut [u8], a: i32, b: i32, m: u8) -> u8 {
        slips::with(self.0, || Mesher.bring_to_six(table, scratch, a, b, m))
    }
    fn refine_disc(&self, table: &mut [u8], scratch: &mut [u8], disc: [f64; 3], passes: u8, level: u8) -> (u8, u64) {
        slips::with(self.0, || Mesher.refine_disc(table, scratch, disc, passes, level))
    }
    fn refine_line(&self, table: &mut [u8], scratch: &mut [u8], line: [f64; 3], passes: u8, level: u8) -> (u8, u64) {
        slips::with(self.0, || Mesher.refine_line(table, scratch, line, passes, level))
    }
    fn neighbours(&self, table: &[u8], a: i32, b: i32, m: u8) -> (u8, Points) {
        slips::with(self.0, || Mesher.neighbours(table, a, b, m))
    }
    fn faces(&self, table: &[u8], a: i32, b: i32, m: u8) -> (u8, Points) {
        slips::with(self.0, || Mesher.faces(table, a, b, m))
    }
    fn neighbours_all(&self, table: &[u8], points: &[i32], answers: &mut [i32]) -> u8 {
        slips::with(self.0, || Mesher.neighbours_all(table, points, answers))
    }
    fn faces_all(&self, table: &[u8], points: &[i32], answers: &mut [i32]) -> u8 {
        slips::with(self.0, || Mesher.faces_all(table, points, answers))
    }
    fn write_full(&self, table: &[u8], out: &mut [u8]) -> (u8, u64) {
        slips::with(self.0, || Mesher.write_full(table, out))
    }
    fn write_reduced(&self, table: &[u8], out: &mut [u8]) -> (u8, u64) {
        slips::with(self.0, || Mesher.write_reduced(table, out))
    }
    fn write_off(&self, table: &[u8], out: &mut [u8]) -> (u8, u64) {
        slips::with(self.0, || Mesher.write_off(table, out))
    }
    fn write_obj(&self, table: &[u8], out: &mut [u8]) -> (u8, u64) {
        slips::with(self.0, || Mesher.write_obj(table, out))
    }
    fn read_full(&self, table: &mut [u8], scratch: &mut [u8], file: &[u8]) -> (u8, u64) {
        slips::with(self.0, || Mesher.read_full(table, scratch, file))
    }
    fn read_reduced(&self, table: &mut [u8], scratch: &mut [u8], file: &[u8]) -> (u8, u64) {
        slips::with(self.0, || Mesher.read_reduced(table, scratch, file))
    }
    fn census(&self, input: &[u8], table: &mut [u8], scratch: &mut [u8], out: &mut [u8]) -> (u8, u64) {
        slips::with(self.0, || Mesher.census(input, table, scratch, out))
    }
    fn counts(&self, table: &[u8]) -> (u8, Numbers) {
        slips::with(self.0, || Mesher.counts(table))
    }

    fn findings(&self, table: &[u8], list: &[u8], out: &mut [u8]) -> (u8, [u64; 2]) {
        slips::with(self.0, || Mesher.findings(table, list, out))
    }

    fn salvage(&self, table: &mut [u8], scratch: &mut [u8], file: &[u8], out: &mut [u8], changes: &mut [u8]) -> (u8, [u64; 2]) {
        slips::with(self.0, || Mesher.salvage(table, scratch, file, out, changes))
    }
    fn vertex(&self, centres: &[i32], pairs: &[i32], a: i32, b: i32, m: u8) -> (u8, Row) {
        slips::with(self.0, || Mesher.vertex(centres, pairs, a, b, m))
    }
    fn vertices(&self, centres: &[i32], pairs: &[i32], points: &[i32], records: &mut [i32]) -> u8 {
        slips::with(self.0, || Mesher.vertices(centres, pairs, points, records))
    }
}

/// The plain fast one.
pub struct Plain;

impl Caller for Plain {
    fn normalise(&self, a: i32, b: i32, m: u8) -> (u8, [i32; 3]) {
        (0, plain::normalise(a, b, m))
    }
    fn star(&self, a: i32, b: i32, m: u8, d: u8, k: u8, n: u8) -> (u8, Points) {
        plain::star(a, b, m, d, k, n)
    }
    fn base(&self, table: &mut [u8], centres: &[i32]) -> (u8, u64) {
        plain::base(table, centres)
    }
    fn subdivide(&self, table: &mut [u8], a: i32, b: i32, m: u8) -> u8 {
        plain::subdivide(table, a, b, m)
    }
    fn subdivide_all(&self, table: &mut [u8], points: &[i32]) -> (u8, u64) {
        plain::subdivide_all(table, points)
    }
    fn bring_to_six(&self, table: &mut [u8], scratch: &mut [u8], a: i32, b: i32, m: u8) -> u8 {
        plain::bring_to_six(table, scratch, a, b, m)
    }
    fn refine_disc(&self, table: &mut [u8], scratch: &mut [u8], disc: [f64; 3], passes: u8, level: u8) -> (u8, u64) {
        plain::refine_disc(table, scratch, disc, passes, level)
    }
    fn refine_line(&self, table: &mut [u8], scratch: &mut [u8], line: [f64; 3], passes: u8, level: u8) -> (u8, u64) {
        plain::refine_line(table, scratch, line, passes, level)
    }
    fn neighbours(&self, table: &[u8], a: i32, b: i32, m: u8) -> (u8, Points) {
        plain::neighbours(table, a, b, m)
    }
    fn faces(&self, table: &[u8], a: i32, b: i32, m: u8) -> (u8, Points) {
        plain::faces(table, a, b, m)
    }
    fn neighbours_all(&self, table: &[u8], points: &[i32], answers: &mut [i32]) -> u8 {
        plain::neighbours_all(table, points, answers)
    }
    fn faces_all(&self, table: &[u8], points: &[i32], answers: &mut [i32]) -> u8 {
        plain::faces_all(table, points, answers)
    }
    fn write_full(&self, table: &[u8], out: &mut [u8]) -> (u8, u64) {
        plain::write_full(table, out)
    }
    fn write_reduced(&self, table: &[u8], out: &mut [u8]) -> (u8, u64) {
        plain::write_reduced(table, out)
    }
    fn write_off(&self, table: &[u8], out: &mut [u8]) -> (u8, u64) {
        plain::write_off(table, out)
    }
    fn write_obj(&self, table: &[u8], out: &mut [u8]) -> (u8, u64) {
        plain::write_obj(table, out)
    }
    fn read_full(&self, table: &mut [u8], scratch: &mut [u8], file: &[u8]) -> (u8, u64) {
        plain::read_full(table, scratch, file)
    }
    fn read_reduced(&self, table: &mut [u8], scratch: &mut [u8], file: &[u8]) -> (u8, u64) {
        plain::read_reduced(table, scratch, file)
    }
    fn census(&self, input: &[u8], table: &mut [u8], scratch: &mut [u8], out: &mut [u8]) -> (u8, u64) {
        plain::census(input, table, scratch, out)
    }
    fn counts(&self, table: &[u8]) -> (u8, Numbers) {
        plain::counts(table)
    }

    fn findings(&self, table: &[u8], list: &[u8], out: &mut [u8]) -> (u8, [u64; 2]) {
        plain::findings(table, list, out)
    }

    fn salvage(&self, table: &mut [u8], scratch: &mut [u8], file: &[u8], out: &mut [u8], changes: &mut [u8]) -> (u8, [u64; 2]) {
        plain::salvage(table, scratch, file, out, changes)
    }
    fn vertex(&self, centres: &[i32], pairs: &[i32], a: i32, b: i32, m: u8) -> (u8, Row) {
        plain::vertex(centres, pairs, a, b, m)
    }
    fn vertices(&self, centres: &[i32], pairs: &[i32], points: &[i32], records: &mut [i32]) -> u8 {
        plain::vertices(centres, pairs, points, records)
    }
}
