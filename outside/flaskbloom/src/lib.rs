//! Flaskbloom from Rust: exact diamond-kite meshes in a flat table, by the proved library.
//!
//! ```
//! use flaskbloom::{Point, Table};
//!
//! let mut sheet = Table::base(64, &[[0, 0], [1, 1], [2, -1]])?;
//! sheet.subdivide(Point::new(1, 0, 0))?;
//! assert_eq!(sheet.records().count(), 22);
//! let file = sheet.write_reduced()?;
//! assert_eq!(Table::read_reduced(64, &file)?.write_reduced()?, file);
//! # Ok::<(), Box<dyn std::error::Error>>(())
//! ```
//!
//! `Table` owns its slots; `Refusal` is the documents' numbers; `normalise` and `star` need no mesh, `vertex` and `vertices` no table; `census` is the
//! program's text.
//! `Table::bring_to_six` makes a vertex of any degree ready to be subdivided, by the subdivisions that this asks for; `Table::refine` refines round an
//! `Outline`.
//! `Table::salvage` mends an old file that the readers refuse.
//! Every call but `normalise`, `star` and the reading of fields first tests the whole table, in time linear in its slots: to subdivide
//! many points use `subdivide_all`, which tests it once; to ask of many, `neighbours_all`, `opposites_all` and `faces_all`. `Table::counts` has
//! the census's numbers of a table of any size.

pub mod raw;
pub mod slices;

use std::fmt;

/// A point [a, b, m]: (a + bw)/3^m, where w turns by 60 degrees. Any spelling will do in a request.
#[derive(Clone, Copy, PartialEq, Eq, Hash, Debug)]
pub struct Point {
    pub a: i32,
    pub b: i32,
    pub m: u8,
}

impl Point {
    pub fn new(a: i32, b: i32, m: u8) -> Point {
        Point { a, b, m }
    }
}

/// A vertex: its point, and degree, orientation and level of its star. Degree 0 is a boundary vertex.
#[derive(Clone, Copy, PartialEq, Eq, Hash, Debug)]
pub struct Record {
    pub point: Point,
    pub degree: u8,
    pub orientation: u8,
    pub level: u8,
}

/// What a mesh is refined round: a disc, or the line p*x + q*y = s, in sides of a hexagon. Its numbers are at most 1,000 either way, a radius above 0.
#[derive(Clone, Copy, PartialEq, Debug)]
pub enum Outline {
    Disc { x: f64, y: f64, radius: f64 },
    Line { p: f64, q: f64, s: f64 },
}

/// Why a call was refused: the numbers of document 01's table, and document 02's 15, 16, 17, 20 and 21. 6 is unused.
#[derive(Clone, Copy, PartialEq, Eq, Hash, Debug)]
#[repr(u8)]
pub enum Refusal {
    NotInOrder = 1,
    BadCentre = 2,
    NoRecord = 3,
    NotDegreeSix = 4,
    LevelTwelve = 5,
    Torn = 7,
    TooFewSlots = 8,
    BadLine = 9,
    NotAbove = 10,
    NotGrown = 11,
    RedundantKept = 12,
    OutputShort = 13,
    DegreeZero = 14,
    BadFinding = 15,
    AtTheRim = 16,
    BadOutline = 17,
    TwoRecords = 20,
    NotLeft = 21,
}

impl Refusal {
    const ALL: [Refusal; 18] = [
        Refusal::NotInOrder,
        Refusal::BadCentre,
        Refusal::NoRecord,
        Refusal::NotDegreeSix,
        Refusal::LevelTwelve,
        Refusal::Torn,
        Refusal::TooFewSlots,
        Refusal::BadLine,
        Refusal::NotAbove,
        Refusal::NotGrown,
        Refusal::RedundantKept,
        Refusal::OutputShort,
        Refusal::DegreeZero,
        Refusal::BadFinding,
        Refusal::AtTheRim,
        Refusal::BadOutline,
        Refusal::TwoRecords,
        Refusal::NotLeft,
    ];

    /// The documents' number.
    pub fn number(self) -> u8 {
        self as u8
    }

    /// The refusal of a number; nothing for 0, which is done.
    fn of(number: u8) -> Result<(), Refusal> {
        match number {
            0 => Ok(()),
            n => Err(*Refusal::ALL.iter().find(|refusal| refusal.number() == n).expect("a number of the documents")),
        }
    }
}

impl fmt::Display for Refusal {
    fn fmt(&self, f: &mut fmt::Formatter) -> fmt::Result {
        f.write_str(match self {
            Refusal::NotInOrder => "the table is not in order, or its length doesn't fit",
            Refusal::BadCentre => "the base list is empty, or a centre is out of range, of the wrong remainder, or repeated",
            Refusal::NoRecord => "no record at the point",
            Refusal::NotDegreeSix => "the degree isn't 6",
            Refusal::LevelTwelve => "the level is 12",
            Refusal::Torn => "the mesh is torn here",
            Refusal::TooFewSlots => "too few free slots",
            Refusal::BadLine => "a line is malformed or its record not valid",
            Refusal::NotAbove => "a line is not above the one before",
            Refusal::NotGrown => "not a grown mesh",
            Refusal::RedundantKept => "a redundant record was kept in a reduced file",
            Refusal::OutputShort => "the output is shorter than the file",
            Refusal::DegreeZero => "a boundary vertex has no star",
            Refusal::BadFinding => "a findings line is malformed",
            Refusal::AtTheRim => "what has to be subdivided comes to a boundary vertex",
            Refusal::BadOutline => "a number of the outline, its radius, the passes or the level is out of range",
            Refusal::TwoRecords => "one point with two different records",
            Refusal::NotLeft => "the list is not what subdivisions of this base leave",
        })
    }
}

impl std::error::Error for Refusal {}

/// A refusal with where: the place of the first bad centre, or the line at fault (first line 1); 0 where none is at fault.
#[derive(Clone, Copy, PartialEq, Eq, Hash, Debug)]
pub struct RefusedAt {
    pub refusal: Refusal,
    pub at: u64,
}

impl fmt::Display for RefusedAt {
    fn fmt(&self, f: &mut fmt::Formatter) -> fmt::Result {
        write!(f, "{} (at {})", self.refusal, self.at)
    }
}

impl std::error::Error for RefusedAt {}

fn placed((number, at): (u8, u64)) -> Result<(), RefusedAt> {
    Refusal::of(number).map_err(|refusal| RefusedAt { refusal, at })
}

/// Up to six points, in star order.
#[derive(Clone, Copy, PartialEq, Eq, Debug)]
pub struct Points {
    count: usize,
    list: [Point; 6],
}

impl std::ops::Deref for Points {
    type Target = [Point];
    fn deref(&self) -> &[Point] {
        &self.list[..self.count]
    }
}

/// How many vertices, edges and faces a mesh has.
#[derive(Clone, Copy, PartialEq, Eq, Hash, Debug)]
pub struct Counts {
    pub vertices: usize,
    /// Sides of faces, each once, at the rim too.
    pub edges: usize,
    pub faces: usize,
    /// Vertices of degree 0, 3, 4, 5, 6.
    pub degrees: [usize; 5],
}

/// What is left of an old file: its mesh, that mesh's full file, and what was changed.
#[derive(Clone, PartialEq, Eq, Debug)]
pub struct Salvaged {
    pub table: Table,
    pub file: Vec<u8>,
    /// A line a change: the number of the file's line (0 for a restored record), a tab, and `dropped`, `normalised`, `repeat` or `restored`.
    pub changes: Vec<u8>,
}

/// What a query answers: the points, or why not.
pub type Answer = Result<Points, Refusal>;

fn points((number, flat): (u8, slices::Points)) -> Answer {
    Refusal::of(number)?;
    let mut list = [Point::new(0, 0, 0); 6];
    for (p, at) in list.iter_mut().zip(flat[1..].chunks_exact(3)) {
        *p = Point::new(at[0], at[1], at[2] as u8);
    }
    Ok(Points { count: flat[0] as usize, list })
}

/// Points as the calls for many have them: a, b, m, a, b, m, ..
fn flat(list: &[Point]) -> Vec<i32> {
    list.iter().flat_map(|p| [p.a, p.b, p.m as i32]).collect()
}

/// The faces round a vertex: itself, adjacent j, opposite j, the next adjacent.
fn around(p: Point, adjacent: &[Point], opposite: &[Point]) -> Vec<[Point; 4]> {
    let here = normalise(p);
    let next = |j: usize| adjacent[(j + 1) % adjacent.len()];
    (0..adjacent.len()).map(|j| [here, adjacent[j], opposite[j], next(j)]).collect()
}

/// The normalised spelling of a point.
pub fn normalise(p: Point) -> Point {
    let (_, [a, b, m]) = slices::normalise(p.a, p.b, p.m);
    Point::new(a, b, m as u8)
}

/// The adjacent points of a record, without any mesh.
pub fn star(r: Record) -> Answer {
    points(slices::star(r.point.a, r.point.b, r.point.m, r.degree, r.orientation, r.level))
}

/// A subdivision: the vertex's point, and the level that it had.
#[derive(Clone, Copy, PartialEq, Eq, Hash, Debug)]
pub struct Division {
    pub point: Point,
    pub level: u8,
}

fn flat_divisions(list: &[Division]) -> Vec<i32> {
    list.iter().flat_map(|x| [x.point.a, x.point.b, x.point.m as i32, x.level as i32]).collect()
}

fn vertex_of([a, b, m, d, k, n]: slices::Row) -> Record {
    Record { point: Point::new(a, b, m as u8), degree: d as u8, orientation: k as u8, level: n as u8 }
}

/// The vertex at a point of the sheet that a base and these subdivisions make, in the order made: without any table.
pub fn vertex(centres: &[[i32; 2]], made: &[Division], p: Point) -> Result<Record, Refusal> {
    let (number, row) = slices::vertex(centres.as_flattened(), &flat_divisions(made), p.a, p.b, p.m);
    Refusal::of(number).map(|_| vertex_of(row))
}

/// What `vertex` answers for each point, with one judgement of the lists; nothing where there is no vertex.
pub fn vertices(centres: &[[i32; 2]], made: &[Division], list: &[Point]) -> Result<Vec<Option<Record>>, Refusal> {
    let mut out = vec![0; ROW * list.len()];
    Refusal::of(slices::vertices(centres.as_flattened(), &flat_divisions(made), &flat(list), &mut out))?;
    let vertex = |row: &[i32]| (row != [0; ROW]).then(|| vertex_of(std::array::from_fn(|i| row[i])));
    Ok(out.chunks_exact(ROW).map(vertex).collect())
}

/// What the census program writes for this input.
pub fn census(input: &[u8]) -> String {
    let (mut table, mut scratch, mut out) = (vec![255; CENSUS_SLOTS * SLOT], vec![255; CENSUS_SLOTS * SLOT], [0; 128]);
    let (_, written) = slices::census(input, &mut table, &mut scratch, &mut out);
    String::from_utf8_lossy(&out[..written as usize]).into_owned()
}

/// Bytes of a slot.
pub const SLOT: usize = 12;
/// The slots that the census program lends.
pub const CENSUS_SLOTS: usize = 5461;
/// The numbers of an answer among many: its number, then its points.
const ANSWER: usize = 20;
/// The numbers of a record.
const ROW: usize = 6;
/// The longest line of a file: two numerators of seven bytes, m and d of one, k and n of two, six ends.
const LINE: usize = 26;

/// The most that is listed of a line of an old file: two lines of twenty digits, a tab, a word of ten letters and one of six, and a line feed.
const CHANGES: usize = 60;
/// What is listed of a record that is restored.
const RESTORED: usize = 11;

/// A mesh in its table of 16 to 65,536 slots.
#[derive(Clone, PartialEq, Eq)]
pub struct Table {
    bytes: Vec<u8>,
}

impl Table {
    /// The base of these hexagon centres; refused, it says which centre.
    pub fn base(slots: usize, centres: &[[i32; 2]]) -> Result<Table, RefusedAt> {
        let mut bytes = vec![255; slots * SLOT];
        placed(slices::base(&mut bytes, centres.as_flattened()))?;
        Ok(Table { bytes })
    }

    /// The mesh of a full file; refused, it says which line.
    pub fn read_full(slots: usize, file: &[u8]) -> Result<Table, RefusedAt> {
        let (mut bytes, mut scratch) = (vec![255; slots * SLOT], vec![255; slots * SLOT]);
        placed(slices::read_full(&mut bytes, &mut scratch, file))?;
        Ok(Table { bytes })
    }

    /// The mesh of a reduced file; refused, it says which line.
    pub fn read_reduced(slots: usize, file: &[u8]) -> Result<Table, RefusedAt> {
        let (mut bytes, mut scratch) = (vec![255; slots * SLOT], vec![255; slots * SLOT]);
        placed(slices::read_reduced(&mut bytes, &mut scratch, file))?;
        Ok(Table { bytes })
    }

    /// The mesh of an old file that may be broken: malformed lines and repeats dropped, the rest normalised and sorted, absent neighbours of degree
    /// 6 vertices restored. Refused where a point has two different records, where the slots are too few, or where no grown mesh is left.
    pub fn salvage(slots: usize, file: &[u8]) -> Result<Salvaged, Refusal> {
        let (mut bytes, mut scratch) = (vec![255; slots * SLOT], vec![255; slots * SLOT]);
        let lines = file.iter().filter(|byte| **byte == b'\n').count() + 1;
        let (mut out, mut changes) = (vec![0; LINE * slots], vec![0; CHANGES * lines + RESTORED * slots]);
        let (number, [written, changed]) = slices::salvage(&mut bytes, &mut scratch, file, &mut out, &mut changes);
        Refusal::of(number)?;
        out.truncate(written as usize);
        changes.truncate(changed as usize);
        Ok(Salvaged { table: Table { bytes }, file: out, changes })
    }

    /// A table of bytes from elsewhere; calls refuse it where it is not in order.
    pub fn from_bytes(bytes: Vec<u8>) -> Table {
        Table { bytes }
    }

    pub fn as_bytes(&self) -> &[u8] {
        &self.bytes
    }

    pub fn into_bytes(self) -> Vec<u8> {
        self.bytes
    }

    pub fn slots(&self) -> usize {
        self.bytes.len() / SLOT
    }

    /// The records, slot by slot.
    pub fn records(&self) -> impl Iterator<Item = Record> + '_ {
        self.bytes.chunks_exact(SLOT).filter(|s| *s != [255; SLOT]).map(|s| {
            let word = |at: usize| i32::from_le_bytes([s[at], s[at + 1], s[at + 2], s[at + 3]]);
            Record { point: Point::new(word(0), word(4), s[8]), degree: s[9], orientation: s[10], level: s[11] }
        })
    }

    pub fn subdivide(&mut self, p: Point) -> Result<(), Refusal> {
        Refusal::of(slices::subdivide(&mut self.bytes, p.a, p.b, p.m))
    }

    /// Subdivides in turn, up to the first refusal; `at` then says how many were made, and those stand.
    pub fn subdivide_all(&mut self, list: &[Point]) -> Result<(), RefusedAt> {
        placed(slices::subdivide_all(&mut self.bytes, &flat(list)))
    }

    /// Brings a vertex to degree 6 by the subdivisions that this asks for, or changes nothing: says how many were made. It lends a scratch
    /// table of its own.
    pub fn bring_to_six(&mut self, p: Point) -> Result<usize, Refusal> {
        let before = self.records().count();
        let mut scratch = vec![255; self.bytes.len()];
        Refusal::of(slices::bring_to_six(&mut self.bytes, &mut scratch, p.a, p.b, p.m))?;
        Ok((self.records().count() - before) / 6)
    }

    /// Makes so many passes round an outline: each subdivides every vertex of degree 6 below a level with an edge that crosses it. Refused, `at` says
    /// how many passes were made, and those stand; the refused one is undone. It lends a scratch table of its own.
    pub fn refine(&mut self, outline: Outline, passes: u8, level: u8) -> Result<(), RefusedAt> {
        let mut scratch = vec![255; self.bytes.len()];
        placed(match outline {
            Outline::Disc { x, y, radius } => slices::refine_disc(&mut self.bytes, &mut scratch, [x, y, radius], passes, level),
            Outline::Line { p, q, s } => slices::refine_line(&mut self.bytes, &mut scratch, [p, q, s], passes, level),
        })
    }

    /// The adjacent vertices, counter-clockwise.
    pub fn neighbours(&self, p: Point) -> Answer {
        points(slices::neighbours(&self.bytes, p.a, p.b, p.m))
    }

    /// The far vertex of the face at each corner: corner j lies between neighbour j and the next.
    pub fn opposites(&self, p: Point) -> Answer {
        points(slices::faces(&self.bytes, p.a, p.b, p.m))
    }

    /// The faces round a vertex, each counter-clockwise from it.
    pub fn faces(&self, p: Point) -> Result<Vec<[Point; 4]>, Refusal> {
        let opposite = self.opposites(p)?;
        Ok(around(p, &self.neighbours(p)?, &opposite))
    }

    /// What `neighbours` answers for each point, with one test of the table; refused is only a table that is not in order.
    pub fn neighbours_all(&self, list: &[Point]) -> Result<Vec<Answer>, Refusal> {
        self.answers(list, slices::neighbours_all)
    }

    /// What `opposites` answers for each point, with one test of the table; refused is only a table that is not in order.
    pub fn opposites_all(&self, list: &[Point]) -> Result<Vec<Answer>, Refusal> {
        self.answers(list, slices::faces_all)
    }

    /// What `faces` answers for each point, with two tests of the table; refused is only a table that is not in order.
    pub fn faces_all(&self, list: &[Point]) -> Result<Vec<Result<Vec<[Point; 4]>, Refusal>>, Refusal> {
        let (adjacent, opposite) = (self.neighbours_all(list)?, self.opposites_all(list)?);
        Ok(list.iter().zip(adjacent.into_iter().zip(opposite)).map(|(p, (u, o))| Ok(around(*p, &u?, &o?))).collect())
    }

    fn answers(&self, list: &[Point], call: fn(&[u8], &[i32], &mut [i32]) -> u8) -> Result<Vec<Answer>, Refusal> {
        let mut out = vec![0; ANSWER * list.len()];
        Refusal::of(call(&self.bytes, &flat(list), &mut out))?;
        Ok(out.chunks_exact(ANSWER).map(|a| points((a[0] as u8, std::array::from_fn(|i| a[i + 1])))).collect())
    }

    /// The census's numbers, whatever the table's size; refused is only a table that is not in order.
    pub fn counts(&self) -> Result<Counts, Refusal> {
        let (number, numbers) = slices::counts(&self.bytes);
        Refusal::of(number)?;
        let [vertices, edges, faces, d0, d3, d4, d5, d6] = numbers.map(|count| count as usize);
        Ok(Counts { vertices, edges, faces, degrees: [d0, d3, d4, d5, d6] })
    }

    /// The full file.
    pub fn write_full(&self) -> Result<Vec<u8>, Refusal> {
        self.write(slices::write_full)
    }

    /// The reduced file.
    pub fn write_reduced(&self) -> Result<Vec<u8>, Refusal> {
        self.write(slices::write_reduced)
    }

    /// The OFF file, for a viewer: refused with 7 where some vertex's faces are.
    pub fn write_off(&self) -> Result<Vec<u8>, Refusal> {
        self.view(slices::write_off)
    }

    /// The OBJ file, the same.
    pub fn write_obj(&self) -> Result<Vec<u8>, Refusal> {
        self.view(slices::write_obj)
    }

    /// A viewer's file: 29 bytes a vertex, 26 a face and 25 suffice. A grown mesh has fewer faces than vertices; no table has more than six a
    /// vertex.
    fn view(&self, call: fn(&[u8], &mut [u8]) -> (u8, u64)) -> Result<Vec<u8>, Refusal> {
        let room = |faces: usize| vec![0; (29 + 26 * faces) * self.slots() + 25];
        let mut out = room(1);
        let (mut number, mut written) = call(&self.bytes, &mut out);
        if Refusal::of(number) == Err(Refusal::OutputShort) {
            out = room(6);
            (number, written) = call(&self.bytes, &mut out);
        }
        Refusal::of(number)?;
        out.truncate(written as usize);
        Ok(out)
    }

    /// A list of findings joined with this mesh: those at a vertex, in file order, then those whose point has none. Refused, it says which
    /// line; never for want of room, since the joined list is no longer than the list.
    pub fn findings(&self, list: &[u8]) -> Result<Vec<u8>, RefusedAt> {
        let mut out = vec![0; list.len()];
        let (number, [line, written]) = slices::findings(&self.bytes, list, &mut out);
        placed((number, line))?;
        out.truncate(written as usize);
        Ok(out)
    }

    fn write(&self, call: fn(&[u8], &mut [u8]) -> (u8, u64)) -> Result<Vec<u8>, Refusal> {
        let mut out = vec![0; LINE * self.slots()];
        let (number, written) = call(&self.bytes, &mut out);
        Refusal::of(number)?;
        out.truncate(written as usize);
        Ok(out)
    }
}

impl fmt::Debug for Table {
    fn fmt(&self, f: &mut fmt::Formatter) -> fmt::Result {
        write!(f, "Table of {} records in {} slots", self.records().count(), self.slots())
    }
}
