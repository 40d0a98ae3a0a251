//! A plan loaded: the table that a reader or a base gave, and its records in file order; all faces, the counts.

use crate::files;
use crate::place::Place;
use crate::sizes;
use crate::trouble::{Outcome, Trouble};
use flaskbloom::{normalise, Counts, Point, Record, Refusal, RefusedAt, Table};
use std::ffi::OsStr;

/// The longest line that a reader passes.
const LONGEST_LINE: u64 = 26;
/// The bytes that settle what a reader says of a file: line 65,537 finds no slot, whatever follows. So a reader given these first bytes of
/// a longer file answers as for the whole.
const LIMIT: u64 = (sizes::LARGEST as u64 + 1) * LONGEST_LINE;

/// What a subdivision adds, and the faces of a hexagon before any.
pub const NEW_VERTICES: usize = 6;
pub const NEW_EDGES: usize = 12;
pub const NEW_FACES: usize = 6;
pub const HEXAGON_FACES: usize = 3;

/// Which reader accepts the file, and what the other one says of it. Both accept it where nothing can be left out; then both give the
/// same mesh (docs/DECISIONS.md says why).
#[derive(Clone, Copy, PartialEq, Eq, Debug)]
pub enum Kind {
    /// A full file; the reduced reader's refusal.
    Full(Refusal),
    /// A reduced file; the full reader's refusal.
    Reduced(Refusal),
    Both,
}

/// A face: its four corners, counter-clockwise.
pub type Face = [Point; 4];

/// A base and the subdivisions made of it.
pub struct Making {
    pub hexagons: usize,
    pub subdivisions: usize,
    /// The census's numbers of the base, laid anew.
    pub base: Counts,
}

pub struct Plan {
    /// The file's name, for messages and titles.
    pub name: String,
    pub kind: Kind,
    /// The lines of the file it came from.
    pub lines: usize,
    pub table: Table,
    records: Vec<Record>,
}

impl Plan {
    /// The plan of a file, full or reduced; `-` is standard input.
    pub fn load(path: &OsStr) -> Outcome<Plan> {
        Plan::read(&files::shown(path), &files::read(path, LIMIT)?)
    }

    /// The plan of these bytes; where both readers refuse them, both refusals.
    pub fn read(name: &str, file: &[u8]) -> Outcome<Plan> {
        let lines = file.iter().filter(|byte| **byte == b'\n').count();
        let full = sizes::growing(lines, |slots| Table::read_full(slots, file));
        let reduced = sizes::growing(lines, |slots| Table::read_reduced(slots, file));
        let (table, kind) = match (full, reduced) {
            (Ok(table), Ok(_)) => (table, Kind::Both),
            (Ok(table), Err(refused)) => (table, Kind::Full(refused.refusal)),
            (Err(refused), Ok(table)) => (table, Kind::Reduced(refused.refusal)),
            (Err(full), Err(reduced)) => return Err(Trouble::NoPlan { name: name.to_string(), full, reduced }),
        };
        let mut records: Vec<Record> = table.records().collect();
        records.sort_unstable_by_key(|r| order(r.point));
        Ok(Plan { name: name.to_string(), kind, lines, table, records })
    }

    /// Every vertex, in file order: by m, then a, then b.
    pub fn records(&self) -> &[Record] {
        &self.records
    }

    /// The place in file order of the vertex at a point, spelled in any way.
    pub fn place(&self, p: Point) -> Option<usize> {
        self.records.binary_search_by_key(&order(normalise(p)), |r| order(r.point)).ok()
    }

    /// The vertex at a point, spelled in any way.
    pub fn vertex(&self, p: Point) -> Option<Record> {
        self.place(p).map(|at| self.records[at])
    }

    /// The faces round every vertex, in file order, each counter-clockwise from it; none at the rim. A face stands at each of its inner
    /// corners: `faces` has it once.
    pub fn faces_all(&self) -> Outcome<Vec<Vec<Face>>> {
        let answers = self.table.faces_all(&self.points()).map_err(|refusal| self.refused(refusal))?;
        self.answered(answers.into_iter())
    }

    /// Every face once, from the first vertex in file order that has it.
    pub fn faces(&self) -> Outcome<Vec<Face>> {
        let mut named: Vec<([(u8, i32, i32); 4], Face)> = Vec::new();
        for face in self.faces_all()?.into_iter().flatten() {
            named.push((from_least(face), face));
        }
        named.sort_by_key(|(name, _)| *name); // stable: of equal names the first stays
        named.dedup_by_key(|(name, _)| *name);
        Ok(named.into_iter().map(|(_, face)| face).collect())
    }

    /// The full file of this plan subdivided at these points in turn, in a table with room for it; refused, how many were made.
    pub fn subdivided(&self, points: &[Point]) -> Outcome<Result<Vec<u8>, RefusedAt>> {
        let file = self.full()?;
        let most = self.records.len().saturating_add(points.len().saturating_mul(NEW_VERTICES));
        let table = sizes::growing(most, |slots| {
            let mut table = Table::read_full(slots, &file)?;
            table.subdivide_all(points).map(|()| table)
        });
        Ok(match table {
            Ok(table) => Ok(table.write_full().map_err(|refusal| self.refused(refusal))?),
            Err(refused) => Err(refused),
        })
    }

    /// The full file of this plan with the vertices at these points brought to six neighbours in turn, and subdivided where that is asked; and how
    /// many subdivisions each took. Refused, how many were done.
    pub fn refined(&self, points: &[Point], subdivide: bool) -> Outcome<Result<(Vec<u8>, Vec<usize>), RefusedAt>> {
        let file = self.full()?;
        let most = self.records.len().saturating_add(points.len().saturating_mul(NEW_VERTICES));
        let refined = sizes::growing(most, |slots| {
            let mut table = Table::read_full(slots, &file)?;
            let mut taken = Vec::new();
            for (at, p) in points.iter().enumerate() {
                let one = refine(&mut table, *p, subdivide);
                taken.push(one.map_err(|refusal| RefusedAt { refusal, at: at as u64 })?);
            }
            Ok((table, taken))
        });
        Ok(match refined {
            Ok((table, taken)) => Ok((table.write_full().map_err(|refusal| self.refused(refusal))?, taken)),
            Err(refused) => Err(refused),
        })
    }

    /// V, E, F and the vertices by degree.
    pub fn counts(&self) -> Outcome<Counts> {
        self.table.counts().map_err(|refusal| self.refused(refusal))
    }

    /// What the plan was made of: the centres that it has, points of depth 0 whose a-b is divisible by 3, are its hexagons'; their base is laid anew, and
    /// of the vertices beyond it each subdivision entered six. Of every plan that the base of these centres is accepted, and that it tells the
    /// subdivisions, is proved (`centres-accepted` and `read-fits` in demands/specs/Together); that the centres are those is seen here.
    pub fn making(&self) -> Outcome<Making> {
        let points = self.points();
        let centres: Vec<[i32; 2]> = points.iter().filter(|p| p.m == 0 && (p.a - p.b) % 3 == 0).map(|p| [p.a, p.b]).collect();
        let laid = sizes::growing(points.len(), |slots| Table::base(slots, &centres)).map_err(|refused| self.refused(refused.refusal))?;
        let base = laid.counts().map_err(|refusal| self.refused(refusal))?;
        Ok(Making { hexagons: centres.len(), subdivisions: (points.len() - base.vertices) / NEW_VERTICES, base })
    }

    /// The full file.
    pub fn full(&self) -> Outcome<Vec<u8>> {
        self.table.write_full().map_err(|refusal| self.refused(refusal))
    }

    /// The reduced file.
    pub fn reduced(&self) -> Outcome<Vec<u8>> {
        self.table.write_reduced().map_err(|refusal| self.refused(refusal))
    }

    /// The OFF file.
    pub fn off(&self) -> Outcome<Vec<u8>> {
        self.table.write_off().map_err(|refusal| self.refused(refusal))
    }

    /// The OBJ file.
    pub fn obj(&self) -> Outcome<Vec<u8>> {
        self.table.write_obj().map_err(|refusal| self.refused(refusal))
    }

    fn refused(&self, refusal: Refusal) -> Trouble {
        Trouble::refused(Place::File(self.name.clone()), refusal)
    }

    fn points(&self) -> Vec<Point> {
        self.records.iter().map(|r| r.point).collect()
    }

    /// The answers for all vertices; one at the rim, which has no star, has nothing round it.
    fn answered<T>(&self, answers: impl Iterator<Item = Result<Vec<T>, Refusal>>) -> Outcome<Vec<Vec<T>>> {
        let one = |(r, answer): (&Record, Result<Vec<T>, Refusal>)| match answer {
            Err(Refusal::DegreeZero) => Ok(Vec::new()),
            answer => answer.map_err(|refusal| Trouble::refused(Place::Point(self.name.clone(), r.point), refusal)),
        };
        self.records.iter().zip(answers).map(one).collect()
    }
}

/// One vertex brought to six neighbours, and subdivided where that is asked: how many subdivisions it took.
fn refine(table: &mut Table, p: Point, subdivide: bool) -> Result<usize, Refusal> {
    let taken = table.bring_to_six(p)?;
    if subdivide {
        table.subdivide(p)?;
    }
    Ok(taken + usize::from(subdivide))
}

/// Where a point stands in a file.
pub fn order(p: Point) -> (u8, i32, i32) {
    (p.m, p.a, p.b)
}

/// A face's name: its corners in file order's terms, from the least one round.
fn from_least(face: Face) -> [(u8, i32, i32); 4] {
    let mut name = face.map(order);
    let least = (0..4).min_by_key(|at| name[*at]).unwrap_or(0);
    name.rotate_left(least);
    name
}
