//! Meshes as maps from places to records: the base, subdivision, neighbours, faces, the census, and which meshes are grown.

use crate::record::{Record, DEEPEST, HIGHEST};
use crate::slips::{made, Slip};
use crate::spot::{edge, Point, Spot};
use crate::star::{star, Corner};
use std::collections::{HashMap, HashSet};

/// A refusal: document 01's number, and why in words.
#[derive(Clone, Copy, Debug, PartialEq, Eq)]
pub struct Refused(pub u8, pub &'static str);

#[derive(Clone, Default, PartialEq, Debug)]
pub struct Mesh {
    records: HashMap<Spot, Record>,
}

/// What a subdivision does: records that change at their points, records that enter, in order.
pub struct Subdivision {
    pub changed: Vec<Record>,
    pub entered: Vec<Record>,
}

/// The first bad centre of a base list, and what is wrong with it.
pub fn bad_centre(centres: &[(i32, i32)]) -> Option<(usize, &'static str)> {
    let mut before = HashSet::new();
    for (place, &(a, b)) in centres.iter().enumerate() {
        if !(-250..=250).contains(&a) || !(-250..=250).contains(&b) {
            return Some((place, "centre out of range"));
        } else if (a - b) % 3 != 0 {
            return Some((place, "centre of the wrong remainder"));
        } else if !before.insert((a, b)) {
            return Some((place, "centre repeated"));
        }
    }
    None
}

/// The records of a good base list, in the order they enter.
pub fn base(centres: &[(i32, i32)]) -> Vec<Record> {
    let listed: HashSet<Spot> = centres.iter().map(|&(a, b)| Spot::of(Point::new(a, b, 0))).collect();
    let mut there = HashSet::new();
    let mut records = Vec::new();
    for &(a, b) in centres {
        let centre = Spot::of(Point::new(a, b, 0));
        if there.insert(centre) {
            records.push(Record::at(centre.point(), 3, 0, 0));
        }
        for turn in 0..6 {
            let corner = centre + edge(2 * turn, 0);
            if there.insert(corner) {
                records.push(corner_record(corner, &listed));
            }
        }
    }
    records
}

/// "A corner is internal when all three hexagons round it are listed": those of its unit neighbours that can be centres.
fn corner_record(corner: Spot, listed: &HashSet<Spot>) -> Record {
    let p = corner.point();
    let hexagons: Vec<Spot> =
        (0..6).map(|turn| corner + edge(2 * turn, 0)).filter(|c| (c.point().a - c.point().b).rem_euclid(3) == 0).collect();
    assert_eq!(hexagons.len(), 3);
    let around = hexagons.iter().filter(|c| listed.contains(c)).count();
    let internal = around == 3 || around == 2 && made(Slip::TwoHexagonsSuffice);
    match (internal, (p.a - p.b).rem_euclid(3)) {
        (false, _) => Record::at(p, 0, 0, 0),
        (true, 1) => Record::at(p, 6, 0, 0),
        (true, _) => Record::at(p, 3, 2, 0),
    }
}

impl Mesh {
    pub fn of<'a>(records: impl IntoIterator<Item = &'a Record>) -> Mesh {
        Mesh { records: records.into_iter().map(|r| (Spot::of(r.point()), *r)).collect() }
    }

    pub fn len(&self) -> usize {
        self.records.len()
    }

    pub fn is_empty(&self) -> bool {
        self.records.is_empty()
    }

    pub fn records(&self) -> impl Iterator<Item = &Record> {
        self.records.values()
    }

    pub fn at(&self, p: Point) -> Option<&Record> {
        self.records.get(&Spot::of(p))
    }

    fn has(&self, s: Spot) -> bool {
        self.records.contains_key(&s)
    }

    /// The adjacent points of an internal v, all in the mesh.
    pub fn neighbours(&self, v: &Record) -> Result<Vec<Spot>, Refused> {
        let adjacent: Vec<Spot> = star(v).iter().map(|c| c.adjacent).collect();
        match adjacent.iter().all(|s| self.has(*s)) {
            true => Ok(adjacent),
            false => Err(Refused(7, "an adjacent is absent")),
        }
    }

    /// "The opposite is the first one if that is in the table, else the second"
    fn opposite(&self, corner: &Corner) -> Option<Spot> {
        let mut choice = vec![Some(corner.first), corner.second];
        if made(Slip::FartherOpposite) {
            choice.reverse();
        }
        choice.into_iter().flatten().find(|s| self.has(*s))
    }

    /// The opposite of each corner of an internal v.
    pub fn opposites(&self, v: &Record) -> Result<Vec<Spot>, Refused> {
        self.neighbours(v)?;
        let mut chosen = Vec::new();
        for corner in star(v) {
            chosen.push(self.opposite(&corner).ok_or(Refused(7, "a corner with no opposite"))?);
        }
        Ok(chosen)
    }

    /// The subdivision of v, or its refusal by 4, 5 or 7.
    pub fn subdivision(&self, v: &Record) -> Result<Subdivision, Refused> {
        if v.d != 6 {
            return Err(Refused(4, "degree isn't 6"));
        }
        if v.n >= HIGHEST && !made(Slip::LevelThirteen) {
            return Err(Refused(5, "level is 12"));
        }
        let q = (v.k + 1) % 2;
        let now = Record { k: q, n: v.n + 1, ..*v };
        let fresh: Vec<Point> = star(&now).iter().map(|c| c.adjacent.point()).collect();
        let mut changed = vec![now];
        for (j, corner) in star(v).iter().enumerate() {
            let back = (6 + 2 * j as u8 + v.k) % 12;
            let u = self.records.get(&corner.adjacent).ok_or(Refused(7, "an adjacent is absent"))?;
            changed.extend(updated(u, back, v.n)?);
        }
        if fresh.iter().any(|p| self.at(*p).is_some()) {
            return Err(Refused(7, "a new point is already there"));
        }
        let by = if made(Slip::NewByOldOrientation) { v.k } else { q };
        let entered = fresh.iter().enumerate().map(|(j, p)| new_record(*p, (6 + 2 * j as u8 + by) % 4, v.n + 1)).collect();
        Ok(Subdivision { changed, entered })
    }

    /// The mesh after a subdivision, room aside.
    pub fn make(&mut self, subdivision: &Subdivision) {
        for r in subdivision.changed.iter().chain(&subdivision.entered) {
            self.records.insert(Spot::of(r.point()), *r);
        }
    }

    /// The degree 3 records adjacent to a degree 6 record, "adjacency read from the degree 6 star".
    pub fn redundant(&self) -> HashSet<Spot> {
        let mut named = HashSet::new();
        for v in self.records().filter(|v| v.d == 6) {
            for corner in star(v) {
                match self.records.get(&corner.adjacent) {
                    Some(u) if made(Slip::ReducedByLevel) && u.n != v.n => {}
                    Some(u) if u.d == 3 => drop(named.insert(corner.adjacent)),
                    _ => {}
                }
            }
        }
        named
    }

    /// V, E, F, and the records of degree 0, 3, 4, 5, 6.
    pub fn census(&self) -> [usize; 8] {
        let faces: HashSet<[Spot; 4]> = self.records().flat_map(|v| self.drawn(v)).map(from_least).collect();
        let mut by_degree = [0; 7];
        self.records().for_each(|v| by_degree[v.d as usize] += 1);
        let [d0, _, _, d3, d4, d5, d6] = by_degree;
        [self.len(), self.edges(&faces), faces.len(), d0, d3, d4, d5, d6]
    }

    /// The faces of v: "v, adjacent j, opposite j, next adjacent". A corner with no opposite has none.
    fn drawn(&self, v: &Record) -> Vec<[Spot; 4]> {
        let corners = star(v);
        let round = corners.iter().zip(corners.iter().cycle().skip(1));
        let faced = round.filter(|(corner, _)| self.has(corner.adjacent) || !made(Slip::AbsentUnfaced));
        faced.filter_map(|(corner, next)| Some([Spot::of(v.point()), corner.adjacent, self.opposite(corner)?, next.adjacent])).collect()
    }

    /// "An edge is from now on a side of a face, taken once whichever way it runs."
    fn edges(&self, faces: &HashSet<[Spot; 4]>) -> usize {
        let mut edges: HashMap<[Spot; 2], usize> = HashMap::new();
        if !made(Slip::EdgesOfStars) {
            faces.iter().flat_map(sides).for_each(|side| *edges.entry(side).or_default() += 1);
        }
        if made(Slip::EdgesOfStars) || made(Slip::SideWithoutFace) {
            for (v, corner) in self.records().flat_map(|v| star(v).into_iter().map(move |corner| (v, corner))) {
                edges.entry(whichever_way(Spot::of(v.point()), corner.adjacent)).or_default();
            }
        }
        edges.into_iter().map(|(side, faces)| self.times_taken(side, faces)).sum()
    }

    /// Once, wherever its ends stand and however many faces have it.
    fn times_taken(&self, side: [Spot; 2], faces: usize) -> usize {
        let degrees = side.map(|end| self.records.get(&end).map(|r| r.d));
        let at_the_rim = degrees == [Some(0); 2];
        if at_the_rim && made(Slip::RimSideEachFace) {
            faces
        } else if at_the_rim && made(Slip::RimSideNever) || degrees.contains(&None) && made(Slip::AbsentUnsided) {
            0
        } else if degrees.iter().all(|d| *d > Some(0)) && made(Slip::SideAtBothEnds) {
            2
        } else {
            1
        }
    }

    /// "A mesh is grown if its records result from a base and a sequence of subdivisions": build it anew and compare.
    ///
    /// Only a base enters points of depth 0, so the centres are to be read off. A subdivision at one level needs others at lower levels
    /// only, so they can be made in level order: at each level those vertices whose level in the end is higher.
    pub fn is_grown(&self) -> bool {
        let is_centre = |r: &&Record| r.m == 0 && (r.a - r.b) % 3 == 0;
        let centres: Vec<(i32, i32)> = self.records().filter(is_centre).map(|r| (r.a, r.b)).collect();
        if centres.is_empty() || bad_centre(&centres).is_some() {
            return false;
        }
        let mut built = Mesh::of(&base(&centres));
        for level in 0..HIGHEST {
            let goes_on = |r: &Record| self.at(r.point()).is_some_and(|end| end.d == 6 && end.n > level);
            let due: Vec<Record> = built.records().filter(|r| r.d == 6 && r.n == level && goes_on(r)).copied().collect();
            for v in due {
                match built.subdivision(&v) {
                    Ok(subdivision) if built.len() < self.len() => built.make(&subdivision),
                    _ => return false,
                }
            }
        }
        if made(Slip::GrownByPoints) {
            return built.records.keys().all(|s| self.has(*s)) && built.len() == self.len();
        }
        built == *self
    }
}

/// A face read from its least vertex on: the same in whichever vertex's star it was met.
fn from_least(mut face: [Spot; 4]) -> [Spot; 4] {
    let least = (0..4).min_by_key(|at| face[*at]).unwrap_or(0);
    if !made(Slip::FaceTwice) {
        face.rotate_left(least);
    }
    face
}

/// The four sides of a face.
fn sides(&[v, adjacent, opposite, next]: &[Spot; 4]) -> [[Spot; 2]; 4] {
    [whichever_way(v, adjacent), whichever_way(adjacent, opposite), whichever_way(opposite, next), whichever_way(next, v)]
}

fn whichever_way(p: Spot, q: Spot) -> [Spot; 2] {
    match made(Slip::SideEachWay) {
        true => [p, q],
        false => [p.min(q), p.max(q)],
    }
}

fn new_record(p: Point, k: u8, n: u8) -> Record {
    match made(Slip::NewNotNormalised) && p.m < DEEPEST {
        true => Record::at(Point::new(3 * p.a, 3 * p.b, p.m + 1), 3, k, n),
        false => Record::at(p, 3, k, n),
    }
}

/// The old adjacent u after a subdivision at level n that it sees toward `back` (document 01's k'): nothing where it stays.
fn updated(u: &Record, back: u8, n: u8) -> Result<Option<Record>, Refused> {
    let raised = if made(Slip::LevelRaised) { u.n + 1 } else { u.n };
    let unseen = made(Slip::TornByOrientationUnseen);
    let turned = |by: u8| (back + by) % 12;
    let plus_four = if made(Slip::PlainSumOfFour) { u.k + 4 } else { (u.k + 4) % 12 };
    if u.d == 0 {
        let touched = Record { d: 4, k: turned(4), n, ..*u };
        return Ok(made(Slip::BoundaryGrows).then_some(touched));
    }
    if u.d == 6 {
        return Err(Refused(7, "an adjacent has degree 6"));
    }
    if u.n != n {
        return Err(Refused(7, "an adjacent has another level"));
    }
    match u.d {
        3 if back % 4 == u.k || unseen => Ok(Some(Record { d: 4, k: turned(4), n: raised, ..*u })),
        4 if u.k == back => Ok(Some(Record { d: 5, k: turned(4), n: raised, ..*u })),
        4 if plus_four == back => {
            let k = if made(Slip::PlusFourTwice) { turned(4) } else { turned(12 - 4) };
            Ok(Some(Record { d: 5, k, n: raised, ..*u }))
        }
        5 if u.k == back || unseen => Ok(Some(Record { d: 6, k: (back + 1) % 2, n: u.n + 1, ..*u })),
        3 => Err(Refused(7, "no rule for an adjacent of degree 3")),
        4 => Err(Refused(7, "no rule for an adjacent of degree 4")),
        _ => Err(Refused(7, "no rule for an adjacent of degree 5")),
    }
}
