//! A log: the hexagons that a plan was laid of and the subdivisions made of it since, in an order in which they can be made. Text, one line each, tabs
//! between: a, b for a hexagon; after the last of those a, b, m and the level that the vertex had for a subdivision. What a list that people write
//! may have besides, this may too.

use crate::lists::List;
use crate::place::Place;
use crate::plan::{order, Plan, NEW_VERTICES};
use crate::points::{strict, Numbers};
use crate::sizes;
use crate::trouble::{Outcome, Trouble};
use crate::words::{Command, Words};
use flaskbloom::{normalise, Division, Point, Record, Refusal, RefusedAt, Table};
use std::collections::HashMap;
use std::ffi::OsStr;

/// Where a log goes, and its text.
pub type Kept<'a> = (&'a OsStr, Vec<u8>);

/// No vertex is subdivided at this level.
const LAST_LEVEL: u8 = 12;

pub struct Log {
    pub list: List,
    pub hexagons: Vec<[i32; 2]>,
    pub made: Vec<Division>,
}

enum Line {
    Hexagon([i32; 2]),
    Made(Division),
}

/// A line of a log, its numbers as in a plan's file.
fn line(text: &str) -> Option<Line> {
    let numbers: Numbers = text.split('\t').map(strict).collect::<Option<_>>()?;
    let small = |x: i32| u8::try_from(x).ok();
    match numbers[..] {
        [a, b] => Some(Line::Hexagon([a, b])),
        [a, b, m, level] => Some(Line::Made(Division { point: Point::new(a, b, small(m)?), level: small(level)? })),
        _ => None,
    }
}

/// The file that the words name for a log that is kept; standard input can keep none, nor can the plan's own file.
pub fn kept_in<'a>(command: &Command, words: &'a Words) -> Outcome<Option<&'a OsStr>> {
    match words.value("--log") {
        Some(path) if path == "-" => Err(command.wrong("--log needs a file")),
        Some(path) if words.output() == Some(path) => Err(command.wrong("--log and -o name one file")),
        path => Ok(path),
    }
}

/// The lines of hexagons.
pub fn hexagon_lines(hexagons: &[[i32; 2]]) -> String {
    hexagons.iter().map(|[a, b]| format!("{a}\t{b}\n")).collect()
}

fn made_lines(made: &[Division]) -> String {
    made.iter().map(|x| format!("{}\t{}\t{}\t{}\n", x.point.a, x.point.b, x.point.m, x.level)).collect()
}

impl Log {
    /// The log in a file; 9 at the first line that is none of a log, or at a hexagon past the first subdivision.
    pub fn load(path: &OsStr) -> Outcome<Log> {
        let list = List::load(path)?;
        let (mut hexagons, mut made) = (Vec::new(), Vec::new());
        for (item, line) in list.parsed(line)?.into_iter().enumerate() {
            match line {
                Line::Hexagon(centre) if made.is_empty() => hexagons.push(centre),
                Line::Hexagon(_) => return Err(Trouble::refused(list.place(item), Refusal::BadLine)),
                Line::Made(x) => made.push(x),
            }
        }
        Ok(Log { list, hexagons, made })
    }

    /// The log that the words name, if they name one, where it is this plan's: every vertex as the second engine has it by the log, and as many.
    pub fn of_plan(command: &Command, words: &Words, plan: &Plan) -> Outcome<Option<Log>> {
        let Some(path) = kept_in(command, words)? else { return Ok(None) };
        let log = Log::load(path)?;
        match log.agreeing(plan)? == plan.records().len() && log.vertices()? == plan.records().len() {
            true => Ok(Some(log)),
            false => Err(log.not_of(plan)),
        }
    }

    /// A good log, and another plan's: the first line that this one does not have, or none where it has more.
    pub fn not_of(&self, plan: &Plan) -> Trouble {
        let laid = self.hexagons.iter().map(|[a, b]| plan.vertex(Point::new(*a, *b, 0)).is_some());
        let risen = |x: &Division| plan.vertex(normalise(x.point)).is_some_and(|r| r.degree == 6 && r.level > x.level);
        let item = laid.chain(self.made.iter().map(risen)).position(|has| !has);
        let place = item.map_or(Place::File(self.list.name.clone()), |item| self.list.place(item));
        Trouble::refused(place, Refusal::NotLeft)
    }

    /// This log's file with some subdivisions more.
    pub fn with<'a>(self, words: &'a Words, more: &[Division]) -> Option<Kept<'a>> {
        let mut text = self.list.bytes;
        if !text.ends_with(b"\n") {
            text.push(b'\n');
        }
        text.extend(made_lines(more).into_bytes());
        words.value("--log").map(|path| (path, text))
    }

    /// What the second engine has at these points.
    pub fn records(&self, points: &[Point]) -> Outcome<Vec<Option<Record>>> {
        flaskbloom::vertices(&self.hexagons, &self.made, points).map_err(|refusal| self.refused(refusal))
    }

    /// How many vertices of a plan are as the second engine has them.
    pub fn agreeing(&self, plan: &Plan) -> Outcome<usize> {
        let points: Vec<Point> = plan.records().iter().map(|r| r.point).collect();
        let answers = self.records(&points)?;
        Ok(plan.records().iter().zip(answers).filter(|(r, answer)| Some(**r) == *answer).count())
    }

    /// How many vertices it leaves: the base's, and six for each subdivision.
    pub fn vertices(&self) -> Outcome<usize> {
        Ok(self.base()?.records().count() + NEW_VERTICES * self.made.len())
    }

    fn base(&self) -> Outcome<Table> {
        let laid = sizes::growing(self.hexagons.len(), |slots| Table::base(slots, &self.hexagons));
        laid.map_err(|refused| self.base_refused(refused))
    }

    /// The plan's table, by the calls on tables.
    pub fn table(&self) -> Outcome<Table> {
        self.records(&[])?;
        let points: Vec<Point> = self.made.iter().map(|x| x.point).collect();
        let most = self.vertices()?;
        let grown = sizes::growing(most, |slots| {
            let mut table = Table::base(slots, &self.hexagons)?;
            table.subdivide_all(&points).map(|()| table)
        });
        grown.map_err(|refused| Trouble::refused(Place::File(self.list.name.clone()), refused.refusal))
    }

    /// A refusal of the lists, at its line: the bad hexagon, or the first subdivision that cannot be.
    fn refused(&self, refusal: Refusal) -> Trouble {
        if refusal == Refusal::BadCentre {
            return self.base().err().unwrap_or_else(|| Trouble::refused(Place::File(self.list.name.clone()), refusal));
        }
        let good = |made: usize| flaskbloom::vertices(&self.hexagons, &self.made[..made], &[]).is_ok();
        let (mut most, mut few) = (0, self.made.len());
        while most + 1 < few {
            let half = (most + few) / 2;
            (most, few) = if good(half) { (half, few) } else { (most, half) };
        }
        Trouble::refused(self.list.place(self.hexagons.len() + most), refusal)
    }

    fn base_refused(&self, refused: RefusedAt) -> Trouble {
        match (refused.refusal, usize::try_from(refused.at)) {
            (Refusal::BadCentre, Ok(item)) => Trouble::refused(self.list.place(item), refused.refusal),
            _ => Trouble::refused(Place::File(self.list.name.clone()), refused.refusal),
        }
    }
}

/// The log, where one is kept, with the subdivisions of these points in turn, which led to the plan in this file.
pub fn in_turn<'a>(log: Option<Log>, words: &'a Words, points: &[Point], file: &[u8]) -> Outcome<Option<Kept<'a>>> {
    let Some(log) = log else { return Ok(None) };
    Ok(log.with(words, &of_turns(points, &Plan::read("the output", file)?)))
}

/// The subdivisions of these points in turn, which led to this plan: the level of each is that of the end, less one for each time from then on.
fn of_turns(points: &[Point], after: &Plan) -> Vec<Division> {
    let mut levels: HashMap<(u8, i32, i32), u8> = HashMap::new();
    let mut made: Vec<Division> = Vec::new();
    for p in points.iter().rev() {
        let point = normalise(*p);
        let level = levels.entry(order(point)).or_insert_with(|| after.vertex(point).map_or(0, |r| r.level));
        *level = level.saturating_sub(1);
        made.push(Division { point, level: *level });
    }
    made.reverse();
    made
}

/// The log, where one is kept, with what leads from a plan to the finer one in this file.
pub fn finer<'a>(log: Option<Log>, words: &'a Words, before: &Plan, file: &[u8]) -> Outcome<Option<Kept<'a>>> {
    let Some(log) = log else { return Ok(None) };
    Ok(log.with(words, &between(before, &Plan::read("the output", file)?)?))
}

/// The subdivisions that lead from one plan to a finer one, level by level: what one needs is made at a lower level.
fn between(before: &Plan, after: &Plan) -> Outcome<Vec<Division>> {
    let wide = Table::read_full(sizes::LARGEST, &before.full()?);
    let mut table = wide.map_err(|refused| Trouble::refused(Place::File(before.name.clone()), refused.refusal))?;
    let mut made = Vec::new();
    for level in 0..LAST_LEVEL {
        let rises =
            |r: &Record| r.degree == 6 && r.level == level && after.vertex(r.point).is_some_and(|end| end.degree == 6 && end.level > level);
        let mut due: Vec<Point> = table.records().filter(rises).map(|r| r.point).collect();
        due.sort_unstable_by_key(|p| order(*p));
        let all = table.subdivide_all(&due);
        all.map_err(|refused| Trouble::refused(Place::File(after.name.clone()), refused.refusal))?;
        made.extend(due.into_iter().map(|point| Division { point, level }));
    }
    Ok(made)
}
