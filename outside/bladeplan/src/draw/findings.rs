//! The findings that a drawing shows: each line of the list at the vertex that the joined list names for its point, however that is spelled,
//! or among the lost. Every line that comes in goes out.

use crate::findings::JoinedList;
use crate::plan::Plan;
use flaskbloom::{normalise, Point};
use std::collections::{BTreeMap, HashMap};

/// A line of the list.
#[derive(Clone, PartialEq, Eq, Debug)]
pub struct Finding {
    pub number: u32,
    /// As written, not normalised.
    pub point: Point,
    pub note: Vec<u8>,
}

/// A line of a list that the library accepted: number TAB a TAB b TAB m TAB note.
fn finding(line: &[u8]) -> Option<Finding> {
    let mut fields = line.splitn(5, |byte| *byte == b'\t');
    let number = parsed(fields.next()?)?;
    let point = point(&mut fields)?;
    Some(Finding { number, point, note: fields.next()?.to_vec() })
}

/// The point of three fields a, b, m.
fn point<'a>(fields: &mut impl Iterator<Item = &'a [u8]>) -> Option<Point> {
    Some(Point::new(parsed(fields.next()?)?, parsed(fields.next()?)?, parsed(fields.next()?)?))
}

fn parsed<T: std::str::FromStr>(field: &[u8]) -> Option<T> {
    std::str::from_utf8(field).ok()?.parse().ok()
}

/// The findings of a plan, in the list's order: those at a vertex, with its place in file order, and those with none.
#[derive(Default)]
pub struct Joined {
    pub at: Vec<(usize, Finding)>,
    pub lost: Vec<Finding>,
}

impl Joined {
    /// Each finding of the list at the vertex of its point where the joined list names that, else lost.
    pub fn of(plan: &Plan, list: &JoinedList) -> Joined {
        let named = list.on_plan().filter_map(|line| point(&mut line.split(|byte| *byte == b'\t')));
        let places: HashMap<Point, usize> = named.filter_map(|p| Some((p, plan.place(p)?))).collect();
        let mut joined = Joined::default();
        for finding in list.findings().filter_map(finding) {
            match places.get(&normalise(finding.point)) {
                Some(vertex) => joined.at.push((*vertex, finding)),
                None => joined.lost.push(finding),
            }
        }
        joined
    }

    pub fn count(&self) -> usize {
        self.at.len() + self.lost.len()
    }

    /// The vertices that have findings, in file order, each with the numbers of all of them in the list's order.
    pub fn places(&self) -> BTreeMap<usize, Vec<u32>> {
        let mut places: BTreeMap<usize, Vec<u32>> = BTreeMap::new();
        self.at.iter().for_each(|(vertex, finding)| places.entry(*vertex).or_default().push(finding.number));
        places
    }
}
