//! Document 02, ticket 4: a vertex brought to degree 6. What is under way is a list of jobs: a vertex, the level at which its neighbours are
//! wanted, and those still to be subdivided. The last job goes on; a neighbour that is not yet of degree 6 becomes a job of its own and is
//! met again once that is done. It works on copies, so there is nothing to undo.

use crate::calls::subdivided;
use crate::mesh::{Mesh, Refused};
use crate::record::{Record, HIGHEST};
use crate::slips::{made, Slip};
use crate::slots::Slots;
use crate::spot::{Point, Spot};
use crate::star::{angles, star};
use std::collections::VecDeque;

struct Job {
    vertex: Spot,
    level: u8,
    due: VecDeque<Spot>,
}

impl Job {
    fn of(v: &Record) -> Job {
        Job { vertex: Spot::of(v.point()), level: v.n, due: wide(v).into() }
    }
}

/// "each neighbour across an edge that has no 60 degree angle at the vertex", in star order: an edge lies between two angles.
fn wide(v: &Record) -> Vec<Spot> {
    let (corners, angles) = (star(v), angles(v.d));
    let sixty = |j: usize| angles[j % angles.len()] == 2;
    let is_wide = |j: usize| match made(Slip::WideOnOneSide) {
        true => !sixty(j),
        false => !sixty(j) && !sixty(j + angles.len() - 1),
    };
    let mut wide: Vec<Spot> = (0..corners.len()).filter(|j| is_wide(*j)).map(|j| corners[j].adjacent).collect();
    if made(Slip::NeighboursBackwards) {
        wide.reverse();
    }
    if made(Slip::LastNeighbourForgotten) && wide.len() == 2 {
        wide.pop();
    }
    wide
}

/// The vertex v of an opened table brought to degree 6: the subdivisions made, each a point and its level then, in order. Refused, table and mesh are
/// left half done.
pub fn brought(slots: &mut Slots, mesh: &mut Mesh, v: &Record) -> Result<Vec<(Point, u8)>, Refused> {
    match v.d {
        0 => return Err(Refused(14, "degree 0")),
        6 if !made(Slip::LevelTwelveFirst) || v.n < HIGHEST => return Ok(Vec::new()),
        _ if v.n == HIGHEST => return Err(Refused(5, "level is 12")),
        _ => {}
    }
    let (mut jobs, mut subdivisions) = (vec![Job::of(v)], Vec::new());
    let at_start = mesh.clone();
    while let Some(job) = jobs.last_mut() {
        let Some(next) = job.due.front().copied() else {
            let now = mesh.at(job.vertex.point()).map_or(0, |r| r.d);
            if now < 6 && !made(Slip::LastNeighbourForgotten) {
                return Err(Refused(7, "the vertex ends below degree 6"));
            }
            jobs.pop();
            continue;
        };
        let u = *mesh.at(next.point()).ok_or(Refused(7, "a neighbour is absent"))?;
        let one_lower = if made(Slip::TwoLevelsLower) { u.n + 2 } else { u.n + 1 };
        match u.d {
            0 if made(Slip::RimByLevel) && one_lower != job.level => return Err(Refused(7, "a neighbour not one level lower")),
            0 if made(Slip::RimTaken) => return Err(Refused(7, "a neighbour is absent")),
            0 => return Err(Refused(16, "a neighbour on the rim")),
            6 if u.n != job.level && !made(Slip::AnyLevelSubdivided) => return Err(Refused(7, "a neighbour of degree 6 at another level")),
            6 => {
                let p = u.point();
                subdivided(slots, mesh, p.a, p.b, p.m).map_err(from_within)?;
                subdivisions.push((p, u.n));
                job.due.pop_front();
            }
            _ if one_lower != job.level => return Err(Refused(7, "a neighbour not one level lower")),
            _ => {
                let seen = if made(Slip::StarsAtTheStart) { at_start.at(u.point()).copied().unwrap_or(u) } else { u };
                jobs.push(Job::of(&seen));
            }
        }
    }
    Ok(subdivisions)
}

/// "where a subdivision answers 7", or 8.
fn from_within(Refused(number, why): Refused) -> Refused {
    match number {
        7 => Refused(7, "a subdivision is torn"),
        _ => Refused(number, why),
    }
}
