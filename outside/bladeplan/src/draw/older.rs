//! An older plan under the new one: which vertices and faces are new, which went, which vertices have another star.

use crate::plan::{order, Face, Plan};
use crate::trouble::Outcome;
use std::collections::HashSet;

/// What an older plan says of a vertex.
#[derive(Clone, Copy, PartialEq, Eq, PartialOrd, Ord, Debug)]
pub enum State {
    /// It stood there with the same star.
    Same,
    /// It stood there with another star.
    Changed,
    New,
    /// There is no older plan.
    Alone,
}

pub struct Older {
    /// As the sheet shows it.
    pub name: String,
    pub plan: Plan,
    pub vertices: usize,
    pub faces: Vec<Face>,
    /// Of each vertex of the new plan, in file order.
    states: Vec<State>,
    /// Of each face of the new plan: whether it is new.
    new_faces: Vec<bool>,
    /// Vertices that only the older plan has.
    pub gone: usize,
}

impl Older {
    pub fn under(plan: &Plan, plan_faces: &[Face], older: Plan, name: String) -> Outcome<Older> {
        let (vertices, faces) = (older.counts()?.vertices, older.faces()?);
        let old: HashSet<_> = faces.iter().map(corners).collect();
        let states: Vec<State> = plan
            .records()
            .iter()
            .map(|record| match older.vertex(record.point) {
                None => State::New,
                Some(before) if before == *record => State::Same,
                Some(_) => State::Changed,
            })
            .collect();
        let gone = older.records().iter().filter(|record| plan.place(record.point).is_none()).count();
        let new_faces = plan_faces.iter().map(|face| !old.contains(&corners(face))).collect();
        Ok(Older { name, plan: older, vertices, faces, states, new_faces, gone })
    }

    pub fn state(&self, vertex: usize) -> State {
        self.states.get(vertex).copied().unwrap_or(State::New)
    }

    pub fn is_new(&self, face: usize) -> bool {
        self.new_faces.get(face).copied().unwrap_or(true)
    }

    pub fn count(&self, state: State) -> usize {
        self.states.iter().filter(|other| **other == state).count()
    }

    pub fn new_faces(&self) -> usize {
        self.new_faces.iter().filter(|new| **new).count()
    }

    pub fn faces_gone(&self) -> usize {
        self.faces.len() + self.new_faces() - self.new_faces.len()
    }
}

/// A face by its corners, wherever it begins.
fn corners(face: &Face) -> [(u8, i32, i32); 4] {
    let mut all = face.map(order);
    all.sort_unstable();
    all
}
