//! Base, subdivision and queries. Subdivision is written over a `Store`, so that the same code runs on the flat table and on a HashMap.

use crate::lattice::{in_range, put_point, reduce, rows, sum, Point, Star};
use crate::table::{at, enter, find, fits, in_order, probe, store, Probe, SLOT};
use crate::Points;
use std::collections::HashMap;

/// Where records are kept.
pub trait Store {
    type At: Copy;
    fn find(&self, p: Point) -> Option<(Self::At, Star)>;
    fn change(&mut self, at: Self::At, p: Point, s: Star);
    fn enter(&mut self, p: Point, s: Star);
    fn free(&self) -> usize;
}

/// A table in order with its count of free slots.
pub struct Flat<'a> {
    pub bytes: &'a mut [u8],
    pub free: usize,
}

impl Store for Flat<'_> {
    type At = usize;
    #[inline]
    fn find(&self, p: Point) -> Option<(usize, Star)> {
        find(self.bytes, p)
    }
    #[inline]
    fn change(&mut self, slot: usize, p: Point, s: Star) {
        store(self.bytes, slot, p, s);
    }
    #[inline]
    fn enter(&mut self, p: Point, s: Star) {
        enter(self.bytes, p, s);
        self.free -= 1;
    }
    fn free(&self) -> usize {
        self.free
    }
}

impl Store for HashMap<Point, Star> {
    type At = ();
    fn find(&self, p: Point) -> Option<((), Star)> {
        self.get(&p).map(|s| ((), *s))
    }
    fn change(&mut self, _: (), p: Point, s: Star) {
        self.insert(p, s);
    }
    fn enter(&mut self, p: Point, s: Star) {
        self.insert(p, s);
    }
    fn free(&self) -> usize {
        usize::MAX
    }
}

const SIDE: usize = 501;

pub fn place(a: i32, b: i32) -> usize {
    (a + 250) as usize * SIDE + (b + 250) as usize
}

pub const UNITS: [(i32, i32); 6] = [(1, 0), (0, 1), (-1, 1), (-1, 0), (0, -1), (1, -1)];

pub fn inside(a: i32, b: i32) -> bool {
    (-250..=250).contains(&a) && (-250..=250).contains(&b)
}

/// Which centres are listed; or the place of the first bad one.
pub fn judged(centres: &[i32]) -> Result<Vec<bool>, u64> {
    if centres.is_empty() || centres.len() % 2 == 1 {
        return Err(0);
    }
    let mut listed = vec![false; SIDE * SIDE];
    for (i, c) in centres.chunks_exact(2).enumerate() {
        let (a, b) = (c[0], c[1]);
        if !inside(a, b) || (a - b) % 3 != 0 || std::mem::replace(&mut listed[place(a, b)], true) {
            return Err(i as u64);
        }
    }
    Ok(listed)
}

fn corner(listed: &[bool], a: i32, b: i32) -> Star {
    let apart = (a - b).rem_euclid(3);
    let hexagons = UNITS.iter().skip((apart == 1) as usize).step_by(2);
    let internal = hexagons.map(|(x, y)| (a + x, b + y)).all(|(a, b)| inside(a, b) && listed[place(a, b)]);
    match (internal, apart) {
        (false, _) => Star { d: 0, k: 0, n: 0 },
        (true, 1) => Star { d: 6, k: 0, n: 0 },
        (true, _) => Star { d: 3, k: 2, n: 0 },
    }
}

pub fn base(table: &mut [u8], centres: &[i32]) -> (u8, u64) {
    if !fits(table.len()) {
        return (1, 0);
    }
    table.fill(255);
    let listed = match judged(centres) {
        Ok(listed) => listed,
        Err(place) => return (2, place),
    };
    for c in centres.chunks_exact(2) {
        let centre = (c[0], c[1], Star { d: 3, k: 0, n: 0 });
        let corners = UNITS.iter().map(|(x, y)| (c[0] + x, c[1] + y)).map(|(a, b)| (a, b, corner(&listed, a, b)));
        for (a, b, s) in std::iter::once(centre).chain(corners) {
            match probe(table, Point { a, b, m: 0 }) {
                Probe::Found(..) => {}
                Probe::Free(slot) => store(table, slot, Point { a, b, m: 0 }, s),
                Probe::Full => {
                    table.fill(255);
                    return (8, 0);
                }
            }
        }
    }
    (0, 0)
}

/// One subdivision: document 01's number, all or nothing.
#[inline]
pub fn subdivide_in<S: Store>(store: &mut S, p: Point) -> u8 {
    let p = reduce(p);
    if !in_range(p) {
        return 3;
    }
    let Some((here, v)) = store.find(p) else { return 3 };
    if v.d != 6 {
        return 4;
    }
    if v.n == 12 {
        return 5;
    }
    let now = Star { d: 6, k: v.k ^ 1, n: v.n + 1 };
    let mut fresh = [p; 6];
    for (f, row) in fresh.iter_mut().zip(rows(now)) {
        *f = sum(p, row.adjacent, now.n);
    }
    let Some(changes) = changes(store, p, v) else { return 7 };
    if fresh.iter().any(|f| store.find(*f).is_some()) {
        return 7;
    }
    if store.free() < 6 {
        return 8;
    }
    store.change(here, p, now);
    for (slot, q, s) in changes.into_iter().flatten() {
        store.change(slot, q, s);
    }
    for (j, f) in fresh.into_iter().enumerate() {
        store.enter(f, Star { d: 3, k: (6 + 2 * j as u8 + now.k) % 4, n: now.n });
    }
    0
}

type Changes<At> = [Option<(At, Point, Star)>; 6];

/// What becomes of the old adjacents of v; nothing where the mesh is torn.
#[inline]
fn changes<S: Store>(store: &S, p: Point, v: Star) -> Option<Changes<S::At>> {
    let mut changes = [None; 6];
    for (j, row) in rows(v).iter().enumerate() {
        let q = sum(p, row.adjacent, v.n);
        let (at, u) = store.find(q)?;
        if u.d != 0 {
            changes[j] = Some((at, q, updated(u, (6 + 2 * j as u8 + v.k) % 12, v.n)?));
        }
    }
    Some(changes)
}

#[inline]
fn updated(u: Star, back: u8, n: u8) -> Option<Star> {
    if u.n != n {
        return None;
    }
    match u.d {
        3 if back % 4 == u.k => Some(Star { d: 4, k: (back + 4) % 12, n }),
        4 if back == u.k => Some(Star { d: 5, k: (back + 4) % 12, n }),
        4 if back == (u.k + 4) % 12 => Some(Star { d: 5, k: (back + 8) % 12, n }),
        5 if back == u.k => Some(Star { d: 6, k: (back + 1) % 2, n: n + 1 }),
        _ => None,
    }
}

pub fn subdivide(table: &mut [u8], a: i32, b: i32, m: u8) -> u8 {
    match in_order(table) {
        None => 1,
        Some(free) => subdivide_in(&mut Flat { bytes: table, free }, Point { a, b, m }),
    }
}

pub fn subdivide_all(table: &mut [u8], points: &[i32]) -> (u8, u64) {
    let Some(free) = in_order(table) else { return (1, 0) };
    let mut flat = Flat { bytes: table, free };
    for (i, p) in points.chunks_exact(3).enumerate() {
        let number = match u8::try_from(p[2]) {
            Ok(m) => subdivide_in(&mut flat, Point { a: p[0], b: p[1], m }),
            Err(_) => 3,
        };
        if number != 0 {
            return (number, i as u64);
        }
    }
    (0, points.len() as u64 / 3)
}

/// The vertex of a query in a table in order: its point and star, or 3 or 14.
#[inline]
fn asked(table: &[u8], p: Point) -> Result<(Point, Star), u8> {
    let p = reduce(p);
    let (_, v) = Some(p).filter(|p| in_range(*p)).and_then(|p| find(table, p)).ok_or(3)?;
    if v.d == 0 {
        return Err(14);
    }
    Ok((p, v))
}

pub fn neighbours(table: &[u8], a: i32, b: i32, m: u8) -> (u8, Points) {
    answer(in_order(table).ok_or(1).and_then(|_| adjacents(table, Point { a, b, m })))
}

fn answer(outcome: Result<Points, u8>) -> (u8, Points) {
    match outcome {
        Ok(points) => (0, points),
        Err(number) => (number, [0; 19]),
    }
}

#[inline]
fn adjacents(table: &[u8], p: Point) -> Result<Points, u8> {
    let (p, v) = asked(table, p)?;
    star_there(table, p, v)
}

#[inline]
fn star_there(table: &[u8], p: Point, v: Star) -> Result<Points, u8> {
    let mut points = [0; 19];
    points[0] = v.d as i32;
    for (out, row) in points[1..].chunks_exact_mut(3).zip(rows(v)) {
        let q = sum(p, row.adjacent, v.n);
        find(table, q).ok_or(7)?;
        put_point(out, q);
    }
    Ok(points)
}

pub fn faces(table: &[u8], a: i32, b: i32, m: u8) -> (u8, Points) {
    answer(in_order(table).ok_or(1).and_then(|_| opposites(table, Point { a, b, m })))
}

#[inline]
fn opposites(table: &[u8], p: Point) -> Result<Points, u8> {
    let (p, v) = asked(table, p)?;
    let mut points = star_there(table, p, v)?;
    for (out, row) in points[1..].chunks_exact_mut(3).zip(rows(v)) {
        put_point(out, opposite(table, p, v, row).ok_or(7)?);
    }
    Ok(points)
}

pub fn neighbours_all(table: &[u8], points: &[i32], answers: &mut [i32]) -> u8 {
    answer_all(table, points, answers, adjacents)
}

pub fn faces_all(table: &[u8], points: &[i32], answers: &mut [i32]) -> u8 {
    answer_all(table, points, answers, opposites)
}

/// One answer each, twenty numbers: what the single call gives.
#[inline]
fn answer_all(table: &[u8], points: &[i32], answers: &mut [i32], ask: impl Fn(&[u8], Point) -> Result<Points, u8>) -> u8 {
    if in_order(table).is_none() {
        return 1;
    }
    if answers.len() / 20 < points.len() / 3 {
        return 13;
    }
    for (p, out) in points.chunks_exact(3).zip(answers.chunks_exact_mut(20)) {
        let (number, row) = answer(u8::try_from(p[2]).map_err(|_| 3).and_then(|m| ask(table, Point { a: p[0], b: p[1], m })));
        out[0] = number as i32;
        out[1..].copy_from_slice(&row);
    }
    0
}

#[inline]
pub fn opposite(table: &[u8], p: Point, v: Star, row: &crate::lattice::Row) -> Option<Point> {
    let first = sum(p, row.first, v.n);
    let second = sum(p, row.second, v.n);
    [first, second].into_iter().find(|q| find(table, *q).is_some())
}

/// The records of a table, slot by slot.
pub fn records(table: &[u8]) -> impl Iterator<Item = (Point, Star)> + '_ {
    (0..table.len() / SLOT).filter_map(|slot| at(table, slot))
}
