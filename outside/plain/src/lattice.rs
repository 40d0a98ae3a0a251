//! Points, records, and the stars of all degrees and orientations as one constant table, worked out when compiled.

use crate::Points;

pub const POW3: [i32; 9] = [1, 3, 9, 27, 81, 243, 729, 2187, 6561];

#[derive(Clone, Copy, PartialEq, Eq, Hash, Debug)]
pub struct Point {
    pub a: i32,
    pub b: i32,
    pub m: u8,
}

/// Degree, orientation, level.
#[derive(Clone, Copy, PartialEq, Eq, Hash, Debug)]
pub struct Star {
    pub d: u8,
    pub k: u8,
    pub n: u8,
}

#[derive(Clone, Copy)]
pub struct Row {
    pub adjacent: Point,
    pub first: Point,
    /// The first again where there is no second.
    pub second: Point,
}

const fn pt(a: i32, b: i32, m: u8) -> Point {
    Point { a, b, m }
}

const fn row(adjacent: Point, first: Point, second: Point) -> Row {
    Row { adjacent, first, second }
}

const fn turn(p: Point) -> Point {
    pt(-p.b, p.a + p.b, p.m)
}

const fn shrink(p: Point) -> Point {
    pt(p.a - p.b, p.a + 2 * p.b, p.m + 1)
}

type Pattern = [Row; 6];
const NONE: Row = row(pt(0, 0, 0), pt(0, 0, 0), pt(0, 0, 0));

const fn standard(d: usize) -> Pattern {
    let mut p = [NONE; 6];
    match d {
        3 => {
            p[0] = row(pt(1, 0, 0), pt(0, 1, 0), pt(0, 2, 0));
            p[1] = row(pt(-1, 1, 0), pt(-1, 0, 0), pt(-2, 0, 0));
            p[2] = row(pt(0, -1, 0), pt(1, -1, 0), pt(2, -2, 0));
        }
        4 => {
            p[0] = row(pt(1, 0, 0), pt(0, 1, 0), pt(0, 2, 0));
            p[1] = row(pt(-1, 1, 0), pt(-1, 0, 0), pt(-1, 0, 0));
            p[2] = row(pt(-1, -1, 1), pt(0, -2, 1), pt(0, -1, 0));
            p[3] = row(pt(1, -2, 1), pt(1, -1, 0), pt(1, -1, 0));
        }
        5 => {
            p[0] = row(pt(1, 0, 0), pt(0, 1, 0), pt(0, 1, 0));
            p[1] = row(pt(-1, 2, 1), pt(-2, 2, 1), pt(-1, 1, 0));
            p[2] = row(pt(-2, 1, 1), pt(-2, 0, 1), pt(-1, 0, 0));
            p[3] = row(pt(-1, -1, 1), pt(0, -2, 1), pt(0, -1, 0));
            p[4] = row(pt(1, -2, 1), pt(1, -1, 0), pt(1, -1, 0));
        }
        6 => {
            let mut r = row(pt(1, 0, 0), pt(2, 2, 1), pt(1, 1, 0));
            let mut j = 0;
            while j < 6 {
                p[j] = r;
                r = row(turn(r.adjacent), turn(r.first), turn(r.second));
                j += 1;
            }
        }
        _ => {}
    }
    p
}

const fn oriented(d: usize, k: usize) -> Pattern {
    let mut p = standard(d);
    let mut j = 0;
    while j < 6 {
        if k % 2 == 1 {
            p[j] = row(shrink(p[j].adjacent), shrink(p[j].first), shrink(p[j].second));
        }
        let mut t = 0;
        while t < k / 2 {
            p[j] = row(turn(p[j].adjacent), turn(p[j].first), turn(p[j].second));
            t += 1;
        }
        j += 1;
    }
    p
}

const fn all() -> [[Pattern; 12]; 7] {
    let mut table = [[[NONE; 6]; 12]; 7];
    let mut d = 3;
    while d < 7 {
        let mut k = 0;
        while k < 12 {
            table[d][k] = oriented(d, k);
            k += 1;
        }
        d += 1;
    }
    table
}

static PATTERNS: [[Pattern; 12]; 7] = all();

/// The rows of a star, in order.
#[inline]
pub fn rows(s: Star) -> &'static [Row] {
    &PATTERNS[s.d as usize][s.k as usize][..s.d as usize]
}

#[inline]
pub fn reduce(mut p: Point) -> Point {
    while p.m > 0 && p.a % 3 == 0 && p.b % 3 == 0 {
        p = pt(p.a / 3, p.b / 3, p.m - 1);
    }
    p
}

/// v and a pattern point scaled to level n, normalised.
#[inline]
pub fn sum(v: Point, pattern: Point, n: u8) -> Point {
    let m = pattern.m + n / 2;
    let deep = m.max(v.m);
    let (up_v, up) = (POW3[(deep - v.m) as usize], POW3[(deep - m) as usize]);
    reduce(pt(v.a * up_v + pattern.a * up, v.b * up_v + pattern.b * up, deep))
}

/// The ranges of a record's point.
#[inline]
pub fn in_range(p: Point) -> bool {
    p.m <= 6 && {
        let most = 251 * POW3[p.m as usize];
        (-most..=most).contains(&p.a) && (-most..=most).contains(&p.b)
    }
}

#[inline]
pub fn valid(p: Point, s: Star) -> bool {
    let orientations = match s.d {
        0 => return s.k == 0 && s.n == 0 && in_range(p) && is_normalised(p),
        3 => 4,
        4 | 5 => 12,
        6 => 2,
        _ => return false,
    };
    s.k < orientations && s.n <= 12 && (s.k ^ s.n) & 1 == 0 && in_range(p) && is_normalised(p)
}

#[inline]
fn is_normalised(p: Point) -> bool {
    p.m == 0 || p.a % 3 != 0 || p.b % 3 != 0
}

pub fn normalise(a: i32, b: i32, m: u8) -> [i32; 3] {
    let p = reduce(pt(a, b, m));
    [p.a, p.b, p.m as i32]
}

pub fn star(a: i32, b: i32, m: u8, d: u8, k: u8, n: u8) -> (u8, Points) {
    let (p, s) = (pt(a, b, m), Star { d, k, n });
    if !valid(p, s) {
        return (9, [0; 19]);
    }
    if d == 0 {
        return (14, [0; 19]);
    }
    let mut points = [0; 19];
    points[0] = d as i32;
    for (at, row) in points[1..].chunks_exact_mut(3).zip(rows(s)) {
        put_point(at, sum(p, row.adjacent, n));
    }
    (0, points)
}

pub fn put_point(at: &mut [i32], p: Point) {
    at.copy_from_slice(&[p.a, p.b, p.m as i32]);
}
