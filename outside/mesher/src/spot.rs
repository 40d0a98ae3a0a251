//! Places in the plane, exactly.
//!
//! `Point` is document 01's [a, b, m]; `Spot` is the same place as a complex number x + yw over 3^8, so that places are added,
//! turned and compared without looking at depths. Every place that a valid record's star can name has depth at most 7.

use std::ops::{Add, Neg, Sub};

/// A point [a, b, m]: (a + bw)/3^m.
#[derive(Clone, Copy, PartialEq, Eq, Hash, Debug)]
pub struct Point {
    pub a: i32,
    pub b: i32,
    pub m: u8,
}

impl Point {
    pub const ZERO: Point = Point { a: 0, b: 0, m: 0 };

    pub fn new(a: i32, b: i32, m: u8) -> Point {
        Point { a, b, m }
    }

    /// "It is normalised when m = 0 or 3 fails to divide one of a, b."
    pub fn is_normalised(self) -> bool {
        self.m == 0 || self.a % 3 != 0 || self.b % 3 != 0
    }

    /// The normalised point of the same place.
    pub fn normalised(self) -> Point {
        let mut p = self;
        while !p.is_normalised() {
            p = Point::new(p.a / 3, p.b / 3, p.m - 1);
        }
        p
    }
}

/// The common depth.
const COMMON: u8 = 8;
const SCALE: i64 = 3i64.pow(COMMON as u32);

/// The place (x + yw)/3^8.
#[derive(Clone, Copy, PartialEq, Eq, Hash, Debug, PartialOrd, Ord)]
pub struct Spot {
    x: i64,
    y: i64,
}

impl Spot {
    /// The place of a point of depth at most 8.
    pub fn of(p: Point) -> Spot {
        assert!(p.m <= COMMON);
        let up = 3i64.pow((COMMON - p.m) as u32);
        Spot { x: p.a as i64 * up, y: p.b as i64 * up }
    }

    /// The normalised point at this place.
    pub fn point(self) -> Point {
        let (mut x, mut y, mut m) = (self.x, self.y, COMMON);
        while m > 0 && x % 3 == 0 && y % 3 == 0 {
            (x, y, m) = (x / 3, y / 3, m - 1);
        }
        Point::new(i32::try_from(x).unwrap(), i32::try_from(y).unwrap(), m)
    }

    /// "Turning by 60 degrees", which is multiplying by w: w(x + yw) = xw + y(w - 1).
    pub fn turned(self) -> Spot {
        Spot { x: -self.y, y: self.x + self.y }
    }

    /// Turned by 60 degrees, this many times.
    pub fn turned_by(self, times: i64) -> Spot {
        (0..times.rem_euclid(6)).fold(self, |s, _| s.turned())
    }

    pub fn doubled(self) -> Spot {
        self + self
    }

    /// A third of it; nothing is lost, the common depth leaves room.
    pub fn third(self) -> Spot {
        assert!(self.x % 3 == 0 && self.y % 3 == 0, "a place deeper than the common depth");
        Spot { x: self.x / 3, y: self.y / 3 }
    }
}

impl Add for Spot {
    type Output = Spot;
    fn add(self, o: Spot) -> Spot {
        Spot { x: self.x + o.x, y: self.y + o.y }
    }
}

impl Sub for Spot {
    type Output = Spot;
    fn sub(self, o: Spot) -> Spot {
        Spot { x: self.x - o.x, y: self.y - o.y }
    }
}

impl Neg for Spot {
    type Output = Spot;
    fn neg(self) -> Spot {
        Spot { x: -self.x, y: -self.y }
    }
}

/// The edge of length (1/sqrt 3)^level at `toward` times 30 degrees. The lattice has it when both are even or both odd.
///
/// The edge r = (1 + w)/3 has length 1/sqrt 3 at 30 degrees, and r squared is w/3: length 1/3 at 60 degrees.
pub fn edge(toward: i64, level: u8) -> Spot {
    assert!((toward - level as i64) % 2 == 0, "no edge of this length lies that way");
    let mut e = Spot { x: SCALE, y: 0 };
    if level % 2 == 1 {
        e = (e + e.turned()).third();
    }
    for _ in 0..level / 2 {
        e = e.third().turned();
    }
    e.turned_by((toward - level as i64) / 2)
}
