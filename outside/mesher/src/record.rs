//! Records: six fields, and which of them are valid.

use crate::spot::Point;

#[derive(Clone, Copy, PartialEq, Eq, Hash, Debug)]
pub struct Record {
    pub a: i32,
    pub b: i32,
    pub m: u8,
    pub d: u8,
    pub k: u8,
    pub n: u8,
}

/// "|a| and |b| are at most 251 x 3^m"
pub const REACH: i64 = 251;
pub const DEEPEST: u8 = 6;
pub const HIGHEST: u8 = 12;

impl Record {
    pub fn at(p: Point, d: u8, k: u8, n: u8) -> Record {
        Record { a: p.a, b: p.b, m: p.m, d, k, n }
    }

    pub fn point(&self) -> Point {
        Point::new(self.a, self.b, self.m)
    }

    /// What is wrong with it, clause by clause; nothing, where it is valid.
    pub fn fault(&self) -> Option<&'static str> {
        if self.d == 0 && (self.k != 0 || self.n != 0) {
            return Some("degree 0 with k or n not 0");
        }
        let orientations = match self.d {
            0 => 1,
            3 => 4,
            4 | 5 => 12,
            6 => 2,
            _ => return Some("no such degree"),
        };
        if !in_reach(self.point()) {
            Some("point out of range")
        } else if !self.point().is_normalised() {
            Some("point not normalised")
        } else if self.n > HIGHEST {
            Some("level over 12")
        } else if self.k >= orientations {
            Some("orientation out of range")
        } else if self.k % 2 != self.n % 2 {
            Some("k and n not both even or both odd")
        } else {
            None
        }
    }

    pub fn is_valid(&self) -> bool {
        self.fault().is_none()
    }
}

/// The ranges of a record's point.
pub fn in_reach(p: Point) -> bool {
    p.m <= DEEPEST && (p.a as i64).abs().max((p.b as i64).abs()) <= REACH * 3i64.pow(p.m as u32)
}
