//! Where a point lies: in sides of a hexagon on the developed blade, and in the whole units in which a path is written.

use flaskbloom::Point;

/// A step of a is 30 units to the right, a step of b 15 to the right and 26 up: whole numbers, since 26/30 is nearly half the square root
/// of 3. The path's transform stretches the height by what is missing, so that nothing is out of place.
const STEP: i64 = 30;
const HALF_STEP: i64 = 15;
const RISE: i64 = 26;

/// Half the square root of 3: the height of a triangle with sides of 1.
pub fn height_of_triangle() -> f64 {
    3f64.sqrt() / 2.0
}

/// A point in sides of a hexagon, x to the right and y down.
pub fn place(p: Point) -> (f64, f64) {
    let part = thirds(p.m) as f64;
    let (a, b) = (f64::from(p.a), f64::from(p.b));
    ((a + b / 2.0) / part, -b * height_of_triangle() / part)
}

/// 3^m, for the depths of records: 0 to 6.
pub fn thirds(m: u8) -> i64 {
    3i64.pow(u32::from(m))
}

/// The length of a star's edges at a level, in sides of a hexagon.
pub fn edge(level: u8) -> f64 {
    let whole = 1.0 / thirds(level / 2) as f64;
    if level % 2 == 1 {
        whole / 3f64.sqrt()
    } else {
        whole
    }
}

/// The units of one path: fine enough for the points of a depth, and so many times finer.
#[derive(Clone, Copy)]
pub struct Units {
    pub depth: u8,
    pub finer: i64,
}

impl Units {
    /// A point of at most this depth, exactly.
    pub fn at(self, p: Point) -> (i64, i64) {
        let times = thirds(self.depth - p.m) * self.finer;
        let (a, b) = (i64::from(p.a), i64::from(p.b));
        ((STEP * a + HALF_STEP * b) * times, -RISE * b * times)
    }

    /// How many units make the side of a hexagon.
    pub fn side(self) -> f64 {
        (STEP * thirds(self.depth) * self.finer) as f64
    }

    /// The transform that takes these units to millimetres, at so many of them a side.
    pub fn transform(self, scale: f64) -> String {
        let (x, y) = (scale / self.side(), scale * height_of_triangle() / (self.side() / STEP as f64 * RISE as f64));
        format!("scale({x:.9} {y:.9})")
    }
}

/// The smallest box round some places.
#[derive(Clone, Copy)]
pub struct Bounds {
    pub left: f64,
    pub top: f64,
    pub right: f64,
    pub bottom: f64,
}

impl Bounds {
    /// A plan has a hexagon at least; of nothing it is a box of 1.
    pub fn of(points: impl Iterator<Item = Point>) -> Bounds {
        let one = |(x, y)| Bounds { left: x, top: y, right: x, bottom: y };
        let both = |all: Bounds, next: Bounds| Bounds {
            left: all.left.min(next.left),
            top: all.top.min(next.top),
            right: all.right.max(next.right),
            bottom: all.bottom.max(next.bottom),
        };
        points.map(|p| one(place(p))).reduce(both).unwrap_or(Bounds { left: 0.0, top: 0.0, right: 1.0, bottom: 1.0 })
    }

    pub fn width(self) -> f64 {
        self.right - self.left
    }

    pub fn height(self) -> f64 {
        self.bottom - self.top
    }
}

#[cfg(test)]
mod tests {
    use super::*;

    #[test]
    fn units_are_the_same_place() {
        let units = Units { depth: 2, finer: 8 };
        for p in [Point::new(1, 0, 0), Point::new(-7, 4, 1), Point::new(250, -251, 2)] {
            let ((x, y), (u, v)) = (place(p), units.at(p));
            let tall = units.side() / STEP as f64 * RISE as f64 / height_of_triangle();
            assert!((x - u as f64 / units.side()).abs() < 1e-9 && (y - v as f64 / tall).abs() < 1e-9);
        }
    }

    #[test]
    fn edges_shrink_by_the_root_of_three() {
        assert!((edge(2) - 1.0 / 3.0).abs() < 1e-12 && (edge(3) * 3f64.sqrt() - edge(2)).abs() < 1e-12);
    }
}
