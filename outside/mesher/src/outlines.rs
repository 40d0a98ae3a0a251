//! Document 02, ticket 9: passes round an outline. On which side of it a place lies is worked out once for each place, in the machine's doubles, and
//! kept in a map; a pass works on a copy of the table, thrown away where one of its subdivisions is refused.

use crate::calls::subdivided;
use crate::mesh::{Mesh, Refused};
use crate::record::{Record, HIGHEST};
use crate::slips::{made, Slip};
use crate::slots::Slots;
use crate::spot::{Point, Spot};
use crate::star::star;
use std::collections::HashMap;

/// "either a disc with centre and radius or a line with two slopes and an offset"
#[derive(Clone, Copy, Debug)]
pub enum Outline {
    Disc { x: f64, y: f64, radius: f64 },
    Line { p: f64, q: f64, s: f64 },
}

const ROOT: f64 = 1.7320508075688772;
const FARTHEST: f64 = 1000.0;
const MOST_PASSES: u8 = 12;

/// "x is 2a+b divided by 2 × 3^m; y is b times 1.7320508075688772, then divided by 2 × 3^m", of the normalised point.
pub fn position(p: Point) -> [f64; 2] {
    let p = if made(Slip::PositionAsSpelled) { Point::new(3 * p.a, 3 * p.b, p.m + 1) } else { p };
    let (across, up, over) = ((2 * p.a + p.b) as f64, p.b as f64, (2 * 3i32.pow(p.m as u32)) as f64);
    let y = if made(Slip::DividedFirst) { up / over * ROOT } else { up * ROOT / over };
    [across / over, y]
}

/// "each operation rounded once, in that order": the sum of two squares or products, and what is taken off it.
fn sum_less([a, b]: [f64; 2], [c, d]: [f64; 2], off: f64) -> f64 {
    if made(Slip::FusedSum) {
        return a.mul_add(b, c * d) - off;
    }
    if made(Slip::TakenOffFirst) {
        return a * b - off + c * d;
    }
    (a * b + c * d) - off
}

impl Outline {
    /// "A disc's value is (dx×dx + dy×dy) - r×r ..; a line's is (p×x + q×y) - s"
    pub fn value(&self, [x, y]: [f64; 2]) -> f64 {
        match *self {
            Outline::Disc { x: across, y: up, radius } => {
                let (dx, dy) = (x - across, y - up);
                sum_less([dx, dx], [dy, dy], radius * radius)
            }
            Outline::Line { p, q, s } => sum_less([p, x], [q, y], s),
        }
    }

    fn is_below(&self, p: Point) -> bool {
        let value = self.value(position(p));
        value < 0.0 || made(Slip::ZeroIsBelow) && value == 0.0
    }

    /// Why it is refused with 17.
    fn fault(&self) -> Option<&'static str> {
        let (numbers, radius) = match *self {
            Outline::Disc { x, y, radius } => ([x, y, radius], Some(radius)),
            Outline::Line { p, q, s } => ([p, q, s], None),
        };
        let not_finite = |x: &f64| !x.is_finite() && !(made(Slip::NotANumberFits) && x.is_nan());
        let beyond = |x: &f64| x.abs() > FARTHEST || made(Slip::ThousandRefused) && x.abs() == FARTHEST;
        let too_small = |r: f64| r < 0.0 || r == 0.0 && !made(Slip::RadiusOfZero);
        if numbers.iter().any(not_finite) {
            Some("an outline number not finite")
        } else if numbers.iter().any(beyond) {
            Some("an outline number beyond 1,000")
        } else if radius.is_some_and(too_small) {
            Some("a radius not above zero")
        } else {
            None
        }
    }
}

/// Why a request is refused with 17.
pub fn fault(outline: &Outline, passes: u8, level: u8) -> Option<&'static str> {
    if passes == 0 && made(Slip::NoPassesNotJudged) {
        return None;
    }
    let most = if made(Slip::ThirteenPasses) { MOST_PASSES + 1 } else { MOST_PASSES };
    let too_many = (passes > most).then_some("passes over 12");
    let too_high = (level > HIGHEST).then_some("level over 12");
    outline.fault().or(too_many).or(too_high)
}

/// "lists, in full-file order, the degree 6 vertices below a given level with a crossing edge"
fn listed(mesh: &Mesh, outline: &Outline, level: u8) -> Vec<Record> {
    let mut sides: HashMap<Spot, bool> = HashMap::new();
    let mut below = |spot: Spot| *sides.entry(spot).or_insert_with(|| outline.is_below(spot.point()));
    let low = |r: &&Record| r.d == 6 && (r.n < level || made(Slip::LevelListedToo) && r.n == level);
    let mut list = Vec::new();
    for v in mesh.records().filter(low) {
        let here = below(Spot::of(v.point()));
        let ends = star(v).into_iter().map(|corner| corner.adjacent);
        let mut seen = ends.filter(|end| !made(Slip::FarEndLookedUp) || mesh.at(end.point()).is_some());
        if seen.any(|end| below(end) != here) {
            list.push(*v);
        }
    }
    match made(Slip::ListByA) {
        true => list.sort_by_key(|v| (v.a, v.b, v.m)),
        false => list.sort_by_key(crate::lines::key),
    }
    list
}

/// What passes came to.
pub struct Passes {
    pub done: u64,
    /// How many subdivisions those that were made have.
    pub subdivisions: usize,
    pub refused: Option<Refused>,
}

/// So many passes on an opened table, until one is refused.
pub fn refined(slots: &mut Slots, mesh: &mut Mesh, outline: &Outline, passes: u8, level: u8) -> Passes {
    let mut all = Passes { done: 0, subdivisions: 0, refused: None };
    for _ in 0..passes {
        let (mut next, mut grown) = (slots.clone(), mesh.clone());
        match pass(&mut next, &mut grown, outline, level) {
            Ok(count) => {
                (*slots, *mesh) = (next, grown);
                all.done += (count > 0 || !made(Slip::EmptyPassesNotCounted)) as u64;
                all.subdivisions += count;
            }
            Err(refused) => {
                if made(Slip::PassNotUndone) {
                    *slots = next;
                }
                all.done += made(Slip::RefusedPassCounted) as u64;
                all.refused = Some(refused);
                break;
            }
        }
    }
    all
}

/// One pass: how many it subdivided. Refused, both are left half done.
fn pass(slots: &mut Slots, mesh: &mut Mesh, outline: &Outline, level: u8) -> Result<usize, Refused> {
    let list = listed(mesh, outline, level);
    for (i, v) in list.iter().enumerate() {
        subdivided(slots, mesh, v.a, v.b, v.m).map_err(|refused| undone(refused, i))?;
    }
    if made(Slip::ListMadeAnew) {
        let again = listed(mesh, outline, level);
        for v in again {
            subdivided(slots, mesh, v.a, v.b, v.m)?;
        }
    }
    Ok(list.len())
}

/// A refusal, and whether there is something to undo.
fn undone(Refused(number, why): Refused, before: usize) -> Refused {
    match (number, before) {
        (_, 0) => Refused(number, why),
        (7, _) => Refused(7, "torn, with others to undo"),
        (_, _) => Refused(number, "too few slots, with others to undo"),
    }
}
