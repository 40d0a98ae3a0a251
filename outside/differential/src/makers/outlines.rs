//! Outlines: through and beside vertices, so that values come out as zero and next to it; numbers at the limits of what fits, and beyond.

use crate::rng::Rng;
use mesher::outlines::{position, Outline};
use mesher::record::Record;
use mesher::spot::{Point, Spot};
use mesher::star::star;

/// A number from -1 to 1.
fn fraction(rng: &mut Rng) -> f64 {
    rng.from_to(-1_000_000, 1_000_000) as f64 / 1_000_000.0
}

/// The number itself, or the next one farther from zero or nearer to it.
fn about(rng: &mut Rng, x: f64) -> f64 {
    match rng.below(4) {
        0 => f64::from_bits(x.to_bits() + 1),
        1 if x != 0.0 => f64::from_bits(x.to_bits() - 1),
        1 => -x,
        _ => x,
    }
}

/// A vertex of degree 6.
fn six(rng: &mut Rng, records: &[Record]) -> Option<Record> {
    let sixes: Vec<&Record> = records.iter().filter(|r| r.d == 6 && r.is_valid()).collect();
    (!sixes.is_empty()).then(|| **rng.pick(&sixes))
}

/// Where an end of one of its edges lies.
fn beside(rng: &mut Rng, v: &Record) -> [f64; 2] {
    let ends: Vec<Spot> = star(v).into_iter().map(|corner| corner.adjacent).collect();
    position(rng.pick(&ends).point())
}

/// Where a vertex of degree 6, or an end of an edge of it, lies; without one, any vertex.
fn place(rng: &mut Rng, records: &[Record]) -> [f64; 2] {
    match six(rng, records) {
        None => position(Point::new(rng.from_to(-5, 5), rng.from_to(-5, 5), 0)),
        Some(v) if rng.once_in(7) => position(v.point()),
        Some(v) => beside(rng, &v),
    }
}

/// A disc round a vertex, its edge through the ends of the vertex's own edges: whether any of these crosses turns on the last bit.
fn round_a_star(rng: &mut Rng, v: &Record) -> [f64; 3] {
    let ([x, y], [u, w]) = (position(v.point()), beside(rng, v));
    let radius = ((u - x) * (u - x) + (w - y) * (w - y)).sqrt();
    [x, y, about(rng, radius)]
}

/// The numbers of a disc.
pub fn disc_outline(rng: &mut Rng, records: &[Record]) -> [f64; 3] {
    if let Some(v) = six(rng, records).filter(|_| rng.once_in(4)) {
        return round_a_star(rng, &v);
    }
    let [x, y] = place(rng, records);
    if rng.once_in(2) {
        let wide = *rng.pick(&[0.01, 0.1, 0.5, 1.0, 3.0]);
        return [x + wide * fraction(rng), y + wide * fraction(rng), wide * (1.001 + fraction(rng))];
    }
    // its edge through a place: the value there is zero or next to it
    let [u, v] = place(rng, records);
    let (dx, dy) = (u - x, v - y);
    let radius = (dx * dx + dy * dy).sqrt();
    [x, y, about(rng, if radius > 0.0 { radius } else { 0.2 })]
}

/// A line through an end of one of a vertex's edges, nearly across that edge: whether the edge crosses turns on the last bit, and no other does.
fn past_a_star(rng: &mut Rng, v: &Record) -> [f64; 3] {
    let ([x, y], [u, w]) = (position(v.point()), beside(rng, v));
    let (p, q) = (u - x + 0.01 * (u - x) * fraction(rng), w - y + 0.01 * (u - x) * fraction(rng));
    let through = Outline::Line { p, q, s: 0.0 }.value([u, w]);
    [p, q, about(rng, through)]
}

/// The numbers of a line.
pub fn line_outline(rng: &mut Rng, records: &[Record]) -> [f64; 3] {
    if let Some(v) = six(rng, records).filter(|_| rng.once_in(4)) {
        return past_a_star(rng, &v);
    }
    let [x, y] = place(rng, records);
    let [p, q] = match rng.below(6) {
        0 => [1.0, 0.0],
        1 => [0.0, 1.0],
        2 => [-0.0, -1.0],
        3 => [0.0, 0.0],
        _ => [fraction(rng), fraction(rng)],
    };
    // through a place: the value there is zero or next to it
    let through = Outline::Line { p, q, s: 0.0 }.value([x, y]);
    let aside = if rng.once_in(2) { 0.0 } else { 0.1 * fraction(rng) };
    [p, q, if aside == 0.0 { about(rng, through) } else { through + aside }]
}

/// One of its numbers at the limit, beyond it, or no number.
pub fn at_the_limits(rng: &mut Rng, mut numbers: [f64; 3]) -> [f64; 3] {
    let past = f64::from_bits(1000f64.to_bits() + 1);
    let least = f64::from_bits(1);
    numbers[rng.below(3)] = *rng.pick(&[
        f64::NAN,
        f64::INFINITY,
        f64::NEG_INFINITY,
        f64::MAX,
        1000.0,
        -1000.0,
        past,
        -past,
        0.0,
        -0.0,
        least,
        -least,
        f64::MIN_POSITIVE,
        -1.0,
    ]);
    numbers
}
