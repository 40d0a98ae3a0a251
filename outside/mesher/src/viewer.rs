//! Files for a viewer, OFF and OBJ: document 02's fifth ticket. Vertices stand in a map from places to numbers; a coordinate is guessed by
//! floating point and then moved until the whole numbers say that it is the nearest.

use crate::lines::key;
use crate::mesh::{Mesh, Refused};
use crate::record::Record;
use crate::slips::{made, Slip};
use crate::spot::Spot;
use std::collections::{BTreeSet, HashMap};

#[derive(Clone, Copy, PartialEq, Eq, Debug)]
pub enum Format {
    Off,
    Obj,
}

/// The file of a mesh; refused by 7 where the faces query of some internal vertex is.
pub fn file(mesh: &Mesh, format: Format) -> Result<String, Refused> {
    let mut vertices: Vec<&Record> = mesh.records().collect();
    vertices.sort_by_key(|r| key(r));
    if made(Slip::NumbersByA) {
        vertices.sort_by_key(|r| (r.a, r.b, r.m));
    }
    let numbers: HashMap<Spot, usize> = vertices.iter().enumerate().map(|(i, r)| (Spot::of(r.point()), i)).collect();
    let mut faces = BTreeSet::new();
    for v in vertices.iter().filter(|v| v.d != 0) {
        let opposite = match mesh.opposites(v) {
            Err(_) if made(Slip::TornLeftOut) => continue,
            asked => asked?,
        };
        let adjacent = mesh.neighbours(v)?;
        for j in 0..adjacent.len() {
            let round = [Spot::of(v.point()), adjacent[j], opposite[j], adjacent[(j + 1) % adjacent.len()]];
            faces.insert(least_first(round.map(|s| numbers[&s])));
        }
    }
    let mut edges: BTreeSet<[usize; 2]> = faces.iter().flat_map(sides).collect();
    if made(Slip::HeadByStars) {
        let inside = |[p, q]: &[usize; 2]| vertices[*p].d != 0 || vertices[*q].d != 0;
        edges.retain(inside);
    }
    Ok(written(format, &vertices, &faces, edges.len()))
}

fn written(format: Format, vertices: &[&Record], faces: &BTreeSet<[usize; 4]>, edges: usize) -> String {
    let obj = format == Format::Obj;
    let mut text = String::new();
    if !obj {
        let [second, third] = if made(Slip::EdgesBeforeFaces) { [edges, faces.len()] } else { [faces.len(), edges] };
        text += &format!("OFF\n{} {second} {third}\n", vertices.len());
    }
    for r in vertices {
        let (x, y) = position(r);
        text += &format!("{}{x} {y} 0.0000\n", if obj { "v " } else { "" });
    }
    let first = (obj && !made(Slip::ObjFromZero)) as usize;
    let mut lines: Vec<String> = faces.iter().map(|f| f.map(|number| (number + first).to_string()).join(" ")).collect();
    if made(Slip::FacesAsText) {
        lines.sort();
    }
    lines.iter().for_each(|line| text += &format!("{} {line}\n", if obj { 'f' } else { '4' }));
    text
}

/// "four vertex numbers counter-clockwise, smallest first"
fn least_first(mut face: [usize; 4]) -> [usize; 4] {
    if made(Slip::FacesClockwise) {
        face.reverse();
    }
    if made(Slip::FaceSorted) {
        face.sort_unstable();
    }
    while face[0] > face[1].min(face[2]).min(face[3]) && !made(Slip::FaceFromItsVertex) {
        face.rotate_left(1);
    }
    face
}

fn sides(&[a, b, c, d]: &[usize; 4]) -> [[usize; 2]; 4] {
    [[a, b], [b, c], [c, d], [d, a]].map(|[p, q]| [p.min(q), p.max(q)])
}

/// x and y with four decimals.
pub fn position(r: &Record) -> (String, String) {
    let (power, across, up) = (3_i128.pow(r.m as u32), 2 * r.a as i128 + r.b as i128, r.b as i128);
    let x = nearest(across.abs() as f64 / (2.0 * power as f64), |n| (2 * power * n - 10_000 * across.abs()).abs() < power);
    let y = nearest(up.abs() as f64 * 3_f64.sqrt() / (2.0 * power as f64), |n| {
        let (low, exact, high) = ((2 * n - 1) * power, 300_000_000 * up * up, (2 * n + 1) * power);
        (n == 0 || low * low < exact) && exact < high * high
    });
    (decimal(across < 0, x), decimal(up < 0, y))
}

/// The whole number of ten-thousandths that passes the test, next to a guess.
fn nearest(guess: f64, is: impl Fn(i128) -> bool) -> i128 {
    let near = (guess * 10_000.0).round() as i128;
    if made(Slip::RoundedDown) {
        return (guess * 10_000.0).floor() as i128;
    }
    [near, near - 1, near + 1].into_iter().find(|n| *n >= 0 && is(*n)).expect("a nearest one")
}

fn decimal(below_zero: bool, n: i128) -> String {
    let sign = if below_zero || n == 0 && made(Slip::SignedZero) { "-" } else { "" };
    format!("{sign}{}.{:04}", n / 10_000, n % 10_000)
}
