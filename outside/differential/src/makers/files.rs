//! Files: written, with faults in lines, fields and bytes, and scribbled out of nothing.

use super::tables::{invalid, some_star};
use crate::rng::Rng;
use mesher::lines;
use mesher::mesh::Mesh;
use mesher::record::Record;
use mesher::spot::Point;

/// A file of these records.
pub fn file(records: &[Record], reduced: bool) -> String {
    let mesh = Mesh::of(records);
    if reduced {
        lines::reduced(&mesh)
    } else {
        lines::full(&mesh)
    }
}

/// A file with a fault or two.
pub fn faulty(rng: &mut Rng, file: &str) -> Vec<u8> {
    let mut lines: Vec<String> = file.split_inclusive('\n').map(str::to_string).collect();
    for _ in 0..1 + rng.below(2) {
        if !lines.is_empty() {
            spoil_lines(rng, &mut lines);
        }
    }
    let mut bytes = lines.concat().into_bytes();
    if rng.once_in(3) {
        spoil_bytes(rng, &mut bytes);
    }
    bytes
}

fn spoil_lines(rng: &mut Rng, lines: &mut Vec<String>) {
    let (i, j) = (rng.below(lines.len()), rng.below(lines.len()));
    match rng.below(12) {
        0 => lines.swap(i, j),
        1 => drop(lines.remove(i)),
        2 => lines.insert(i, lines[j].clone()),
        3 => {
            let last = lines.len() - 1;
            lines[last].pop();
        }
        4 => drop(lines[i].pop()),
        5 => lines.insert(i, "\n".to_string()),
        6 => lines.push(rng.pick(&["\n", "\t\t\t\t\t\n", "0", "-", "251\t251\t6\t3\t0\t0\n"]).to_string()),
        7 => {
            let fields = lines[i].trim_end().replace('\t', *rng.pick(&[" ", "\t\t", ",", "\t "]));
            lines[i] = fields + "\n";
        }
        8 => lines[i] = lines[i].trim_end().to_string() + *rng.pick(&["\t\n", "\t0\n", "\r\n", "\0\n", " \n", "\u{b}\n"]),
        9 => spoil_record(rng, &mut lines[i]),
        _ => spoil_field(rng, &mut lines[i]),
    }
}

fn spoil_record(rng: &mut Rng, line: &mut String) {
    if let Ok(r) = lines::numbers(line.trim_end().as_bytes()).and_then(lines::record) {
        let other = if rng.once_in(2) { invalid(rng, r) } else { some_star(rng, r.point()) };
        *line = lines::line(&other);
    }
}

fn spoil_field(rng: &mut Rng, line: &mut String) {
    let mut fields: Vec<String> = line.trim_end_matches('\n').split('\t').map(str::to_string).collect();
    let i = rng.below(fields.len());
    let v = fields[i].clone();
    let value: i64 = v.parse().unwrap_or(0);
    fields[i] = match rng.below(18) {
        0 => format!("+{v}"),
        1 => "-0".to_string(),
        2 => format!("0{v}"),
        3 => String::new(),
        4 => "-".to_string(),
        5 => format!("{v}x"),
        6 => "99999999999999999999999".to_string(),
        7 => (value + (1 << 32)).to_string(),
        8 => (value + 256).to_string(),
        9 => (value - 256).to_string(),
        10 => format!(" {v}"),
        11 => format!("-{v}"),
        12 => "2147483648".to_string(),
        13 => "-2147483649".to_string(),
        14 => format!("{}00000000000000000000", value),
        15 => "18446744073709551616".to_string(),
        16 => (value + 1).to_string(),
        _ => (value - 1).to_string(),
    };
    *line = fields.join("\t") + "\n";
}

pub fn spoil_bytes(rng: &mut Rng, bytes: &mut Vec<u8>) {
    const LIKELY: &[u8] = b"0123456789-\t\n\t\n+ \r\0x\xff";
    let at = rng.below(bytes.len() + 1);
    match rng.below(4) {
        0 if at < bytes.len() => bytes[at] = *rng.pick(LIKELY),
        1 if at < bytes.len() => drop(bytes.remove(at)),
        2 => bytes.insert(at, *rng.pick(LIKELY)),
        3 => bytes.truncate(at),
        _ => {}
    }
}

/// Bytes out of nothing, of those that files are made of.
pub fn scribble(rng: &mut Rng, most: usize) -> Vec<u8> {
    const LIKELY: &[u8] = b"0001234567-\t\t\t\t\n";
    let mut bytes = Vec::new();
    for _ in 0..rng.below(most) {
        match rng.below(6) {
            0 => bytes.extend(rng.pick(&["0\t0\t0\t3\t0\t0\n", "1\t0\t0\t6\t0\t0\n", "-1\t0\t0\t0\t0\t0\n", "1\t1\t1\t3\t3\t1\n"]).bytes()),
            1 => bytes.extend(
                lines::line(&{
                    let p = small(rng);
                    some_star(rng, p)
                })
                .bytes(),
            ),
            _ => bytes.push(*rng.pick(LIKELY)),
        }
    }
    bytes
}

fn small(rng: &mut Rng) -> Point {
    Point::new(rng.from_to(-4, 4), rng.from_to(-4, 4), rng.below(3) as u8).normalised()
}
