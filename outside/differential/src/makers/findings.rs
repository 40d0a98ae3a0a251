//! Lists of findings: in every spelling, lost ones, notes of any bytes; and with faults in lines, fields and bytes.

use super::files::spoil_bytes;
use crate::rng::Rng;
use mesher::record::Record;
use mesher::spot::Point;

const FARTHEST: i32 = 1_000_000;
const DEEPEST: u8 = 12;
const LONGEST_NOTE: usize = 80;

/// A list of findings over these records, without a fault.
pub fn findings_list(rng: &mut Rng, records: &[Record], most: usize) -> Vec<u8> {
    good_lines(rng, records, most).concat()
}

/// A list of findings with a fault or two.
pub fn faulty_findings(rng: &mut Rng, records: &[Record], most: usize) -> Vec<u8> {
    let mut lines = good_lines(rng, records, most);
    lines.push(good_line(rng, records));
    for _ in 0..1 + rng.below(2) {
        let i = rng.below(lines.len());
        spoil_line(rng, &mut lines, i);
    }
    let mut bytes = lines.concat();
    if rng.once_in(6) {
        spoil_bytes(rng, &mut bytes);
    }
    bytes
}

fn good_lines(rng: &mut Rng, records: &[Record], most: usize) -> Vec<Vec<u8>> {
    let mut lines: Vec<Vec<u8>> = Vec::new();
    for _ in 0..rng.below(most + 1) {
        let again = !lines.is_empty() && rng.once_in(6);
        let line = if again { rng.pick(&lines).clone() } else { good_line(rng, records) };
        lines.push(line);
    }
    lines
}

fn good_line(rng: &mut Rng, records: &[Record]) -> Vec<u8> {
    let number = match rng.below(5) {
        0 => *rng.pick(&[1, 9, 10, 99_999, 100_000, 999_999]),
        1 => rng.from_to(1, 999_999),
        _ => rng.from_to(1, 12),
    };
    let p = finding_point(rng, records);
    let mut line = format!("{number}\t{}\t{}\t{}\t", p.a, p.b, p.m).into_bytes();
    line.extend(note(rng));
    line.push(b'\n');
    line
}

/// A point within the list's limits: a vertex's in some spelling, few vertices more often than others; or another.
fn finding_point(rng: &mut Rng, records: &[Record]) -> Point {
    if records.is_empty() || rng.once_in(5) {
        let far = *rng.pick(&[2, 20, FARTHEST]);
        let numerator = |rng: &mut Rng| match rng.below(6) {
            0 => *rng.pick(&[FARTHEST, -FARTHEST, 251, -251, 252, 531_441, 0]),
            _ => rng.from_to(-far, far),
        };
        return Point::new(numerator(rng), numerator(rng), *rng.pick(&[0, 0, 1, 2, 6, 7, DEEPEST]));
    }
    let few = &records[..records.len().min(3)];
    let p = if rng.once_in(3) { rng.pick(few).point() } else { rng.pick(records).point() };
    let deeper = *rng.pick(&[0, 0, 1, 2, 12]);
    (0..deeper).fold(p, |p, _| within(tripled(p)).unwrap_or(p))
}

/// The same place, a depth deeper.
fn tripled(p: Point) -> Point {
    Point::new(3 * p.a, 3 * p.b, p.m + 1)
}

fn within(p: Point) -> Option<Point> {
    Some(p).filter(|p| p.m <= DEEPEST && p.a.abs() <= FARTHEST && p.b.abs() <= FARTHEST)
}

/// A note of any bytes but tab and line feed, often empty or as long as can be.
fn note(rng: &mut Rng) -> Vec<u8> {
    let long = *rng.pick(&[0, 0, 1, 3, 12, LONGEST_NOTE - 1, LONGEST_NOTE]);
    let likely = rng.once_in(2);
    let mut note: Vec<u8> = (0..long).map(|_| if likely { *rng.pick(b"pit, 3 mm?-09") } else { note_byte(rng) }).collect();
    if long > 0 && rng.once_in(6) {
        note[long - 1] = *rng.pick(b"\r\0\xff ?");
    }
    note
}

fn note_byte(rng: &mut Rng) -> u8 {
    match rng.next() as u8 {
        b'\t' | b'\n' => b' ',
        byte => byte,
    }
}

fn spoil_line(rng: &mut Rng, lines: &mut Vec<Vec<u8>>, i: usize) {
    match rng.below(12) {
        0 => drop(lines[i].pop()),
        1 => {
            let last = lines.len() - 1;
            lines[last].pop();
        }
        2 => lines.insert(i, rng.pick(&[&b"\n"[..], b"\t\t\t\t\n", b"\r\n", b"1\n", b"?\t1\tpit\n", b"-1\t0\t0\t2\trim\n"]).to_vec()),
        3 => spoil_note(rng, &mut lines[i]),
        4 => {
            // the tab before an empty note left out
            let kept: Vec<&[u8]> = lines[i].split(|byte| *byte == b'\t').take(4).collect();
            lines[i] = [kept.join(&b'\t'), b"\n".to_vec()].concat();
        }
        5 => spoil_spelling(rng, &mut lines[i]),
        _ => spoil_number(rng, &mut lines[i]),
    }
}

/// A tab in the note, or a note that is too long.
fn spoil_note(rng: &mut Rng, line: &mut Vec<u8>) {
    let at = line.len().saturating_sub(1);
    match rng.below(3) {
        0 => line.insert(at, b'\t'),
        1 => drop(line.splice(at..at, vec![b'x'; LONGEST_NOTE + 1])),
        _ => {
            let fields: Vec<&[u8]> = line.split(|byte| *byte == b'\t').take(4).collect();
            let note = vec![note_byte(rng); LONGEST_NOTE + 1];
            *line = [fields.join(&b'\t'), b"\t".to_vec(), note, b"\n".to_vec()].concat();
        }
    }
}

/// The point spelled so deep that it is past the limits, though the place is the same.
fn spoil_spelling(rng: &mut Rng, line: &mut Vec<u8>) {
    let Some(finding) = mesher::findings::parse(line).ok().and_then(|mut list| list.pop()) else { return };
    let mut p = finding.point.normalised();
    while within(p).is_some() {
        p = tripled(p);
    }
    let note = if rng.once_in(2) { finding.note } else { Vec::new() };
    *line = [format!("{}\t{}\t{}\t{}\t", finding.number, p.a, p.b, p.m).into_bytes(), note, b"\n".to_vec()].concat();
}

/// One of the four numbers: not as document 01 has them, or past its limit.
fn spoil_number(rng: &mut Rng, line: &mut Vec<u8>) {
    let mut fields: Vec<Vec<u8>> = line.split(|byte| *byte == b'\t').map(<[u8]>::to_vec).collect();
    let i = rng.below(fields.len().min(4));
    let v = String::from_utf8_lossy(&fields[i]).into_owned();
    let value: i64 = v.parse().unwrap_or(0);
    let beyond: [&[i64]; 4] = [&[0, 1_000_000, -1], &[1_000_001, -1_000_001], &[1_000_001, -1_000_001], &[13, -1, 256]];
    fields[i] = match rng.below(14) {
        0 => format!("+{v}"),
        1 => "-0".to_string(),
        2 => format!("0{v}"),
        3 => String::new(),
        4 => "-".to_string(),
        5 => format!("{v}x"),
        6 => format!(" {v}"),
        7 => (value + (1 << 32)).to_string(),
        8 => "99999999999999999999999".to_string(),
        9 => "18446744073709551617".to_string(),
        _ => rng.pick(beyond[i]).to_string(),
    }
    .into_bytes();
    *line = fields.join(&b'\t');
}
