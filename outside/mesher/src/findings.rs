//! The inspectors' findings joined with a mesh: document 02's first ticket. A list is cut into lines and each line into fields; the vertices
//! stand in a map in file order, each with its findings, so that nothing is sorted.

use crate::lines::{cut, key, number};
use crate::record::Record;
use crate::slips::{made, Slip};
use crate::spot::Point;
use std::collections::BTreeMap;

/// "number 1 to 999,999 (repeats allowed), a and b within 1,000,000 either way, m 0 to 12, and a note of 0 to 80 bytes without tab"
const MOST_NUMBER: i64 = 999_999;
const FARTHEST: i64 = 1_000_000;
const DEEPEST: i64 = 12;
const LONGEST_NOTE: usize = 80;

/// A line of the list, its point as written.
#[derive(Clone, PartialEq, Eq, Debug)]
pub struct Finding {
    pub number: i64,
    pub point: Point,
    pub note: Vec<u8>,
}

/// The joined list, and how many of its findings are on the plan and how many lost.
pub struct Joined {
    pub text: Vec<u8>,
    pub on_plan: usize,
    pub lost: usize,
}

/// The findings of a list; or the first malformed line, the first line being 1, and what is wrong with it.
pub fn parse(list: &[u8]) -> Result<Vec<Finding>, (u64, &'static str)> {
    let (mut pieces, rest) = cut(list);
    let open = !rest.is_empty();
    if open {
        pieces.push(rest);
    }
    let mut findings = Vec::new();
    for (i, piece) in pieces.iter().enumerate() {
        let line = if made(Slip::FindingsFromZero) { i as u64 } else { i as u64 + 1 };
        findings.push(finding(piece).map_err(|why| (line, why))?);
        if open && i + 1 == pieces.len() && !made(Slip::LastFindingOpen) {
            return Err((line, "a line without its line feed"));
        }
    }
    Ok(findings)
}

/// "one line each, tabs between, numbers as in Document 01's files"
fn finding(piece: &[u8]) -> Result<Finding, &'static str> {
    let fields: Vec<&[u8]> = piece.split(|byte| *byte == b'\t').collect();
    let (numbers, note) = match fields[..] {
        [no, a, b, m, note] => ([no, a, b, m], note),
        [no, a, b, m] if made(Slip::NoteWithoutTab) => ([no, a, b, m], &b""[..]),
        _ if fields.len() < 5 => return Err("fewer than five fields"),
        _ => return Err("a tab in the note"),
    };
    let longest = if made(Slip::NoteOf81) { LONGEST_NOTE + 1 } else { LONGEST_NOTE };
    if note.len() > longest {
        return Err("a note over 80 bytes");
    }
    let [no, a, b, m] = [number(numbers[0])?, number(numbers[1])?, number(numbers[2])?, number(numbers[3])?];
    let [a, b, m] = if made(Slip::LimitsAfterNormalising) { reduced([a, b, m]) } else { [a, b, m] };
    let least = if made(Slip::FindingZero) { 0 } else { 1 };
    if !(least..=MOST_NUMBER).contains(&no) {
        return Err("number not 1 to 999,999");
    }
    if a.abs() > FARTHEST {
        return Err("a beyond 1,000,000");
    }
    if b.abs() > FARTHEST {
        return Err("b beyond 1,000,000");
    }
    if !(0..=DEEPEST).contains(&m) {
        return Err("m not 0 to 12");
    }
    Ok(Finding { number: no, point: Point::new(a as i32, b as i32, m as u8), note: note.to_vec() })
}

/// The numbers of the normalised point, for the slip that judges those.
fn reduced([a, b, m]: [i64; 3]) -> [i64; 3] {
    match (1..=40).contains(&m) && a % 3 == 0 && b % 3 == 0 {
        true => reduced([a / 3, b / 3, m - 1]),
        false => [a, b, m],
    }
}

/// The vertices in full-file order, each with its findings in list order; and the findings whose point has no vertex, in list order.
type Parted<'a> = (Vec<(Point, Vec<&'a Finding>)>, Vec<&'a Finding>);

fn parted<'a, 'b>(records: impl Iterator<Item = &'b Record>, findings: &'a [Finding]) -> Parted<'a> {
    let mut vertices: BTreeMap<(u8, i32, i32), Vec<&Finding>> = records.map(|r| (key(r), Vec::new())).collect();
    let mut lost: Vec<&Finding> = Vec::new();
    for (i, finding) in findings.iter().enumerate() {
        let p = if made(Slip::FindingNotNormalised) { finding.point } else { finding.point.normalised() };
        if made(Slip::RepeatOnce) && findings[..i].contains(finding) {
            continue;
        }
        match vertices.get_mut(&(p.m, p.a, p.b)) {
            Some(here) => here.push(finding),
            None => lost.push(finding),
        }
    }
    (vertices.into_iter().map(|((m, a, b), here)| (Point::new(a, b, m), here)).collect(), lost)
}

/// "for each vertex in full-file order, its findings in list order, as the normalised point, number and note, tabs between; after them, in
/// list order, the findings whose point has no vertex, with one `?` in place of the three coordinates"
pub fn joined<'a>(records: impl Iterator<Item = &'a Record>, findings: &[Finding]) -> Joined {
    let (mut vertices, lost) = parted(records, findings);
    if made(Slip::VerticesByA) {
        vertices.sort_by_key(|(p, _)| (p.a, p.b, p.m));
    }
    let mut on_plan: Vec<Vec<u8>> = Vec::new();
    for (p, mut here) in vertices {
        if made(Slip::FindingsByNumber) {
            here.sort_by_key(|finding| finding.number);
        }
        on_plan.extend(here.into_iter().map(|finding| line(p, finding)));
    }
    let lost: Vec<Vec<u8>> = lost.into_iter().map(|finding| ended(b"?", finding)).collect();
    let parts = if made(Slip::LostFirst) { [lost.concat(), on_plan.concat()] } else { [on_plan.concat(), lost.concat()] };
    Joined { text: parts.concat(), on_plan: on_plan.len(), lost: lost.len() }
}

/// "the normalised point, number and note, tabs between"
fn line(normalised: Point, finding: &Finding) -> Vec<u8> {
    let p = if made(Slip::PointAsWritten) { finding.point } else { normalised };
    ended(format!("{}\t{}\t{}", p.a, p.b, p.m).as_bytes(), finding)
}

/// What begins a line, then number and note.
fn ended(head: &[u8], finding: &Finding) -> Vec<u8> {
    let note = match finding.note.strip_suffix(b"\r") {
        Some(note) if made(Slip::ReturnDropped) => note,
        _ => &finding.note,
    };
    [head, format!("\t{}\t", finding.number).as_bytes(), note, b"\n"].concat()
}
