//! The documents' calls, with every answer and every lent byte; the C interface's names without `fb_`.
//!
//! An `Answer` has the number, why in words ("done" for 0), and the value: points, place, line, passes made, bytes written, line and bytes, both
//! outputs' bytes with what became of each line, or counts.

use crate::lines;
use crate::mesh::{bad_centre, base as base_records, Mesh, Refused};
use crate::outlines::{self, Outline};
use crate::record::Record;
use crate::replay::{replayed, standing};
use crate::salvage::Mended;
use crate::slips::{made, Slip};
use crate::slots::{length_fits, Slots, SLOT};
use crate::spot::{Point, Spot};
use crate::viewer::{self, Format};

#[derive(Clone, Copy, Debug, PartialEq, Eq)]
pub struct Answer<T> {
    pub number: u8,
    pub why: &'static str,
    pub value: T,
}

/// A count and six points as a, b, m.
pub type Points = [i32; 19];
const NO_POINTS: Points = [0; 19];

/// The most bytes that the census reads.
pub const CENSUS_BYTES: usize = 65_536;

fn done<T>(value: T) -> Answer<T> {
    Answer { number: 0, why: "done", value }
}

fn refused<T>(number: u8, why: &'static str, value: T) -> Answer<T> {
    Answer { number, why, value }
}

/// The normalised point.
pub fn normalise(a: i32, b: i32, m: u8) -> Answer<[i32; 3]> {
    let p = Point::new(a, b, m).normalised();
    done([p.a, p.b, p.m as i32])
}

/// The adjacent points of a record, without any mesh.
pub fn star(a: i32, b: i32, m: u8, d: u8, k: u8, n: u8) -> Answer<Points> {
    let v = Record { a, b, m, d, k, n };
    if let Some(fault) = v.fault() {
        return refused(9, fault, NO_POINTS);
    }
    if d == 0 {
        return refused(14, "degree 0", NO_POINTS);
    }
    done(listed(&crate::star::star(&v).iter().map(|c| c.adjacent).collect::<Vec<_>>()))
}

fn listed(spots: &[Spot]) -> Points {
    let mut points = NO_POINTS;
    points[0] = spots.len() as i32;
    for (at, spot) in points[1..].chunks_mut(3).zip(spots) {
        let p = spot.point();
        at.copy_from_slice(&[p.a, p.b, p.m as i32]);
    }
    points
}

/// The base of these centres (a, b, a, b, ..): the place of the first bad one.
pub fn base(table: &mut [u8], centres: &[i32]) -> Answer<u64> {
    if !length_fits(table.len()) {
        return refused(1, "length doesn't fit", 0);
    }
    let slots = table.len() / SLOT;
    let left = table.to_vec();
    table.fill(255);
    let leave = |table: &mut [u8]| {
        if made(Slip::BaseLeftOnRefusal) {
            table.copy_from_slice(&left);
        }
    };
    if centres.is_empty() || centres.len() % 2 == 1 {
        leave(table);
        return refused(2, "list empty or of odd length", 0);
    }
    let pairs: Vec<(i32, i32)> = centres.chunks(2).map(|c| (c[0], c[1])).collect();
    if let Some((place, why)) = bad_centre(&pairs) {
        let good = &pairs[..place];
        if made(Slip::RoomBeforeList) && base_records(good).len() > slots {
            return refused(8, "fewer slots than points", 0);
        }
        leave(table);
        return refused(2, why, place as u64);
    }
    let records = base_records(&pairs);
    let asked = if made(Slip::RoomBySeven) { 7 * pairs.len() } else { records.len() };
    if asked > slots {
        leave(table);
        return refused(8, "fewer slots than points", 0);
    }
    let mut built = Slots::cleared(slots);
    for r in records {
        assert!(built.enter(r));
    }
    built.store(table);
    done(0)
}

/// The table in order with its mesh, or the refusal 1.
fn opened(table: &[u8]) -> Result<(Slots, Mesh), Refused> {
    let slots = Slots::of(table).map_err(|why| Refused(1, why))?;
    let mesh = Mesh::of(slots.records());
    Ok((slots, mesh))
}

/// The record at a request's point, "normalised before it is looked up".
fn found(slots: &Slots, a: i32, b: i32, m: u8) -> Result<Record, Refused> {
    let p = Point::new(a, b, m);
    let p = if made(Slip::RequestNotNormalised) { p } else { p.normalised() };
    slots.find(p).ok_or(Refused(3, "no record at the point"))
}

/// One subdivision of an opened table.
pub fn subdivided(slots: &mut Slots, mesh: &mut Mesh, a: i32, b: i32, m: u8) -> Result<(), Refused> {
    let v = found(slots, a, b, m)?;
    let full = Refused(8, "fewer than six free slots");
    let least = if made(Slip::SixFreeRefused) { 7 } else { 6 };
    if made(Slip::EightBeforeSeven) && v.d == 6 && v.n < 12 && slots.free() < least {
        return Err(full);
    }
    let subdivision = mesh.subdivision(&v)?;
    if slots.free() < least {
        return Err(full);
    }
    mesh.make(&subdivision);
    for r in subdivision.changed {
        slots.replace(r);
    }
    for r in subdivision.entered {
        assert!(slots.enter(r));
    }
    Ok(())
}

pub fn subdivide(table: &mut [u8], a: i32, b: i32, m: u8) -> Answer<()> {
    let outcome = opened(table).and_then(|(mut slots, mut mesh)| {
        subdivided(&mut slots, &mut mesh, a, b, m)?;
        slots.store(table);
        Ok(())
    });
    match outcome {
        Ok(()) => done(()),
        Err(Refused(number, why)) => refused(number, why, ()),
    }
}

/// The vertex at the point brought to degree 6, on a table and a scratch table; the table as it was where it can't be.
pub fn bring_to_six(table: &mut [u8], scratch: &mut [u8], a: i32, b: i32, m: u8) -> Answer<()> {
    if !length_fits(table.len()) {
        return refused(1, "length doesn't fit", ());
    }
    if scratch.len() != table.len() {
        return refused(1, "scratch of another length", ());
    }
    if !made(Slip::BringScratchLeft) {
        scratch.fill(255);
    }
    let mut half_done = None;
    let outcome = opened(table).and_then(|(mut slots, mut mesh)| {
        let v = found(&slots, a, b, m)?;
        let outcome = crate::bring::brought(&mut slots, &mut mesh, &v);
        half_done = Some(slots);
        outcome
    });
    match (outcome, half_done) {
        (Ok(subdivisions), Some(slots)) => {
            slots.store(table);
            Answer { number: 0, why: if subdivisions.is_empty() { "done already" } else { "done" }, value: () }
        }
        (Err(Refused(number, why)), Some(slots)) if made(Slip::BringNotUndone) => {
            slots.store(table);
            refused(number, why, ())
        }
        (Err(Refused(number, why)), _) => refused(number, why, ()),
        (Ok(_), None) => unreachable!("what was brought was looked up"),
    }
}

/// Passes round the disc of this centre and radius: how many were made.
pub fn refine_disc(table: &mut [u8], scratch: &mut [u8], [x, y, radius]: [f64; 3], passes: u8, level: u8) -> Answer<u64> {
    refine(table, scratch, &Outline::Disc { x, y, radius }, passes, level)
}

/// Passes along the line p*x + q*y = s: how many were made.
pub fn refine_line(table: &mut [u8], scratch: &mut [u8], [p, q, s]: [f64; 3], passes: u8, level: u8) -> Answer<u64> {
    refine(table, scratch, &Outline::Line { p, q, s }, passes, level)
}

/// Passes round an outline, on a table and a scratch table: those before a refused one stand.
fn refine(table: &mut [u8], scratch: &mut [u8], outline: &Outline, passes: u8, level: u8) -> Answer<u64> {
    if !length_fits(table.len()) {
        return refused(1, "length doesn't fit", 0);
    }
    if scratch.len() != table.len() {
        return refused(1, "scratch of another length", 0);
    }
    let fault = outlines::fault(outline, passes, level);
    if !made(Slip::RefineScratchLeft) || fault.is_none() {
        scratch.fill(255);
    }
    let (mut slots, mut mesh) = match (opened(table), fault) {
        (Err(_), Some(why)) if made(Slip::OutlineBeforeTable) => return refused(17, why, 0),
        (Err(Refused(number, why)), _) => return refused(number, why, 0),
        (Ok(_), Some(why)) => return refused(17, why, 0),
        (Ok(both), None) => both,
    };
    let all = outlines::refined(&mut slots, &mut mesh, outline, passes, level);
    slots.store(table);
    match (all.refused, all.subdivisions) {
        (Some(Refused(number, why)), _) => refused(number, why, all.done),
        (None, _) if passes == 0 => refused(0, "done, no passes", all.done),
        (None, 0) => refused(0, "done, nothing listed", all.done),
        (None, _) => done(all.done),
    }
}

/// The subdivisions of these points (a, b, m, a, b, m, ..), in turn up to the first refusal: how many were made.
pub fn subdivide_all(table: &mut [u8], points: &[i32]) -> Answer<u64> {
    let (mut slots, mut mesh) = match opened(table) {
        Ok(both) => both,
        Err(Refused(number, why)) => return refused(number, why, 0),
    };
    let mut answer = done(0);
    for point in points.chunks_exact(3) {
        let outcome = match u8::try_from(point[2]) {
            Ok(m) => subdivided(&mut slots, &mut mesh, point[0], point[1], m),
            Err(_) => Err(Refused(3, "no such depth")),
        };
        if let Err(Refused(number, why)) = outcome {
            (answer.number, answer.why) = (number, why);
            break;
        }
        answer.value += 1;
    }
    slots.store(table);
    answer
}

type Query = fn(&Mesh, &Record) -> Result<Vec<Spot>, Refused>;

/// A query of the vertex at a point of an opened table.
fn asked(slots: &Slots, mesh: &Mesh, a: i32, b: i32, m: u8, of: Query) -> Result<Vec<Spot>, Refused> {
    let v = found(slots, a, b, m)?;
    match v.d {
        0 => Err(Refused(14, "degree 0")),
        _ => of(mesh, &v),
    }
}

fn answered(outcome: Result<Vec<Spot>, Refused>) -> Answer<Points> {
    match outcome {
        Ok(spots) => done(listed(&spots)),
        Err(Refused(number, why)) => refused(number, why, NO_POINTS),
    }
}

pub fn neighbours(table: &[u8], a: i32, b: i32, m: u8) -> Answer<Points> {
    answered(opened(table).and_then(|(slots, mesh)| asked(&slots, &mesh, a, b, m, Mesh::neighbours)))
}

pub fn faces(table: &[u8], a: i32, b: i32, m: u8) -> Answer<Points> {
    answered(opened(table).and_then(|(slots, mesh)| asked(&slots, &mesh, a, b, m, Mesh::opposites)))
}

/// The numbers of an answer among many: the number, then the points.
const WIDE: usize = 20;

/// The answers to these points (a, b, m, a, b, m, ..), as the single calls give them; the value says each one's number and why.
fn asked_all(table: &[u8], points: &[i32], answers: &mut [i32], of: Query) -> Answer<Vec<(u8, &'static str)>> {
    let (slots, mesh) = match opened(table) {
        Ok(both) => both,
        Err(Refused(number, why)) => return refused(number, why, Vec::new()),
    };
    let triples = points.len() / 3;
    let room = if made(Slip::RoomByAnswers) { answers.len().div_ceil(WIDE) } else { answers.len() / WIDE };
    if room < triples {
        return refused(13, "too little room for the answers", Vec::new());
    }
    let mut told = Vec::new();
    let read = if made(Slip::LastTripleForgotten) { triples.saturating_sub(1) } else { triples };
    for (i, point) in points.chunks_exact(3).take(read).enumerate() {
        let answer = answered(match u8::try_from(point[2]) {
            Ok(m) => asked(&slots, &mesh, point[0], point[1], m, of),
            Err(_) => Err(Refused(3, "no such depth")),
        });
        let row = std::iter::once(answer.number as i32).chain(answer.value);
        answers.iter_mut().skip(WIDE * i).zip(row).for_each(|(out, number)| *out = number);
        told.push((answer.number, answer.why));
    }
    if points.len() % 3 == 0 {
        done(told)
    } else {
        refused(0, "done, numbers past the last triple", told)
    }
}

pub fn neighbours_all(table: &[u8], points: &[i32], answers: &mut [i32]) -> Answer<Vec<(u8, &'static str)>> {
    asked_all(table, points, answers, Mesh::neighbours)
}

pub fn faces_all(table: &[u8], points: &[i32], answers: &mut [i32]) -> Answer<Vec<(u8, &'static str)>> {
    asked_all(table, points, answers, Mesh::opposites)
}

/// The six numbers of a record.
const ROW: usize = 6;

fn row(r: Record) -> [i32; ROW] {
    [r.a, r.b, r.m as i32, r.d as i32, r.k as i32, r.n as i32]
}

/// The vertex at a point of a mesh that a list was replayed into.
fn vertex_in(mesh: &Mesh, a: i32, b: i32, m: u8) -> Answer<[i32; ROW]> {
    let p = Point::new(a, b, m);
    match standing(mesh, if made(Slip::AskedAsSpelled) { p } else { p.normalised() }) {
        Ok(v) if v.d == 0 => Answer { number: 0, why: "done, a boundary vertex", value: row(v) },
        Ok(v) => done(row(v)),
        Err(Refused(number, why)) => refused(number, why, [0; ROW]),
    }
}

/// The record of the vertex at a point, from a base and the list of what was subdivided (a, b, m, level, a, b, m, level, ..).
pub fn vertex(centres: &[i32], pairs: &[i32], a: i32, b: i32, m: u8) -> Answer<[i32; ROW]> {
    let mesh = match replayed(centres, pairs) {
        Ok(mesh) => mesh,
        Err(Refused(21, _)) if made(Slip::AbsentBeforeList) && m > 12 => return refused(3, "no vertex at the point", [0; ROW]),
        Err(Refused(number, why)) => {
            return refused(number, why, if made(Slip::RefusedRow) { [a, b, m as i32, 0, 0, 0] } else { [0; ROW] })
        }
    };
    vertex_in(&mesh, a, b, m)
}

/// The records at these points (a, b, m, a, b, m, ..), six numbers each; the value says each one's number and why.
pub fn vertices(centres: &[i32], pairs: &[i32], points: &[i32], records: &mut [i32]) -> Answer<Vec<(u8, &'static str)>> {
    let few = records.len() / ROW < points.len() / 3;
    if few && made(Slip::RoomBeforeLists) {
        return refused(13, "too little room for the records", Vec::new());
    }
    let mesh = match replayed(centres, pairs) {
        Ok(mesh) => mesh,
        Err(Refused(number, why)) => return refused(number, why, Vec::new()),
    };
    if few {
        return refused(13, "too little room for the records", Vec::new());
    }
    let mut told = Vec::new();
    for (point, out) in points.chunks_exact(3).zip(records.chunks_exact_mut(ROW)) {
        let answer = match u8::try_from(point[2]) {
            Ok(m) => vertex_in(&mesh, point[0], point[1], m),
            Err(_) => refused(3, "no such depth", [0; ROW]),
        };
        out.copy_from_slice(&answer.value);
        told.push((answer.number, answer.why));
    }
    if points.len() % 3 == 0 {
        done(told)
    } else {
        refused(0, "done, numbers past the last triple", told)
    }
}

/// A writer: the bytes written.
fn write(table: &[u8], out: &mut [u8], text: fn(&Mesh) -> String) -> Answer<u64> {
    let mesh = match opened(table) {
        Ok((_, mesh)) => mesh,
        Err(Refused(number, why)) => return refused(number, why, 0),
    };
    put(out, text(&mesh).as_bytes())
}

/// The bytes at the beginning of `out`, where that is long enough.
fn put(out: &mut [u8], bytes: &[u8]) -> Answer<u64> {
    if out.len() < bytes.len() {
        if made(Slip::BeginningWritten) {
            out.copy_from_slice(&bytes[..out.len()]);
        }
        return refused(13, "output shorter than the file", 0);
    }
    out[..bytes.len()].copy_from_slice(bytes);
    if made(Slip::TailCleared) {
        out[bytes.len()..].fill(0);
    }
    done(bytes.len() as u64)
}

pub fn write_full(table: &[u8], out: &mut [u8]) -> Answer<u64> {
    write(table, out, lines::full)
}

pub fn write_reduced(table: &[u8], out: &mut [u8]) -> Answer<u64> {
    write(table, out, lines::reduced)
}

/// A viewer's file: the bytes written.
fn view(table: &[u8], out: &mut [u8], format: Format) -> Answer<u64> {
    let mesh = match opened(table) {
        Ok((_, mesh)) => mesh,
        Err(Refused(number, why)) => return refused(number, why, 0),
    };
    let text = match viewer::file(&mesh, format) {
        Ok(text) => text,
        Err(_) if made(Slip::RoomBeforeTorn) && out.is_empty() => return put(out, b"."),
        Err(Refused(number, why)) => return refused(number, why, 0),
    };
    let written = put(out, text.as_bytes());
    match written.number {
        0 => Answer { why: what_was_counted(&mesh), ..written },
        _ => written,
    }
}

pub fn write_off(table: &[u8], out: &mut [u8]) -> Answer<u64> {
    view(table, out, Format::Off)
}

pub fn write_obj(table: &[u8], out: &mut [u8]) -> Answer<u64> {
    view(table, out, Format::Obj)
}

/// A reader's refusal: the number, why, and the line.
struct Stopped(u8, &'static str, u64);

/// What a reader reads: its slots, or its refusal.
fn reading(slots: usize, file: &[u8], reduced: bool, so_far: &mut Slots) -> Result<(), Stopped> {
    *so_far = Slots::cleared(slots);
    let in_file = read_lines(file, so_far)?;
    if reduced {
        restore(&in_file, so_far)?;
    }
    let mesh = Mesh::of(so_far.records());
    if !mesh.is_grown() {
        return Err(Stopped(11, "not a grown mesh", 0));
    }
    let redundant = mesh.redundant();
    let kept = in_file.iter().any(|r| redundant.contains(&Spot::of(r.point())));
    if reduced && kept && !made(Slip::KeptUnseen) {
        return Err(Stopped(12, "a redundant record was kept", 0));
    }
    Ok(())
}

/// The records of the file, each entered; "per line 9, 10, 8".
fn read_lines(file: &[u8], slots: &mut Slots) -> Result<Vec<Record>, Stopped> {
    let (mut pieces, rest) = lines::cut(file);
    let open = !rest.is_empty();
    if open {
        pieces.push(rest);
    }
    let mut in_file: Vec<Record> = Vec::new();
    for (i, piece) in pieces.iter().enumerate() {
        let line = i as u64 + 1;
        let values = lines::numbers(piece).map_err(|why| Stopped(9, why, line))?;
        if open && line == pieces.len() as u64 && !made(Slip::LastLineOpen) {
            return Err(Stopped(9, "a line without its line feed", line));
        }
        let before = in_file.last().map(|p| (p.m as i64, p.a as i64, p.b as i64));
        let above = before.is_none_or(|before| before < (values[2], values[0], values[1]));
        if made(Slip::OrderBeforeForm) && !above {
            return Err(Stopped(10, "not above the line before", line));
        }
        let record = lines::record(values).map_err(|why| Stopped(9, why, line))?;
        if made(Slip::RoomBeforeOrder) && slots.free() == 0 {
            return Err(Stopped(8, "no slot for a line", line));
        }
        if !above {
            return Err(Stopped(10, "not above the line before", line));
        }
        if !slots.enter(record) {
            return Err(Stopped(8, "no slot for a line", line));
        }
        in_file.push(record);
    }
    Ok(in_file)
}

/// "takes the degree 6 records in file order and enters each absent adjacent point"
fn restore(in_file: &[Record], slots: &mut Slots) -> Result<(), Stopped> {
    for v in in_file.iter().filter(|v| v.d == 6) {
        for (j, corner) in crate::star::star(v).iter().enumerate() {
            let p = corner.adjacent.point();
            if slots.find(p).is_some() {
                continue;
            }
            let n = if made(Slip::RestoredAbove) { v.n + 1 } else { v.n };
            let restored = Record::at(p, 3, (6 + 2 * j as u8 + v.k) % 4, n);
            let unseen = made(Slip::RoomBeforeRange) && slots.free() == 0;
            if !restored.is_valid() && !unseen {
                return Err(Stopped(11, "a restored record isn't valid", 0));
            }
            if !slots.enter(restored) {
                return Err(Stopped(8, "no slot for a restored record", 0));
            }
        }
    }
    Ok(())
}

/// A reader: the line at fault.
fn read(table: &mut [u8], scratch: &mut [u8], file: &[u8], reduced: bool) -> Answer<u64> {
    if !length_fits(table.len()) {
        return refused(1, "length doesn't fit", 0);
    }
    if scratch.len() != table.len() {
        return refused(1, "scratch of another length", 0);
    }
    if !made(Slip::ScratchLeft) {
        scratch.fill(255);
    }
    table.fill(255);
    let mut slots = Slots::cleared(0);
    match reading(table.len() / SLOT, file, reduced, &mut slots) {
        Ok(()) => {
            slots.store(table);
            done(0)
        }
        Err(Stopped(number, why, line)) => {
            if made(Slip::TableLeftOnRefusal) {
                slots.store(table);
            }
            refused(number, why, line)
        }
    }
}

pub fn read_full(table: &mut [u8], scratch: &mut [u8], file: &[u8]) -> Answer<u64> {
    read(table, scratch, file, false)
}

pub fn read_reduced(table: &mut [u8], scratch: &mut [u8], file: &[u8]) -> Answer<u64> {
    read(table, scratch, file, true)
}

/// The census's text for an input, read into the lent table: the bytes written. The number is the one in the text.
///
/// Lengths that don't fit go before an input that is too long, as they go before all else in a reader.
pub fn census(input: &[u8], table: &mut [u8], scratch: &mut [u8], out: &mut [u8]) -> Answer<u64> {
    let lengths_fit = length_fits(table.len()) && scratch.len() == table.len();
    let read = if lengths_fit && input.len() > CENSUS_BYTES && !made(Slip::LongInputByLine) {
        table.fill(255);
        scratch.fill(255);
        refused(8, "input over 65,536 bytes", 0)
    } else {
        read_full(table, scratch, input)
    };
    let text = match read.number {
        0 => counted(table),
        number => format!("refused\t{}\t{}\n", number, read.value),
    };
    let written = put(out, text.as_bytes());
    match written.number {
        0 => Answer { value: written.value, ..read },
        _ => written,
    }
}

fn counted(table: &[u8]) -> String {
    let slots = Slots::of(table).expect("a reader leaves a table in order");
    let counts = Mesh::of(slots.records()).census().map(|count| count.to_string());
    format!("V\tE\tF\td0\td3\td4\td5\td6\n{}\n", counts.join("\t"))
}

/// V, E, F, and the records of degree 0, 3, 4, 5, 6.
pub type Numbers = [u32; 8];
const NO_NUMBERS: Numbers = [0; 8];

/// The census's numbers of any table in order.
pub fn counts(table: &[u8]) -> Answer<Numbers> {
    let mesh = match opened(table) {
        Ok((_, mesh)) => mesh,
        Err(Refused(number, why)) => return refused(number, why, NO_NUMBERS),
    };
    let why = what_was_counted(&mesh);
    if made(Slip::CountsOfGrown) && why != "done" {
        return refused(11, why, NO_NUMBERS);
    }
    Answer { number: 0, why, value: mesh.census().map(|count| count as u32) }
}

/// What was counted, in words.
fn what_was_counted(mesh: &Mesh) -> &'static str {
    if mesh.is_empty() {
        "done, an empty table"
    } else if mesh.records().any(|v| mesh.neighbours(v).is_err()) {
        "done, an adjacent is absent"
    } else if mesh.records().any(|v| mesh.opposites(v).is_err()) {
        "done, a corner with no opposite"
    } else if !mesh.is_grown() {
        "done, not a grown mesh"
    } else {
        "done"
    }
}

/// The list of findings joined with the table's records: the line at fault, and the bytes written.
pub fn findings(table: &[u8], list: &[u8], out: &mut [u8]) -> Answer<[u64; 2]> {
    let parsed = crate::findings::parse(list);
    let slots = match Slots::of(table) {
        Ok(slots) => slots,
        Err(_) if made(Slip::ListBeforeTable) && parsed.is_err() => Slots::cleared(0),
        Err(why) => return refused(1, why, [0, 0]),
    };
    let short = refused(13, "output shorter than the file", [0, 0]);
    let findings = match parsed {
        Ok(findings) => findings,
        Err(_) if made(Slip::RoomBeforeFindings) && out.is_empty() => return short,
        Err((line, why)) => return refused(15, why, [line, 0]),
    };
    if made(Slip::RoomByList) && out.len() < list.len() {
        return short;
    }
    let joined = crate::findings::joined(slots.records(), &findings);
    let written = put(out, &joined.text);
    match written.number {
        0 => refused(0, kind(joined.on_plan, joined.lost), [0, written.value]),
        _ => short,
    }
}

fn kind(on_plan: usize, lost: usize) -> &'static str {
    match (on_plan, lost) {
        (0, 0) => "done, an empty list",
        (0, _) => "done, all lost",
        (_, 0) => "done, none lost",
        _ => "done, some lost",
    }
}

/// The bytes of both outputs, and what became of each line, in words.
pub type Salvaged = ([u64; 2], Vec<&'static str>);

/// An old file salvaged into the lent table; its full file, and the list of changes.
pub fn salvage(table: &mut [u8], scratch: &mut [u8], file: &[u8], out: &mut [u8], changes: &mut [u8]) -> Answer<Salvaged> {
    if !length_fits(table.len()) {
        return refused(1, "length doesn't fit", ([0, 0], Vec::new()));
    }
    if scratch.len() != table.len() {
        return refused(1, "scratch of another length", ([0, 0], Vec::new()));
    }
    scratch.fill(255);
    table.fill(255);
    let mended = crate::salvage::mended(file);
    let mut slots = Slots::cleared(table.len() / SLOT);
    let outcome = completed(&mended, &mut slots).and_then(|()| both_written(&mended, &slots, out, changes));
    if outcome.is_ok() || made(Slip::SalvagedLeftOnRefusal) {
        slots.store(table);
    }
    match outcome {
        Ok((bytes, why)) => Answer { number: 0, why, value: (bytes, mended.lines) },
        Err(Refused(number, why)) => refused(number, why, ([0, 0], mended.lines)),
    }
}

/// "20 for one point with two different records; then 8 and 11 as that reader has them"
fn completed(mended: &Mended, slots: &mut Slots) -> Result<(), Refused> {
    let mut list: Vec<Record> = mended.records.values().copied().collect();
    if made(Slip::SalvagedBackwards) {
        list.reverse();
    }
    let crowded = list.len() > slots.free();
    match mended.clash {
        Some(_) if crowded && made(Slip::RoomBeforeClash) => {}
        Some(_) if crowded => return Err(Refused(20, "two records at a point, past the slots")),
        Some(how) => return Err(Refused(20, how)),
        None => {}
    }
    if list.is_empty() {
        return Err(Refused(11, "no line left"));
    }
    if !list.iter().all(|r| slots.enter(*r)) {
        return Err(Refused(8, "more points than slots"));
    }
    restore(&list, slots).map_err(|Stopped(number, why, _)| Refused(number, why))?;
    match Mesh::of(slots.records()).is_grown() {
        true => Ok(()),
        false => Err(Refused(11, "not a grown mesh")),
    }
}

/// "13 for either output": the bytes of both, and what was done in words.
fn both_written(mended: &Mended, slots: &Slots, out: &mut [u8], changes: &mut [u8]) -> Result<([u64; 2], &'static str), Refused> {
    let text = lines::full(&Mesh::of(slots.records()));
    let restored = slots.records().count() - mended.records.len();
    let told = if made(Slip::RestoredUntold) { 0 } else { restored };
    let list = mended.changes.clone() + &"0\trestored\n".repeat(told);
    if out.len() < text.len() {
        return Err(Refused(13, "output shorter than the file"));
    }
    if changes.len() < list.len() && !made(Slip::ChangesWithoutRoom) {
        return Err(Refused(13, "output shorter than the changes"));
    }
    let listed = list.len().min(changes.len());
    changes[..listed].copy_from_slice(&list.as_bytes()[..listed]);
    out[..text.len()].copy_from_slice(text.as_bytes());
    let why = match (mended.changes.is_empty(), restored) {
        (true, 0) => "done, nothing changed",
        (true, _) => "done, records restored",
        (false, 0) => "done, lines changed",
        (false, _) => "done, lines changed and records restored",
    };
    Ok(([text.len() as u64, list.len() as u64], why))
}
