//! The lines of files: records as text, sorted; and text as records, strictly.

use crate::mesh::Mesh;
use crate::record::Record;
use crate::slips::{made, Slip};
use crate::spot::Spot;

/// "Lines rise strictly by m, then a, then b."
pub fn key(r: &Record) -> (u8, i32, i32) {
    (r.m, r.a, r.b)
}

/// "a, b, m, d, k, n in decimal, parted by single tabs, ended by a line feed"
pub fn line(r: &Record) -> String {
    format!("{}\t{}\t{}\t{}\t{}\t{}\n", r.a, r.b, r.m, r.d, r.k, r.n)
}

pub fn full(mesh: &Mesh) -> String {
    sorted(mesh.records())
}

/// "leaves out each degree 3 record that is adjacent to a degree 6 record"
pub fn reduced(mesh: &Mesh) -> String {
    let redundant = mesh.redundant();
    sorted(mesh.records().filter(|r| !redundant.contains(&Spot::of(r.point()))))
}

fn sorted<'a>(records: impl Iterator<Item = &'a Record>) -> String {
    let mut kept: Vec<&Record> = records.collect();
    kept.sort_by_key(|r| key(r));
    kept.into_iter().map(line).collect()
}

/// Cuts a file into lines without their line feeds; an unended rest is the second part.
pub fn cut(file: &[u8]) -> (Vec<&[u8]>, &[u8]) {
    let mut pieces: Vec<&[u8]> = file.split(|byte| *byte == b'\n').collect();
    let rest = pieces.pop().expect("split gives at least one piece");
    (pieces, rest)
}

/// The six numbers of a line, or what is malformed.
pub fn numbers(line: &[u8]) -> Result<[i64; 6], &'static str> {
    let fields: Vec<&[u8]> = line.split(|byte| *byte == b'\t').collect();
    if fields.len() != 6 {
        return Err("not six fields");
    }
    let mut values = [0; 6];
    for (value, field) in values.iter_mut().zip(fields) {
        *value = number(field)?;
    }
    Ok(values)
}

/// "No plus sign, no leading zero, minus only before a nonzero number."
pub fn number(field: &[u8]) -> Result<i64, &'static str> {
    let (minus, digits) = match field {
        [b'-', digits @ ..] => (true, digits),
        digits => (false, digits),
    };
    if digits.is_empty() {
        return Err("a field without digits");
    }
    if !digits.iter().all(u8::is_ascii_digit) {
        return Err("a byte that is no digit");
    }
    if digits[0] == b'0' && digits.len() > 1 && !made(Slip::LeadingZero) {
        return Err("a leading zero");
    }
    if minus && digits == b"0" && !made(Slip::MinusZero) {
        return Err("a minus before zero");
    }
    if made(Slip::NumbersIn32Bits) {
        let low = digits.iter().fold(0u32, |v, c| v.wrapping_mul(10).wrapping_add((c - b'0') as u32));
        return Ok(if minus { low.wrapping_neg() as i32 as i64 } else { low as i32 as i64 });
    }
    if digits.len() > 18 {
        return Err("a number beyond any record");
    }
    let value = digits.iter().fold(0i64, |v, c| 10 * v + (c - b'0') as i64);
    Ok(if minus { -value } else { value })
}

/// The valid record of these numbers, or what is wrong.
pub fn record([a, b, m, d, k, n]: [i64; 6]) -> Result<Record, &'static str> {
    let beyond = "a number beyond its field";
    let small = |v: i64| u8::try_from(v).map_err(|_| beyond);
    let wide = |v: i64| i32::try_from(v).map_err(|_| beyond);
    let r = Record { a: wide(a)?, b: wide(b)?, m: small(m)?, d: small(d)?, k: small(k)?, n: small(n)? };
    match r.fault() {
        Some(fault) => Err(fault),
        None => Ok(r),
    }
}
