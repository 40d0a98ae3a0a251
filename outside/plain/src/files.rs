//! Writers and readers. File order is the order of one 64-bit key a record: m, a, b, d, k, n packed from the top.

use crate::grown::is_grown;
use crate::lattice::{rows, sum, valid, Point, Star};
use crate::mesh::records;
use crate::table::{enter, find, fits, in_order, SLOT};

/// Numerators are below 2^18 = 262144 either way.
const SHIFT: i32 = 1 << 18;

#[inline]
pub(crate) fn pack(p: Point, s: Star) -> u64 {
    let fields = [((p.a + SHIFT) as u64, 19), ((p.b + SHIFT) as u64, 19), (s.d as u64, 3), (s.k as u64, 4), (s.n as u64, 4)];
    fields.iter().fold(p.m as u64, |key, (field, bits)| key << bits | field)
}

/// A record's point as a number that rises in file order.
#[inline]
pub(crate) fn file_order(p: Point) -> u64 {
    pack(p, Star { d: 0, k: 0, n: 0 })
}

#[inline]
pub(crate) fn unpack(key: u64) -> (Point, Star) {
    let s = Star { d: (key >> 8 & 7) as u8, k: (key >> 4 & 15) as u8, n: (key & 15) as u8 };
    let number = |at: u32| (key >> at & 0x7ffff) as i32 - SHIFT;
    (Point { a: number(30), b: number(11), m: (key >> 49) as u8 }, s)
}

/// A record's line at the end of `line`; how long it is.
#[inline]
fn format(p: Point, s: Star, line: &mut [u8; 40]) -> usize {
    let mut at = line.len();
    let mut end = b'\n';
    for value in [s.n as i32, s.k as i32, s.d as i32, p.m as i32, p.b, p.a] {
        at -= 1;
        line[at] = end;
        end = b'\t';
        let mut rest = value.unsigned_abs();
        loop {
            at -= 1;
            line[at] = b'0' + (rest % 10) as u8;
            rest /= 10;
            if rest == 0 {
                break;
            }
        }
        if value < 0 {
            at -= 1;
            line[at] = b'-';
        }
    }
    line.len() - at
}

pub(crate) fn write(keys: &mut [u64], out: &mut [u8]) -> (u8, u64) {
    keys.sort_unstable();
    let mut line = [0; 40];
    let total: usize = keys
        .iter()
        .map(|key| {
            let (p, s) = unpack(*key);
            format(p, s, &mut line)
        })
        .sum();
    if total > out.len() {
        return (13, 0);
    }
    let mut at = 0;
    for key in keys.iter() {
        let (p, s) = unpack(*key);
        let long = format(p, s, &mut line);
        out[at..at + long].copy_from_slice(&line[40 - long..]);
        at += long;
    }
    (0, at as u64)
}

pub fn write_full(table: &[u8], out: &mut [u8]) -> (u8, u64) {
    if in_order(table).is_none() {
        return (1, 0);
    }
    let mut keys: Vec<u64> = records(table).map(|(p, s)| pack(p, s)).collect();
    write(&mut keys, out)
}

pub fn write_reduced(table: &[u8], out: &mut [u8]) -> (u8, u64) {
    if in_order(table).is_none() {
        return (1, 0);
    }
    let marks = redundant(table);
    let kept = (0..table.len() / SLOT).filter(|slot| !marks[*slot]).filter_map(|slot| crate::table::at(table, slot));
    let mut keys: Vec<u64> = kept.map(|(p, s)| pack(p, s)).collect();
    write(&mut keys, out)
}

/// The slots whose record has degree 3 and is adjacent to one of degree 6.
fn redundant(table: &[u8]) -> Vec<bool> {
    let mut marks = vec![false; table.len() / SLOT];
    for (p, v) in records(table).filter(|(_, v)| v.d == 6) {
        for row in rows(v) {
            if let Some((slot, u)) = find(table, sum(p, row.adjacent, v.n)) {
                marks[slot] |= u.d == 3;
            }
        }
    }
    marks
}

/// One number and the byte after it.
#[inline]
pub(crate) fn number(file: &[u8], at: &mut usize, end: u8) -> Option<i32> {
    let minus = file.get(*at) == Some(&b'-');
    *at += minus as usize;
    let start = *at;
    let mut value = 0i32;
    while let Some(digit) = file.get(*at).map(|c| c.wrapping_sub(b'0')).filter(|d| *d < 10) {
        if *at - start == 9 {
            return None;
        }
        value = 10 * value + digit as i32;
        *at += 1;
    }
    let digits = *at - start;
    let plain = digits > 0 && (file[start] != b'0' || digits == 1 && !minus);
    if !plain || file.get(*at) != Some(&end) {
        return None;
    }
    *at += 1;
    Some(if minus { -value } else { value })
}

/// One line with its line feed: the record, if it is well formed and valid.
#[inline]
fn parse(file: &[u8], at: &mut usize) -> Option<(Point, Star)> {
    let a = number(file, at, b'\t')?;
    let b = number(file, at, b'\t')?;
    let m = u8::try_from(number(file, at, b'\t')?).ok()?;
    let d = u8::try_from(number(file, at, b'\t')?).ok()?;
    let k = u8::try_from(number(file, at, b'\t')?).ok()?;
    let n = u8::try_from(number(file, at, b'\n')?).ok()?;
    let (p, s) = (Point { a, b, m }, Star { d, k, n });
    valid(p, s).then_some((p, s))
}

fn read_lines(table: &mut [u8], file: &[u8]) -> Result<Vec<(Point, Star)>, (u8, u64)> {
    let mut list: Vec<(Point, Star)> = Vec::new();
    let mut at = 0;
    while at < file.len() {
        let line = list.len() as u64 + 1;
        let (p, s) = parse(file, &mut at).ok_or((9, line))?;
        if list.last().is_some_and(|(q, _)| (p.m, p.a, p.b) <= (q.m, q.a, q.b)) {
            return Err((10, line));
        }
        if !enter(table, p, s) {
            return Err((8, line));
        }
        list.push((p, s));
    }
    Ok(list)
}

pub(crate) fn restore(table: &mut [u8], list: &[(Point, Star)]) -> Result<(), (u8, u64)> {
    for (p, v) in list.iter().filter(|(_, v)| v.d == 6) {
        for (j, row) in rows(*v).iter().enumerate() {
            let q = sum(*p, row.adjacent, v.n);
            if find(table, q).is_some() {
                continue;
            }
            let s = Star { d: 3, k: (6 + 2 * j as u8 + v.k) % 4, n: v.n };
            if !valid(q, s) {
                return Err((11, 0));
            }
            if !enter(table, q, s) {
                return Err((8, 0));
            }
        }
    }
    Ok(())
}

fn read(table: &mut [u8], scratch: &mut [u8], file: &[u8], reduced: bool) -> (u8, u64) {
    if !fits(table.len()) || scratch.len() != table.len() {
        return (1, 0);
    }
    scratch.fill(255);
    table.fill(255);
    let outcome = read_lines(table, file).and_then(|list| {
        if reduced {
            restore(table, &list)?;
        }
        if !is_grown(table) {
            return Err((11, 0));
        }
        if reduced {
            let marks = redundant(table);
            let kept = |p: Point| find(table, p).is_some_and(|(slot, _)| marks[slot]);
            if list.iter().any(|(p, s)| s.d == 3 && kept(*p)) {
                return Err((12, 0));
            }
        }
        Ok(())
    });
    match outcome {
        Ok(()) => (0, 0),
        Err(refusal) => {
            table.fill(255);
            refusal
        }
    }
}

pub fn read_full(table: &mut [u8], scratch: &mut [u8], file: &[u8]) -> (u8, u64) {
    read(table, scratch, file, false)
}

pub fn read_reduced(table: &mut [u8], scratch: &mut [u8], file: &[u8]) -> (u8, u64) {
    read(table, scratch, file, true)
}
