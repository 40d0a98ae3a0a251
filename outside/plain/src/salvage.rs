//! Old files salvaged: parsed once, the flat table as a set of what is kept while there are slots, a map where there are more points; the records
//! sorted, entered, completed and written as the reduced reader and the full writer do it.

use crate::files::{number, pack, restore, unpack, write};
use crate::grown::is_grown;
use crate::lattice::{reduce, valid, Point, Star};
use crate::mesh::records;
use crate::table::{enter, fits, probe, store, Probe};
use std::collections::HashMap;

/// The six numbers of a line of any numbers, and past its line feed.
#[inline]
fn spelled(file: &[u8], at: &mut usize) -> Option<(Point, Star)> {
    let a = number(file, at, b'\t')?;
    let b = number(file, at, b'\t')?;
    let m = number(file, at, b'\t')?;
    let d = number(file, at, b'\t')?;
    let k = number(file, at, b'\t')?;
    let n = number(file, at, b'\n')?;
    let near = |x: i32| (-1_000_000..=1_000_000).contains(&x);
    let small = |x: i32| u8::try_from(x).ok();
    let in_limits = near(a) && near(b) && (0..=12).contains(&m) && (0..=11).contains(&k);
    in_limits.then_some((Point { a, b, m: m as u8 }, Star { d: small(d)?, k: k as u8, n: small(n)? }))
}

/// The record of the line at a position, whether normalising changed it; the position goes past the line.
#[inline]
fn salvaged(file: &[u8], at: &mut usize) -> Option<(Point, Star, bool)> {
    let from = *at;
    let Some((p, s)) = spelled(file, at) else {
        *at = from + file[from..].iter().position(|byte| *byte == b'\n').map_or(file.len() - from, |long| long + 1);
        return None;
    };
    let k = match s.d {
        3 => s.k % 4,
        6 => s.k % 2,
        _ => s.k,
    };
    let (q, u) = (reduce(p), Star { k, ..s });
    valid(q, u).then_some((q, u, q != p || u != s))
}

fn tell(list: &mut Vec<u8>, line: u64, word: &[u8]) {
    list.extend_from_slice(line.to_string().as_bytes());
    list.push(b'\t');
    list.extend_from_slice(word);
    list.push(b'\n');
}

/// What is kept, in the table while it has slots: whether two records of one point differ, and whether there are too many points; the changes.
fn gathered(table: &mut [u8], file: &[u8]) -> Result<Vec<u8>, u8> {
    let (mut list, mut at, mut line) = (Vec::new(), 0, 0);
    let mut more: HashMap<u64, Star> = HashMap::new();
    while at < file.len() {
        line += 1;
        let Some((p, s, changed)) = salvaged(file, &mut at) else {
            tell(&mut list, line, b"dropped");
            continue;
        };
        let before = match probe(table, p) {
            Probe::Found(_, u) => Some(u),
            Probe::Free(slot) => {
                store(table, slot, p, s);
                None
            }
            Probe::Full => more.insert(pack(p, Star { d: 0, k: 0, n: 0 }), s),
        };
        if before.is_some_and(|u| u != s) {
            return Err(20);
        }
        if changed {
            tell(&mut list, line, b"normalised");
        }
        if before.is_some() {
            tell(&mut list, line, b"repeat");
        }
    }
    if more.is_empty() {
        Ok(list)
    } else {
        Err(8)
    }
}

/// The records in file order, and what they leave out, in a table cleared for them.
fn completed(table: &mut [u8], keys: &[u64]) -> Result<(), u8> {
    table.fill(255);
    let list: Vec<(Point, Star)> = keys.iter().map(|key| unpack(*key)).collect();
    for (p, s) in &list {
        enter(table, *p, *s);
    }
    restore(table, &list).map_err(|(number, _)| number)?;
    if is_grown(table) {
        Ok(())
    } else {
        Err(11)
    }
}

fn salvaging(table: &mut [u8], file: &[u8], out: &mut [u8], changes: &mut [u8]) -> Result<[u64; 2], u8> {
    let mut list = gathered(table, file)?;
    let mut keys: Vec<u64> = records(table).map(|(p, s)| pack(p, s)).collect();
    keys.sort_unstable();
    completed(table, &keys)?;
    let mut all: Vec<u64> = records(table).map(|(p, s)| pack(p, s)).collect();
    list.extend_from_slice(&b"0\trestored\n".repeat(all.len() - keys.len()));
    if list.len() > changes.len() {
        return Err(13);
    }
    match write(&mut all, out) {
        (0, written) => {
            changes[..list.len()].copy_from_slice(&list);
            Ok([written, list.len() as u64])
        }
        (number, _) => Err(number),
    }
}

/// The bytes of both outputs.
pub fn salvage(table: &mut [u8], scratch: &mut [u8], file: &[u8], out: &mut [u8], changes: &mut [u8]) -> (u8, [u64; 2]) {
    if !fits(table.len()) || scratch.len() != table.len() {
        return (1, [0, 0]);
    }
    scratch.fill(255);
    table.fill(255);
    match salvaging(table, file, out, changes) {
        Ok(bytes) => (0, bytes),
        Err(number) => {
            table.fill(255);
            (number, [0, 0])
        }
    }
}
