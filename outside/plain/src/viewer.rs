//! OFF and OBJ files: vertices sorted by file order, faces as four numbers in one, sorted and taken once each, sides the same.

use crate::files::file_order;
use crate::lattice::{rows, sum, Point};
use crate::table::{at, find, in_order, SLOT};

pub fn write_off(table: &[u8], out: &mut [u8]) -> (u8, u64) {
    write(table, out, false)
}

pub fn write_obj(table: &[u8], out: &mut [u8]) -> (u8, u64) {
    write(table, out, true)
}

fn write(table: &[u8], out: &mut [u8], obj: bool) -> (u8, u64) {
    if in_order(table).is_none() {
        return (1, 0);
    }
    let slots = table.len() / SLOT;
    let mut keys: Vec<u64> = (0..slots).filter_map(|slot| at(table, slot).map(|(p, _)| file_order(p) << 5 | slot as u64)).collect();
    keys.sort_unstable();
    let mut numbers = vec![0; slots];
    keys.iter().enumerate().for_each(|(i, key)| numbers[slot_of(*key)] = i as u16);
    let Some(faces) = faces(table, &numbers) else { return (7, 0) };
    let mut text = Vec::with_capacity(29 * keys.len() + 26 * faces.len() + 32);
    if !obj {
        text.extend_from_slice(b"OFF\n");
        let edges = different(faces.iter().flat_map(|face| sides(*face)).collect()).len();
        [(keys.len(), b' '), (faces.len(), b' '), (edges, b'\n')].into_iter().for_each(|(n, end)| put(&mut text, n as u32, end));
    }
    for key in &keys {
        let (p, _) = at(table, slot_of(*key)).expect("a record");
        if obj {
            text.extend_from_slice(b"v ");
        }
        put_position(&mut text, p);
    }
    let (before, first) = if obj { (*b"f ", 1) } else { (*b"4 ", 0) };
    for face in &faces {
        text.extend_from_slice(&before);
        corners(*face).into_iter().zip(*b"   \n").for_each(|(number, end)| put(&mut text, number + first, end));
    }
    if text.len() > out.len() {
        return (13, 0);
    }
    out[..text.len()].copy_from_slice(&text);
    (0, text.len() as u64)
}

/// A vertex's key is its order and below that its slot.
fn slot_of(key: u64) -> usize {
    (key & 0xffff) as usize
}

fn different<T: Ord>(mut list: Vec<T>) -> Vec<T> {
    list.sort_unstable();
    list.dedup();
    list
}

/// Each face once, by its numbers, or nothing where one is torn.
fn faces(table: &[u8], numbers: &[u16]) -> Option<Vec<u64>> {
    let number = |p: Point| find(table, p).map(|(slot, _)| numbers[slot]);
    let mut faces = Vec::with_capacity(6 * numbers.len());
    for (slot, here) in numbers.iter().enumerate() {
        let Some((p, v)) = at(table, slot) else { continue };
        let rows = rows(v);
        let mut adjacent = [0; 6];
        for (there, row) in adjacent.iter_mut().zip(rows) {
            *there = number(sum(p, row.adjacent, v.n))?;
        }
        for (j, row) in rows.iter().enumerate() {
            let far = number(sum(p, row.first, v.n)).or_else(|| number(sum(p, row.second, v.n)))?;
            let next = if j + 1 == rows.len() { 0 } else { j + 1 };
            faces.push(packed([*here, adjacent[j], far, adjacent[next]]));
        }
    }
    Some(different(faces))
}

/// Four numbers in one, from the least on.
fn packed(mut face: [u16; 4]) -> u64 {
    let least = face[0].min(face[1]).min(face[2].min(face[3]));
    while face[0] != least {
        face.rotate_left(1);
    }
    face.iter().fold(0, |key, number| key << 16 | *number as u64)
}

fn corners(face: u64) -> [u32; 4] {
    [48, 32, 16, 0].map(|at| (face >> at & 0xffff) as u32)
}

fn sides(face: u64) -> [u32; 4] {
    let [a, b, c, d] = corners(face);
    [[a, b], [b, c], [c, d], [d, a]].map(|[p, q]| p.min(q) << 16 | p.max(q))
}

#[inline]
fn put(text: &mut Vec<u8>, value: u32, end: u8) {
    let (mut digits, mut at, mut rest) = ([0; 10], 10, value);
    loop {
        at -= 1;
        digits[at] = b'0' + (rest % 10) as u8;
        rest /= 10;
        if rest == 0 {
            break;
        }
    }
    text.extend_from_slice(&digits[at..]);
    text.push(end);
}

fn put_position(text: &mut Vec<u8>, p: Point) {
    let power = 3_u64.pow(p.m as u32);
    let across = 2 * p.a + p.b;
    let x = (10_000 * across.unsigned_abs() as u64 + power) / (2 * power);
    let up = p.b.unsigned_abs() as u64;
    let y = (root(300_000_000 * up * up / (power * power)) + 1) / 2;
    for (below_zero, n) in [(across < 0, x as u32), (p.b < 0, y as u32)] {
        if below_zero {
            text.push(b'-');
        }
        put(text, n / 10_000, b'.');
        let rest = n % 10_000;
        text.extend_from_slice(&[1000, 100, 10, 1].map(|unit| b'0' + (rest / unit % 10) as u8));
        text.push(b' ');
    }
    text.extend_from_slice(b"0.0000\n");
}

/// The whole part of a root: by floating point, put right.
fn root(q: u64) -> u64 {
    let mut w = (q as f64).sqrt() as u64;
    while w * w > q {
        w -= 1;
    }
    while (w + 1) * (w + 1) <= q {
        w += 1;
    }
    w
}
