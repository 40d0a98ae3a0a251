//! Tables: records laid in some order, valid and invalid records, bytes and slots damaged.

use crate::rng::Rng;
use mesher::record::Record;
use mesher::slots::{decode, encode, Slots, SLOT};
use mesher::spot::Point;

/// A number of slots for so many records: none, few or many free.
pub fn slots_for(rng: &mut Rng, records: usize) -> usize {
    let free = match rng.below(6) {
        0 => 0,
        1 => rng.below(6),
        2 => 6 + rng.below(3),
        3 => rng.below(60),
        _ => rng.below(records + 20),
    };
    (records + free).max(16)
}

/// A table in order with these records, entered in some order.
pub fn laid(rng: &mut Rng, records: &[Record], slots: usize) -> Vec<u8> {
    let mut order = records.to_vec();
    if !rng.once_in(4) {
        rng.shuffle(&mut order);
    }
    let mut table = Slots::cleared(slots);
    for r in order {
        assert!(table.enter(r));
    }
    let mut bytes = vec![0; slots * SLOT];
    table.store(&mut bytes);
    bytes
}

/// A valid record at this point.
pub fn some_star(rng: &mut Rng, p: Point) -> Record {
    let d = *rng.pick(&[0, 3, 3, 4, 4, 5, 5, 6, 6]);
    star_of_degree(rng, p, d)
}

pub fn star_of_degree(rng: &mut Rng, p: Point, d: u8) -> Record {
    let orientations = match d {
        0 => return Record::at(p, 0, 0, 0),
        3 => 4,
        6 => 2,
        _ => 12,
    };
    let k = rng.below(orientations) as u8;
    let n = (k % 2) + 2 * rng.below(if k % 2 == 0 { 7 } else { 6 }) as u8;
    Record::at(p, d, k, n)
}

/// A record that isn't valid, made from one that is.
pub fn invalid(rng: &mut Rng, r: Record) -> Record {
    let tripled = Record { a: r.a.wrapping_mul(3), b: r.b.wrapping_mul(3), m: r.m + 1, ..r };
    let reach = 251 * 3i32.pow(r.m as u32);
    match rng.below(9) {
        0 => tripled,
        1 => Record { a: *rng.pick(&[reach + 1, -reach - 1, i32::MIN, i32::MAX]), ..r },
        2 => Record { b: *rng.pick(&[reach + 1, -reach - 1, i32::MIN, i32::MAX]), ..r },
        3 => Record { m: *rng.pick(&[7, 8, 100, 255]), ..r },
        4 => Record { d: *rng.pick(&[1, 2, 7, 8, 255]), ..r },
        5 => Record { n: *rng.pick(&[13, 14, 100, 255]), ..r },
        6 => Record { k: *rng.pick(&[2, 3, 4, 11, 12, 13, 255]), ..r },
        7 => Record { k: r.k ^ 1, ..r },
        _ => Record { d: 0, k: rng.below(3) as u8, n: rng.below(3) as u8, ..r },
    }
}

/// A table with some of its bytes, slots or its length changed.
pub fn damaged(rng: &mut Rng, table: &[u8]) -> Vec<u8> {
    let mut bytes = table.to_vec();
    let slots = bytes.len() / SLOT;
    for _ in 0..1 + rng.below(2) {
        let (i, j) = (rng.below(slots) * SLOT, rng.below(slots) * SLOT);
        match rng.below(7) {
            0 => {
                let at = rng.below(bytes.len());
                bytes[at] = rng.next() as u8;
            }
            1 => {
                let at = rng.below(bytes.len());
                bytes[at] = bytes[at].wrapping_add(*rng.pick(&[1, 2, 255, 254, 128]));
            }
            2 => {
                for x in 0..SLOT {
                    bytes.swap(i + x, j + x);
                }
            }
            3 => bytes[i..i + SLOT].fill(255),
            4 => bytes.copy_within(i..i + SLOT, j),
            5 => {
                let here = decode(&bytes[i..i + SLOT]);
                if here.is_valid() {
                    bytes[i..i + SLOT].copy_from_slice(&encode(&invalid(rng, here)));
                }
            }
            _ => {}
        }
    }
    if rng.once_in(8) {
        let len = *rng.pick(&[0, 1, 11, 12, 15 * SLOT, bytes.len() - 1, bytes.len() - 5, bytes.len() + 1]);
        bytes.resize(len, 255);
    }
    bytes
}
