//! The table in memory: a list of slots, each free or with a record, and the four conditions of a table in order.

use crate::record::Record;
use crate::slips::{made, Slip};
use crate::spot::Point;
use std::collections::HashMap;

pub const SLOT: usize = 12;
pub const FREE: [u8; SLOT] = [255; SLOT];
pub const FEWEST: usize = 16;
pub const MOST: usize = 65_536;

/// "12 bytes a slot, 16 to 65,536 slots"
pub fn length_fits(bytes: usize) -> bool {
    bytes % SLOT == 0 && (FEWEST..=MOST).contains(&(bytes / SLOT))
}

/// "a and b as signed 32-bit, low byte first, then m, d, k, n"
pub fn encode(r: &Record) -> [u8; SLOT] {
    let mut s = [0; SLOT];
    s[0..4].copy_from_slice(&r.a.to_le_bytes());
    s[4..8].copy_from_slice(&r.b.to_le_bytes());
    s[8..].copy_from_slice(&[r.m, r.d, r.k, r.n]);
    s
}

pub fn decode(s: &[u8]) -> Record {
    let word = |at: usize| i32::from_le_bytes([s[at], s[at + 1], s[at + 2], s[at + 3]]);
    Record { a: word(0), b: word(4), m: s[8], d: s[9], k: s[10], n: s[11] }
}

/// "The home slot is (7919a + 104729b + m) mod the number of slots, never negative."
pub fn home(p: Point, slots: usize) -> usize {
    let sum = 7919 * p.a as i64 + 104_729 * p.b as i64 + p.m as i64;
    let sum = if made(Slip::HomeIn32Bits) { sum as i32 as i64 } else { sum };
    sum.rem_euclid(slots as i64) as usize
}

/// A table in order, with where each point stands.
#[derive(Clone)]
pub struct Slots {
    list: Vec<Option<Record>>,
    stands: HashMap<Point, usize>,
}

impl Slots {
    /// A table of free slots.
    pub fn cleared(slots: usize) -> Slots {
        Slots { list: vec![None; slots], stands: HashMap::new() }
    }

    /// The table of these bytes where it is in order, else which condition fails.
    pub fn of(bytes: &[u8]) -> Result<Slots, &'static str> {
        // "its length fits"
        if !length_fits(bytes.len()) {
            return Err("length doesn't fit");
        }
        // "each slot is free or holds a valid record"
        let mut slots = Slots::cleared(bytes.len() / SLOT);
        for (i, s) in bytes.chunks(SLOT).enumerate() {
            if s != FREE {
                let record = decode(s);
                if let Some(fault) = record.fault() {
                    return Err(fault);
                }
                slots.list[i] = Some(record);
            }
        }
        // "no point stands twice"
        for (i, slot) in slots.list.iter().enumerate() {
            if let Some(record) = slot {
                if slots.stands.insert(record.point(), i).is_some() && !made(Slip::DoubleUnseen) {
                    return Err("a point stands twice");
                }
            }
        }
        // "no slot from a record's home (itself included) on to its own slot, wrapping, is free"
        for (own, slot) in slots.list.iter().enumerate() {
            if let Some(record) = slot {
                let mut i = home(record.point(), slots.list.len());
                while i != own {
                    if slots.list[i].is_none() && !made(Slip::GapUnseen) {
                        return Err("a free slot before a record");
                    }
                    i = (i + 1) % slots.list.len();
                }
            }
        }
        Ok(slots)
    }

    /// The bytes of the table.
    pub fn store(&self, bytes: &mut [u8]) {
        for (s, slot) in bytes.chunks_mut(SLOT).zip(&self.list) {
            s.copy_from_slice(&slot.map_or(FREE, |r| encode(&r)));
        }
    }

    pub fn find(&self, p: Point) -> Option<Record> {
        self.stands.get(&p).map(|i| self.list[*i].expect("a record stands here"))
    }

    pub fn free(&self) -> usize {
        self.list.iter().filter(|slot| slot.is_none()).count()
    }

    pub fn records(&self) -> impl Iterator<Item = &Record> {
        self.list.iter().flatten()
    }

    /// "A new record takes the first free slot so met": from its home on, wrapping. False where there is none.
    pub fn enter(&mut self, r: Record) -> bool {
        let slots = self.list.len();
        let start = home(r.point(), slots);
        for i in (start..slots).chain(0..start) {
            if self.list[i].is_none() {
                self.list[i] = Some(r);
                self.stands.insert(r.point(), i);
                return true;
            }
        }
        false
    }

    /// The record in place of the one at its point.
    pub fn replace(&mut self, r: Record) {
        let i = self.stands[&r.point()];
        self.list[i] = Some(r);
    }
}
