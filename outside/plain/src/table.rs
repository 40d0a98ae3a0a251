//! The flat table: 12 bytes a slot, linear probing from the home slot.

use crate::lattice::{valid, Point, Star};

pub const SLOT: usize = 12;

pub fn fits(len: usize) -> bool {
    len % SLOT == 0 && (16..=65_536).contains(&(len / SLOT))
}

#[inline]
pub fn home(p: Point, slots: usize) -> usize {
    (7919 * p.a as i64 + 104_729 * p.b as i64 + p.m as i64).rem_euclid(slots as i64) as usize
}

#[inline]
fn head(bytes: &[u8], slot: usize) -> (u64, u32) {
    let s = &bytes[slot * SLOT..slot * SLOT + SLOT];
    (u64::from_le_bytes(s[..8].try_into().unwrap()), u32::from_le_bytes(s[8..].try_into().unwrap()))
}

#[inline]
fn key(p: Point) -> u64 {
    p.a as u32 as u64 | (p.b as u32 as u64) << 32
}

#[inline]
fn tail(p: Point, s: Star) -> u32 {
    u32::from_le_bytes([p.m, s.d, s.k, s.n])
}

const FREE: (u64, u32) = (u64::MAX, u32::MAX);

/// The record in a slot that is not free.
#[inline]
pub fn at(bytes: &[u8], slot: usize) -> Option<(Point, Star)> {
    let (k, t) = head(bytes, slot);
    if (k, t) == FREE {
        return None;
    }
    let [m, d, o, n] = t.to_le_bytes();
    Some((Point { a: k as u32 as i32, b: (k >> 32) as u32 as i32, m }, Star { d, k: o, n }))
}

#[inline]
pub fn store(bytes: &mut [u8], slot: usize, p: Point, s: Star) {
    let at = &mut bytes[slot * SLOT..slot * SLOT + SLOT];
    at[..8].copy_from_slice(&key(p).to_le_bytes());
    at[8..].copy_from_slice(&tail(p, s).to_le_bytes());
}

pub enum Probe {
    Found(usize, Star),
    Free(usize),
    Full,
}

/// The search for a normalised point.
#[inline]
pub fn probe(bytes: &[u8], p: Point) -> Probe {
    let slots = bytes.len() / SLOT;
    let wanted = key(p);
    let mut slot = home(p, slots);
    for _ in 0..slots {
        let (k, t) = head(bytes, slot);
        let [m, d, o, n] = t.to_le_bytes();
        if k == wanted && m == p.m {
            return Probe::Found(slot, Star { d, k: o, n });
        }
        if (k, t) == FREE {
            return Probe::Free(slot);
        }
        slot += 1;
        if slot == slots {
            slot = 0;
        }
    }
    Probe::Full
}

#[inline]
pub fn find(bytes: &[u8], p: Point) -> Option<(usize, Star)> {
    match probe(bytes, p) {
        Probe::Found(slot, s) => Some((slot, s)),
        _ => None,
    }
}

/// Enters an absent point; false where no slot is free.
pub fn enter(bytes: &mut [u8], p: Point, s: Star) -> bool {
    match probe(bytes, p) {
        Probe::Free(slot) => store(bytes, slot, p, s),
        _ => return false,
    }
    true
}

/// The free slots of a table in order; nothing where it is not: each record is valid, and its own search ends at it.
pub fn in_order(bytes: &[u8]) -> Option<usize> {
    if !fits(bytes.len()) {
        return None;
    }
    let mut free = 0;
    for slot in 0..bytes.len() / SLOT {
        match at(bytes, slot) {
            None => free += 1,
            Some((p, s)) => {
                if !valid(p, s) || find(bytes, p).map(|(found, _)| found) != Some(slot) {
                    return None;
                }
            }
        }
    }
    Some(free)
}
