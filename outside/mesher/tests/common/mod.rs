//! Small helpers of the tests: tables made and read, files and census texts as strings.
#![allow(dead_code)]

use mesher::record::Record;
use mesher::slots::{Slots, SLOT};
use mesher::*;

/// The table of this base, in this many slots.
pub fn based(slots: usize, centres: &[i32]) -> Vec<u8> {
    let mut table = vec![0; SLOT * slots];
    assert_eq!(base(&mut table, centres).number, 0);
    table
}

pub fn records(table: &[u8]) -> Vec<Record> {
    Slots::of(table).expect("a table in order").records().copied().collect()
}

/// Enters the records into a table in order.
pub fn place(table: &mut [u8], list: &[Record]) {
    let mut slots = Slots::of(table).expect("a table in order");
    for r in list {
        assert!(slots.enter(*r));
    }
    slots.store(table);
}

fn text(table: &[u8], write: fn(&[u8], &mut [u8]) -> Answer<u64>) -> String {
    let mut out = vec![0; 40 * table.len() / SLOT];
    let answer = write(table, &mut out);
    assert_eq!(answer.number, 0);
    out.truncate(answer.value as usize);
    String::from_utf8(out).unwrap()
}

pub fn full_text(table: &[u8]) -> String {
    text(table, write_full)
}

pub fn reduced_text(table: &[u8]) -> String {
    text(table, write_reduced)
}

/// The census program's output: 5,461 slots.
pub fn census_text(input: &[u8]) -> String {
    let (mut table, mut scratch, mut out) = (vec![0; 5461 * SLOT], vec![0; 5461 * SLOT], [0; 128]);
    let answer = census(input, &mut table, &mut scratch, &mut out);
    String::from_utf8(out[..answer.value as usize].to_vec()).unwrap()
}
