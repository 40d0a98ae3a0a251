//! Old files: a mesh's lines shuffled, respelled, repeated, left out, with malformed lines among them, and now and then two records of one point.

use super::files::{faulty, file};
use super::tables::{some_star, star_of_degree};
use crate::rng::Rng;
use mesher::lines;
use mesher::record::Record;

/// Lines that no salvage keeps: each for another reason, or the same with other numbers.
const MALFORMED: [&str; 24] = [
    "\n",
    "\t\t\t\t\t\n",
    "0\t0\t0\t3\t0\n",
    "0\t0\t0\t3\t0\t0\r\n",
    "0 0 0 3 0 0\n",
    "00\t0\t0\t3\t0\t0\n",
    "0\t-0\t0\t3\t0\t0\n",
    "+1\t0\t0\t3\t0\t0\n",
    "9999999999999999999999\t0\t0\t3\t0\t0\n",
    "0\t0\t0\t256\t0\t0\n",
    "1000001\t0\t0\t3\t0\t0\n",
    "1062882\t0\t12\t0\t0\t0\n",
    "0\t-1000001\t0\t3\t0\t0\n",
    "0\t0\t13\t3\t0\t0\n",
    "0\t0\t18446744073709551616\t3\t0\t0\n",
    "1\t0\t0\t6\t12\t0\n",
    "1\t0\t0\t6\t11\t0\n",
    "1\t0\t0\t0\t4\t0\n",
    "1\t0\t0\t7\t0\t0\n",
    "1\t0\t0\t-3\t0\t0\n",
    "252\t0\t0\t0\t0\t0\n",
    "1000000\t1\t12\t3\t0\t0\n",
    "0\t0\t0\t3\t1\t13\n",
    "0\t0\t0\t3\t1\t0\n",
];

/// The line of a record in another spelling: its point over a higher power of 3, its orientation by another number of the same look.
pub fn respelled(rng: &mut Rng, r: &Record) -> String {
    let (mut a, mut b, mut m) = (r.a as i64, r.b as i64, r.m);
    while m < 12 && (3 * a).abs().max((3 * b).abs()) <= 1_000_000 && !rng.once_in(3) {
        (a, b, m) = (3 * a, 3 * b, m + 1);
    }
    let k = match r.d {
        3 => r.k + 4 * rng.below(3) as u8,
        6 => r.k + 2 * rng.below(6) as u8,
        _ => r.k,
    };
    format!("{a}\t{b}\t{m}\t{}\t{k}\t{}\n", r.d, r.n)
}

/// Another record at a record's point: another degree, another orientation, or another level.
fn other_record(rng: &mut Rng, r: &Record) -> Record {
    let same_degree = star_of_degree(rng, r.point(), r.d);
    match rng.below(3) {
        0 => some_star(rng, r.point()),
        1 if r.n < 11 => Record { n: r.n + 2, ..*r },
        _ => Record { n: r.n, ..same_degree },
    }
}

/// An old file of these records.
pub fn old_file(rng: &mut Rng, records: &[Record]) -> Vec<u8> {
    let reduced = rng.once_in(3);
    let text =
        if rng.once_in(8) { String::from_utf8_lossy(&faulty(rng, &file(records, reduced))).into_owned() } else { file(records, reduced) };
    let mut list: Vec<String> = text.split_inclusive('\n').map(str::to_string).collect();
    if rng.once_in(2) {
        rng.shuffle(&mut list);
    }
    if rng.once_in(4) {
        return list.concat().into_bytes();
    }
    for _ in 0..rng.below(4) {
        let r = *rng.pick(records);
        let line = if rng.once_in(3) { lines::line(&r) } else { respelled(rng, &r) };
        match list.iter().position(|old| *old == lines::line(&r)) {
            Some(i) if rng.once_in(2) => list[i] = line,
            Some(_) => list.insert(rng.below(list.len() + 1), line),
            None if rng.once_in(4) => list.push(line),
            None => {}
        }
    }
    for _ in 0..rng.below(3) {
        let bad = rng.pick(&MALFORMED).to_string();
        list.insert(rng.below(list.len() + 1), bad);
    }
    if rng.once_in(6) {
        let r = *rng.pick(records);
        let other = other_record(rng, &r);
        let line = if rng.once_in(2) { lines::line(&other) } else { respelled(rng, &other) };
        list.insert(rng.below(list.len() + 1), line);
    }
    if rng.once_in(10) && !list.is_empty() {
        list.remove(rng.below(list.len()));
    }
    if rng.once_in(6) {
        list.push(rng.pick(&["0", "1\t0\t0\t6\t0\t0", "\t", "-", "x\r"]).to_string());
    }
    list.concat().into_bytes()
}

/// A file of which nothing is left, or a file of no bytes.
pub fn no_line_left(rng: &mut Rng) -> Vec<u8> {
    (0..rng.below(4)).flat_map(|_| rng.pick(&MALFORMED).bytes()).collect()
}
