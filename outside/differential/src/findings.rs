//! The tests of findings, for any caller against the mesher: every number with every reason for it, by cases written out; then every byte,
//! every length, spoiled lists and long ones. The stream of `random` has findings too.

use crate::caller::{Caller, Mesher};
use crate::case::Case;
use crate::makers::*;
use crate::rng::Rng;
use crate::suite::{fuzzed, same, seed};
use mesher::mesh::base as base_records;
use mesher::record::Record;
use mesher::slots::SLOT;
use mesher::spot::Point;

const GOOD: &str = "7\t3\t0\t1\tpit\n";

/// Three hexagons, their middle subdivided: vertices of two depths, and the rim.
fn three() -> (Vec<Record>, Vec<u8>) {
    let mut rng = Rng::new(1);
    let records = grow(&mut rng, &base_records(&[(0, 0), (1, 1), (2, -1)]), 22, 0);
    let table = laid(&mut rng, &records, 30);
    (records, table)
}

/// The number and, with 15, the line; an output as long as the list.
fn joined(caller: &dyn Caller, table: &[u8], list: &[u8]) -> (u8, i64) {
    let case = Case::Findings { table: table.to_vec(), list: list.to_vec(), out: vec![3; list.len()] };
    same(caller, &case);
    let outcome = case.run(&Mesher);
    (outcome.number, outcome.value[0])
}

/// The four numbers of a line, one of them replaced.
fn with_field(i: usize, field: &str) -> String {
    let mut fields = ["7", "3", "0", "1", "pit"];
    fields[i] = field;
    fields.join("\t") + "\n"
}

/// Lines that are no finding: each field in each way, then the line's own form.
fn no_findings() -> Vec<String> {
    let mut lines = Vec::new();
    let odd =
        ["", "-", "+1", "-0", "00", "01", "-01", "1x", "x", " 1", "1 ", "1\0", "1\r", "\u{ff11}", "4294967297", "18446744073709551617"];
    let beyond: [&[&str]; 4] = [
        &["0", "-1", "1000000", "9999999", "1000000000000000000000000"],
        &["1000001", "-1000001", "1062882", "10000000", "-2147483649"],
        &["1000001", "-1000001", "1062882", "10000000", "-2147483649"],
        &["13", "-1", "20", "100", "255", "256", "268"],
    ];
    for (i, beyond) in beyond.iter().enumerate() {
        lines.extend(odd.iter().chain(*beyond).map(|field| with_field(i, field)));
    }
    let forms = [
        "",
        "7",
        "7\t3",
        "7\t3\t0",
        "7\t3\t0\t1",
        "7 3 0 1 pit",
        "\t7\t3\t0\t1\tpit",
        "7\t\t3\t0\t1\tpit",
        "?\t7\tpit",
        "1\t0\t0\t7\tpit\t",
        "7\t3\t0\t1\ta\tb",
        "7\t3\t0\t1\t\t",
    ];
    lines.extend(forms.map(|form| form.to_string() + "\n"));
    // past the limits as written, though the place is one that a line within them spells
    lines.extend(["1\t1062882\t0\t12\t\n", "1\t531441\t0\t13\t\n", "1\t0\t0\t13\t\n"].map(str::to_string));
    for long in [81, 82, 255, 256, 336] {
        lines.push(format!("7\t3\t0\t1\t{}\n", "x".repeat(long)));
    }
    lines
}

/// 15 for every reason, alone, after a good line, before one, and before another fault; and a last line without its line feed.
pub fn findings_malformed(caller: &dyn Caller) {
    let (_, table) = three();
    for line in no_findings() {
        for (list, at) in [
            (line.clone(), 1),
            (GOOD.to_string() + &line, 2),
            (line.clone() + GOOD, 1),
            (GOOD.repeat(9) + &line + GOOD, 10),
            (GOOD.to_string() + &line + GOOD + "\n", 2),
        ] {
            assert_eq!(joined(caller, &table, list.as_bytes()), (15, at), "{list:?}");
        }
    }
    let two = GOOD.repeat(2);
    for cut in 1..GOOD.len() {
        assert_eq!(joined(caller, &table, &two.as_bytes()[..GOOD.len() + cut]), (15, 2));
        assert_eq!(joined(caller, &table, &two.as_bytes()[..cut]), (15, 1));
    }
}

/// 0: the limits exactly, every spelling of every vertex, lost ones, notes of every byte and length, repeats, no line, no vertex.
pub fn findings_done(caller: &dyn Caller) {
    let (records, table) = three();
    let none = vec![255; 16 * SLOT];
    let mut lists: Vec<Vec<u8>> = vec![Vec::new()];
    for field in ["1", "999999"] {
        lists.push(with_field(0, field).into_bytes());
    }
    for (i, field) in [(1, "1000000"), (1, "-1000000"), (2, "1000000"), (2, "-1000000"), (3, "0"), (3, "12")] {
        lists.push(with_field(i, field).into_bytes());
    }
    for long in 0..=80 {
        lists.push(format!("7\t3\t0\t1\t{}\n3\t9\t9\t0\t{}\n", "x".repeat(long), "y".repeat(80 - long)).into_bytes());
    }
    for byte in (0..=255).filter(|byte| !b"\t\n".contains(byte)) {
        lists.push([b"7\t3\t0\t1\t", &[byte; 2][..], b"\n8\t9\t9\t0\t", &[byte], b"\n"].concat());
    }
    lists.push((GOOD.to_string() + "9\t1\t0\t0\t\n" + GOOD).repeat(5).into_bytes());
    lists.push(records.iter().rev().flat_map(|r| spellings(r.point())).collect::<String>().into_bytes());
    for list in lists {
        assert_eq!(joined(caller, &table, &list), (0, 0), "{:?}", String::from_utf8_lossy(&list));
        assert_eq!(joined(caller, &none, &list), (0, 0), "{:?}", String::from_utf8_lossy(&list));
    }
}

/// A line for each spelling of a point within the limits, and for what is a step beside it at that depth.
fn spellings(p: Point) -> Vec<String> {
    let mut lines = Vec::new();
    let (mut a, mut b) = (p.a, p.b);
    for m in p.m..=12 {
        if a.abs() >= 1_000_000 || b.abs() >= 1_000_000 {
            break;
        }
        lines.push(format!("{}\t{a}\t{b}\t{m}\t\n", lines.len() + 1));
        lines.push(format!("{}\t{}\t{b}\t{m}\tbeside\n", lines.len() + 1, a + 1));
        (a, b) = (3 * a, 3 * b);
    }
    lines
}

/// 1 before 15 before 13, for a table of every wrong length and for one with a record where it must not be.
pub fn findings_refusals_in_order(caller: &dyn Caller) {
    let (_, table) = three();
    let mut damaged = table.clone();
    let record = damaged.chunks_mut(SLOT).find(|slot| **slot != [255; SLOT]).expect("a record");
    record[9] = 7; // no such degree
    let tables = [0, 1, 11, 15 * SLOT, 16 * SLOT + 1, 65_537 * SLOT].map(|len| vec![255; len]);
    for table in tables.iter().chain([&damaged]) {
        for list in [&b"\n"[..], b"", GOOD.as_bytes()] {
            for room in [0, 1, 40] {
                let case = Case::Findings { table: table.clone(), list: list.to_vec(), out: vec![3; room] };
                assert_eq!(same(caller, &case), 1);
            }
        }
    }
    let bad = (GOOD.repeat(3) + "\n").into_bytes();
    for (list, room, number) in [(&bad[..], 0, 15), (&bad, 5, 15), (GOOD.as_bytes(), 0, 13), (GOOD.as_bytes(), 11, 13), (b"", 0, 0)] {
        assert_eq!(same(caller, &Case::Findings { table: table.clone(), list: list.to_vec(), out: vec![3; room] }), number);
    }
}

/// Each byte of a small list set to each value, each byte of a small table to some, and outputs of every length.
pub fn findings_bytes(caller: &dyn Caller) {
    let (records, table) = three();
    let list = findings_list(&mut Rng::new(seed() ^ 0x15), &records, 12);
    let small = [GOOD.as_bytes(), b"3\t9\t9\t0\tgone\n8\t-1\t0\t0\t\n"].concat();
    for at in 0..small.len() {
        for value in 0..=255 {
            let mut list = small.clone();
            list[at] = value;
            joined(caller, &table, &list);
        }
    }
    for at in 0..table.len() {
        for value in [0, 1, 3, 7, 13, 128, 255] {
            let mut table = table.clone();
            table[at] = value;
            joined(caller, &table, &small);
        }
    }
    for list in [&list, &small] {
        for len in 0..list.len() + 3 {
            same(caller, &Case::Findings { table: table.clone(), list: list.clone(), out: vec![3; len] });
        }
    }
}

/// Lists spoiled and scribbled.
pub fn fuzzed_findings(caller: &dyn Caller) {
    let mut rng = Rng::new(seed() ^ 0xf1);
    let (records, table) = three();
    for _ in 0..fuzzed() / 3 {
        let mut list = match rng.below(4) {
            0 => scribble(&mut rng, 24),
            1 => faulty_findings(&mut rng, &records, 4),
            _ => findings_list(&mut rng, &records, 4),
        };
        for _ in 0..rng.below(3) {
            spoil_bytes(&mut rng, &mut list);
        }
        joined(caller, &table, &list);
    }
}

/// Thousands of findings over large meshes; and lists about and over 8 MiB, the most for which a point's order and a position fit 64 bits.
pub fn long_findings(caller: &dyn Caller) {
    let mut rng = Rng::new(seed() ^ 0x10);
    for (hexagons, lines) in [(3, 20_000), (400, 3_000), (4_000, 30_000)] {
        let records = base_records(&disc(hexagons));
        let table = laid(&mut rng, &records, records.len() * 4 / 3 + 16);
        let list = findings_list(&mut rng, &records, lines);
        assert_eq!(joined(caller, &table, &list), (0, 0));
        let broken = [&list[..], b"0\t0\t0\t0\t\n"].concat();
        assert_eq!(joined(caller, &table, &broken).0, 15);
    }
    let (records, table) = three();
    for bytes in [8 << 20, (8 << 20) + 1, 9 << 20] {
        assert_eq!(joined(caller, &table, &list_of(&mut rng, &records, bytes)), (0, 0));
    }
}

/// A good list of just so many bytes: long notes, most of its points few vertices' in some spelling.
fn list_of(rng: &mut Rng, records: &[Record], bytes: usize) -> Vec<u8> {
    let mut list = Vec::with_capacity(bytes);
    while list.len() + 400 < bytes {
        let p = rng.pick(records).point();
        let (up, m) = *rng.pick(&[(1, p.m), (3, p.m + 1), (27, p.m + 3), (1, 8)]);
        list.extend(format!("{}\t{}\t{}\t{m}\t{:80}\n", rng.from_to(1, 999_999), up * p.a, up * p.b, rng.below(1000)).bytes());
    }
    while list.len() < bytes {
        let left = bytes - list.len();
        let line = if left >= 100 {
            50
        } else if left > 80 {
            left / 2
        } else {
            left
        };
        list.extend(format!("7\t1\t0\t0\t{:1$}\n", "", line - 9).bytes());
    }
    list
}
