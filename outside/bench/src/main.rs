//! The library beside plain Rust, each task timed by turns in one run; the least of several rounds, per unit, and the ratio.
//!
//! usage: bench [ROUNDS] [--bars] [--openmesh PROGRAM FILE.off], beside OpenMesh on that sheet; or bench --sheet FILE.off, the sheet for it.
//! `sheets` makes the meshes; `clock` times and prints; `bars` has the most that a ratio may be; `lookups` is the library's search, which
//! no call of the C interface makes alone. The plain Rust is the crate `plain`: the same flat table, a constant table of stars,
//! sort_unstable, the local check; for searches and subdivision also the same algorithm on std's HashMap.

mod bars;
mod clock;
mod lookups;
mod openmesh;
mod sheets;

use bars::{GROWN_FROM, GROWTH, READS, VIEWS, WRITES};
use clock::{Bench, Task};
use differential::bring::deepest;
use differential::rng::Rng;
use flaskbloom::slices as library;
use openmesh::OpenMesh;
use plain::lattice::{Point, Star};
use plain::mesh::{records, subdivide_in};
use plain::table::{find, in_order, SLOT};
use sheets::*;
use std::collections::HashMap;
use std::hint::black_box;
use std::time::Duration;

const MOST: usize = 65_536;

/// Where a slot has its vertex's degree, before orientation and level.
const DEGREE: usize = 9;

struct Words {
    rounds: usize,
    bars: bool,
    openmesh: Option<[String; 2]>,
}

fn words() -> Words {
    let mut words = Words { rounds: 9, bars: false, openmesh: None };
    let mut given = std::env::args().skip(1);
    while let Some(word) = given.next() {
        match &word[..] {
            "--bars" => words.bars = true,
            "--openmesh" => {
                words.openmesh = Some([given.next().expect("a program"), given.next().expect("a file")]);
            }
            "--sheet" => {
                std::fs::write(given.next().expect("a file"), off(&published())).expect("the file is written");
                std::process::exit(0);
            }
            _ => words.rounds = word.parse().expect("a number of rounds"),
        }
    }
    words
}

fn main() {
    let words = words();
    let mut bench = Bench::new(words.rounds);
    stars(&mut bench);
    searches(&mut bench);
    order(&mut bench);
    base(&mut bench);
    let levels = levels();
    let (table, _) = levels.last().expect("six levels");
    subdivision(&mut bench, &levels);
    bring(&mut bench);
    refine(&mut bench, table);
    engine(&mut bench, &levels);
    queries(&mut bench, table);
    many(&mut bench, table);
    counts(&mut bench, table);
    files(&mut bench, table);
    viewer(&mut bench, table);
    census(&mut bench);
    findings(&mut bench, table);
    salvage(&mut bench, table);
    bench.print();
    growth(&levels, &mut bench);
    if let Some([program, file]) = words.openmesh {
        beside(OpenMesh::start(&program, &file), &mut bench);
    }
    sizes(table);
    let over = &bench.over.0;
    if words.bars {
        println!("\n{} past their bars", if over.is_empty() { "none".into() } else { over.len().to_string() });
        over.iter().for_each(|line| println!("  {line}"));
        std::process::exit(!over.is_empty() as i32);
    }
}

/// Record i of a list that goes through degrees, all their orientations, depths and levels.
fn star_in_turn(i: i32) -> [i32; 6] {
    let (d, orientations) = [(3, 4), (4, 12), (5, 12), (6, 2)][i as usize % 4];
    let k = i / 4 % orientations;
    [i % 251, -(i % 97), i % 7, d, k, k % 2 + 2 * (i / 48 % 6)]
}

fn stars(bench: &mut Bench) {
    let list: Vec<[i32; 6]> = (0..10_000).map(star_in_turn).collect();
    let all = |star: &dyn Fn(i32, i32, u8, u8, u8, u8) -> i32| -> i32 {
        list.iter().map(|r| star(r[0], r[1], r[2] as u8, r[3] as u8, r[4] as u8, r[5] as u8)).fold(0, i32::wrapping_add)
    };
    let by_library = |a, b, m, d, k, n| library::star(a, b, m, d, k, n).1[1];
    let by_plain = |a, b, m, d, k, n| plain::star(a, b, m, d, k, n).1[1];
    assert_eq!(all(&by_library), all(&by_plain));
    let task = Task { name: "star call", unit: "star", units: list.len() };
    bench.run(task, &mut || clock::time(|| black_box(all(&by_library))), &mut || clock::time(|| black_box(all(&by_plain))), None);
}

/// Every point of a table in random order, and as many that are not in it.
fn searches(bench: &mut Bench) {
    for (names, load) in
        [(["lookup, load 0.5, hit", "lookup, load 0.5, miss"], 0.5), (["lookup, load 0.9, hit", "lookup, load 0.9, miss"], 0.9)]
    {
        let table = based_to((MOST as f64 * load) as usize, MOST);
        let map: HashMap<Point, Star> = records(&table).collect();
        let mut there: Vec<Point> = map.keys().copied().collect();
        let mut elsewhere: Vec<Point> =
            (-250..=250).flat_map(|a| (-250..=250).map(move |b| Point { a, b, m: 0 })).filter(|p| !map.contains_key(p)).collect();
        there.sort_unstable_by_key(|p| (p.a, p.b));
        Rng::new(1).shuffle(&mut there);
        Rng::new(2).shuffle(&mut elsewhere);
        elsewhere.truncate(there.len());
        for (name, list) in names.into_iter().zip([there, elsewhere]) {
            let flat: Vec<i32> = list.iter().flat_map(|p| [p.a, p.b]).collect();
            let by_library = || lookups::held(&table, &flat, 0);
            let by_plain = || flat.chunks_exact(2).filter(|p| find(&table, Point { a: p[0], b: p[1], m: 0 }).is_some()).count() as u64;
            let by_map = || flat.chunks_exact(2).filter(|p| map.contains_key(&Point { a: p[0], b: p[1], m: 0 })).count() as u64;
            assert_eq!((by_library(), by_library()), (by_plain(), by_map()));
            let task = Task { name, unit: "search", units: list.len() };
            bench.run(
                task,
                &mut || clock::time(|| black_box(by_library())),
                &mut || clock::time(|| black_box(by_plain())),
                Some(&mut || clock::time(|| black_box(by_map()))),
            );
        }
    }
}

/// A query of an absent point ends right after the test of the table.
fn order(bench: &mut Bench) {
    for (name, load) in [("in-order test, load 0.5", 0.5), ("in-order test, load 0.9", 0.9)] {
        let table = based_to((MOST as f64 * load) as usize, MOST);
        assert_eq!(library::neighbours(&table, 250, 250, 5).0, 3);
        let task = Task { name, unit: "slot", units: MOST };
        bench.run(
            task,
            &mut || clock::time(|| black_box(library::neighbours(&table, 250, 250, 5))),
            &mut || clock::time(|| black_box(in_order(&table))),
            None,
        );
    }
}

fn base(bench: &mut Bench) {
    let centres = disc(20_000);
    let mut table = vec![0; MOST * SLOT];
    let mut other = table.clone();
    assert_eq!((library::base(&mut table, &centres), plain::base(&mut other, &centres)), ((0, 0), (0, 0)));
    assert!(table == other);
    let task = Task { name: "base of 20,000 hexagons", unit: "vertex", units: count(&table) };
    bench.run(
        task,
        &mut || clock::time(|| library::base(&mut table, &centres)),
        &mut || clock::time(|| plain::base(&mut other, &centres)),
        None,
    );
}

fn subdivision(bench: &mut Bench, levels: &[(Vec<u8>, Vec<i32>)]) {
    let first = &levels[0].0;
    let lists: Vec<&Vec<i32>> = levels.iter().map(|(_, list)| list).filter(|list| !list.is_empty()).collect();
    let made: usize = lists.iter().map(|list| list.len() / 3).sum();
    let all = |subdivide_all: fn(&mut [u8], &[i32]) -> (u8, u64)| {
        let mut table = first.clone();
        let time = clock::time(|| lists.iter().for_each(|list| assert_eq!(subdivide_all(&mut table, list).0, 0)));
        assert!(table == levels[levels.len() - 1].0);
        time
    };
    let mapped = || {
        let mut map: HashMap<Point, Star> = records(first).collect();
        clock::time(|| {
            for p in lists.iter().flat_map(|list| list.chunks_exact(3)) {
                assert_eq!(subdivide_in(&mut map, Point { a: p[0], b: p[1], m: p[2] as u8 }), 0);
            }
        })
    };
    let task = Task { name: "subdivide_all, 6 levels of a sheet", unit: "subdivision", units: made };
    bench.run(task, &mut || all(library::subdivide_all), &mut || all(plain::subdivide_all), Some(&mut { mapped }));
    let (table, _) = &levels[levels.len() - 2];
    let v = records(table).find(|(_, s)| s.d == 6 && s.n < 12).expect("a vertex to subdivide").0;
    let one = |subdivide: fn(&mut [u8], i32, i32, u8) -> u8| {
        let mut table = table.clone();
        clock::time(|| assert_eq!(subdivide(&mut table, v.a, v.b, v.m), 0))
    };
    let task = Task { name: "subdivide, one call in 65,536 slots", unit: "call", units: 1 };
    bench.run(task, &mut || one(library::subdivide), &mut || one(plain::subdivide), None);
}

type Bring = fn(&mut [u8], &mut [u8], i32, i32, u8) -> u8;

/// The deepest chain, twelve vertices under way at once: among few slots, where the subdivisions cost, and among many, where the test of the
/// table does.
fn bring(bench: &mut Bench) {
    for (slots, name) in [(4_096, "bring_to_six, in 4,096 slots"), (MOST, "bring_to_six, in 65,536 slots")] {
        let (table, [a, b, m]) = deepest(slots);
        let brought = |bring: Bring| {
            let (mut table, mut scratch) = (table.clone(), table.clone());
            let time = clock::time(|| assert_eq!(bring(&mut table, &mut scratch, a, b, m as u8), 0));
            (time, table)
        };
        assert!(brought(library::bring_to_six).1 == brought(plain::bring_to_six).1);
        let task = Task { name, unit: "subdivision", units: 63 };
        bench.run(task, &mut || brought(library::bring_to_six).0, &mut || brought(plain::bring_to_six).0, None);
    }
}

type Refine = fn(&mut [u8], &mut [u8], [f64; 3], u8, u8) -> (u8, u64);

/// A pass over the largest sheet round a disc, along a line, and one that runs out of slots and is undone.
fn refine(bench: &mut Bench, table: &[u8]) {
    let vertices = count(table);
    let narrow = relaid(table, vertices + 600);
    let (disc, line): ((Refine, Refine), (Refine, Refine)) =
        ((library::refine_disc, plain::refine_disc), (library::refine_line, plain::refine_line));
    for (name, (by_library, by_plain), outline, table, number) in [
        ("refine_disc, a pass", disc, [0.1, 0.2, 3.3], table, 0),
        ("refine_line, a pass", line, [0.6, 0.8, 0.3], table, 0),
        ("refine_disc, a pass undone", disc, [0.1, 0.2, 3.3], &narrow, 8),
    ] {
        let pass = |refine: Refine| {
            let (mut table, mut scratch) = (table.to_vec(), vec![0; table.len()]);
            (clock::time(|| assert_eq!(refine(&mut table, &mut scratch, outline, 1, 12).0, number)), table, scratch)
        };
        let (one, other) = (pass(by_library), pass(by_plain));
        assert!((&one.1, &one.2) == (&other.1, &other.2) && (number != 0 || count(&one.1) > vertices));
        let task = Task { name, unit: "vertex", units: vertices };
        bench.run(task, &mut || pass(by_library).0, &mut || pass(by_plain).0, None);
    }
}

/// A record from the list of all that was subdivided, which is judged first, each pair by a scan of those before it.
fn engine(bench: &mut Bench, levels: &[(Vec<u8>, Vec<i32>)]) {
    let centres = disc(SHEET);
    let of_level = |(level, (_, list)): (usize, &(Vec<u8>, Vec<i32>))| -> Vec<i32> {
        list.chunks_exact(3).flat_map(|p| [p[0], p[1], p[2], level as i32]).collect()
    };
    let pairs: Vec<i32> = levels.iter().enumerate().flat_map(of_level).collect();
    let (a, b, m) = (pairs[0], pairs[1], pairs[2] as u8);
    assert_eq!(library::vertex(&centres, &pairs, a, b, m), plain::vertex(&centres, &pairs, a, b, m));
    let count = pairs.len() / 4;
    let task = Task { name: "vertex, the list judged", unit: "pair looked at", units: count * (count + 1) / 2 };
    let by_library = || clock::time(|| library::vertex(black_box(&centres), &pairs, a, b, m));
    let by_plain = || clock::time(|| plain::vertex(black_box(&centres), &pairs, a, b, m));
    bench.run(task, &mut || by_library(), &mut || by_plain(), None);
}

type Query = fn(&[u8], i32, i32, u8) -> (u8, [i32; 19]);

fn queries(bench: &mut Bench, large: &[u8]) {
    let small = based_to(40, 64);
    for (names, table) in
        [(["neighbours, 64 slots", "faces, 64 slots"], &small[..]), (["neighbours, 65,536 slots", "faces, 65,536 slots"], large)]
    {
        let list: Vec<Point> = records(table).filter(|(_, s)| s.d != 0).map(|(p, _)| p).take(20).collect();
        let both: [(Query, Query); 2] = [(library::neighbours, plain::neighbours), (library::faces, plain::faces)];
        for (name, (by_library, by_plain)) in names.into_iter().zip(both) {
            let all = |query: Query| {
                let times = if table.len() < 1000 { 200 } else { 1 };
                let each = || list.iter().for_each(|p| assert_eq!(black_box(query(table, p.a, p.b, p.m)).0, 0));
                clock::time(|| (0..times).for_each(|_| each())) / times
            };
            let task = Task { name, unit: "call", units: list.len() };
            bench.run(task, &mut || all(by_library), &mut || all(by_plain), None);
        }
    }
}

type Queries = fn(&[u8], &[i32], &mut [i32]) -> u8;

/// All the vertices of a sheet at once, one test of the table among them.
fn many(bench: &mut Bench, table: &[u8]) {
    let list: Vec<i32> = records(table).flat_map(|(p, _)| [p.a, p.b, p.m as i32]).collect();
    let units = list.len() / 3;
    let (mut answers, mut other) = (vec![-1; 20 * units], vec![-1; 20 * units]);
    let calls: [(&str, Queries, Queries); 2] =
        [("neighbours_all", library::neighbours_all, plain::neighbours_all), ("faces_all", library::faces_all, plain::faces_all)];
    for (name, by_library, by_plain) in calls {
        let task = Task { name, unit: "vertex", units };
        bench.run(
            task,
            &mut || clock::time(|| assert_eq!(by_library(table, &list, &mut answers), 0)),
            &mut || clock::time(|| assert_eq!(by_plain(table, &list, &mut other), 0)),
            None,
        );
        assert!(answers == other);
    }
}

/// V, E and F of a sheet, and of the same one with a vertex made a boundary vertex, which no call does.
fn counts(bench: &mut Bench, table: &[u8]) {
    let mut changed = table.to_vec();
    let star = (0..changed.len()).step_by(SLOT).map(|slot| slot + DEGREE).rfind(|&d| changed[d] == 3).expect("a vertex of degree 3");
    changed[star..star + 3].fill(0);
    for (name, table) in [("counts", table), ("counts, a table not grown", &changed)] {
        assert_eq!(library::counts(table), plain::counts(table));
        let task = Task { name, unit: "vertex", units: count(table) };
        bench.run(task, &mut || clock::time(|| library::counts(table)), &mut || clock::time(|| plain::counts(table)), None);
    }
}

type Write = fn(&[u8], &mut [u8]) -> (u8, u64);
type Read = fn(&mut [u8], &mut [u8], &[u8]) -> (u8, u64);

fn files(bench: &mut Bench, table: &[u8]) {
    let vertices = count(table);
    let mut out = vec![0; 26 * vertices];
    let writers: [(&str, Write, Write); 2] =
        [("write_full", library::write_full, plain::write_full), ("write_reduced", library::write_reduced, plain::write_reduced)];
    let readers: [(&str, Read, Read); 2] =
        [("read_full", library::read_full, plain::read_full), ("read_reduced", library::read_reduced, plain::read_reduced)];
    for ((name, by_library, by_plain), (reader, read_library, read_plain)) in writers.into_iter().zip(readers) {
        let mut write = |call: Write| {
            let mut long = 0;
            let time = clock::time(|| long = call(table, &mut out).1);
            (time, out[..long as usize].to_vec())
        };
        let file = write(by_library).1;
        assert!(file == write(by_plain).1);
        let both = std::cell::RefCell::new(write);
        let task = Task { name, unit: "vertex", units: vertices };
        bench.run(task, &mut || both.borrow_mut()(by_library).0, &mut || both.borrow_mut()(by_plain).0, None);
        let read = |call: Read| {
            let (mut table, mut scratch) = (vec![0; MOST * SLOT], vec![0; MOST * SLOT]);
            clock::time(|| assert_eq!(call(&mut table, &mut scratch, &file), (0, 0)))
        };
        let task = Task { name: reader, unit: "vertex", units: vertices };
        bench.run(task, &mut || read(read_library), &mut || read(read_plain), None);
    }
}

/// Bytes enough for a viewer's file of a grown mesh: 29 a vertex, 26 a face, and its head.
fn room(vertices: usize) -> usize {
    (29 + 26) * vertices + 32
}

/// OFF and OBJ of the largest sheet, and OFF of document 000's.
fn viewer(bench: &mut Bench, table: &[u8]) {
    let sheet = published();
    let calls: [(&str, &[u8], Write, Write); 3] = [
        ("OFF of the largest sheet", table, library::write_off, plain::write_off),
        ("OFF of document 000's sheet", &sheet, library::write_off, plain::write_off),
        ("OBJ of the largest sheet", table, library::write_obj, plain::write_obj),
    ];
    for (name, table, by_library, by_plain) in calls {
        let vertices = count(table);
        let (mut out, mut other) = (vec![0; room(vertices)], vec![0; room(vertices)]);
        let task = Task { name, unit: "vertex", units: vertices };
        bench.run(
            task,
            &mut || clock::time(|| assert_eq!(by_library(table, &mut out).0, 0)),
            &mut || clock::time(|| assert_eq!(by_plain(table, &mut other).0, 0)),
            None,
        );
        assert!(out == other);
    }
}

/// Files of 64 KiB: one with few vertices at the rim, one with nearly all of them there.
fn census(bench: &mut Bench) {
    for (name, input) in [("census, a sheet refined", refined_input()), ("census, hexagons apart", apart_input())] {
        let vertices = input.iter().filter(|byte| **byte == b'\n').count();
        let (mut table, mut scratch, mut out) = (vec![0; 5461 * SLOT], vec![0; 5461 * SLOT], [0; 128]);
        let mut other = (table.clone(), scratch.clone(), [0; 128]);
        let task = Task { name, unit: "vertex", units: vertices };
        bench.run(
            task,
            &mut || clock::time(|| assert_eq!(library::census(&input, &mut table, &mut scratch, &mut out).0, 0)),
            &mut || clock::time(|| assert_eq!(plain::census(&input, &mut other.0, &mut other.1, &mut other.2).0, 0)),
            None,
        );
        assert_eq!(out, other.2);
    }
}

/// 60,000 findings over the largest sheet, in no order: a tenth of them lost, a third spelled deeper than its point is.
fn findings(bench: &mut Bench, table: &[u8]) {
    let mut rng = Rng::new(3);
    let points: Vec<Point> = records(table).map(|(p, _)| p).collect();
    let mut list = String::new();
    for i in 0..60_000 {
        let p = *rng.pick(&points);
        let (times, deeper) = if i % 3 == 0 { (3, 1) } else { (1, 0) };
        let aside = if i % 10 == 0 { 7 } else { 0 };
        list += &format!("{}\t{}\t{}\t{}\tpit, {} mm\n", i + 1, times * p.a, times * p.b + aside, p.m + deeper, i % 90);
    }
    let list = list.into_bytes();
    let (mut out, mut other) = (vec![0; list.len()], vec![0; list.len()]);
    let by_library = library::findings(table, &list, &mut out);
    assert!(by_library.0 == 0 && by_library == plain::findings(table, &list, &mut other) && out == other);
    let task = Task { name: "findings, 60,000 on the plan", unit: "finding", units: 60_000 };
    bench.run(
        task,
        &mut || clock::time(|| assert_eq!(library::findings(table, &list, &mut out).0, 0)),
        &mut || clock::time(|| assert_eq!(plain::findings(table, &list, &mut other).0, 0)),
        None,
    );
}

/// The full file of the largest sheet as an old one: in no order, a third of it spelled deeper than its point is, a tenth twice, and a malformed line after
/// every twentieth.
fn salvage(bench: &mut Bench, table: &[u8]) {
    let mut rng = Rng::new(4);
    let mut list: Vec<(Point, Star)> = records(table).collect();
    rng.shuffle(&mut list);
    let mut old = String::new();
    for (i, (p, s)) in list.iter().enumerate() {
        let (times, deeper) = if i % 3 == 0 { (3, 1) } else { (1, 0) };
        let line = format!("{}\t{}\t{}\t{}\t{}\t{}\n", times * p.a, times * p.b, p.m + deeper, s.d, s.k, s.n);
        old += &line.repeat(if i % 10 == 0 { 2 } else { 1 });
        old += if i % 20 == 0 { "0\t0\t0\t3\t0\t0\r\n" } else { "" };
    }
    let (old, lines) = (old.as_bytes(), old.lines().count());
    let mut lent = (table.to_vec(), table.to_vec(), vec![0; 26 * list.len()], vec![0; 60 * lines]);
    let mut other = lent.clone();
    let by_library = library::salvage(&mut lent.0, &mut lent.1, old, &mut lent.2, &mut lent.3);
    let by_plain = plain::salvage(&mut other.0, &mut other.1, old, &mut other.2, &mut other.3);
    assert!(by_library.0 == 0 && by_library == by_plain && lent == other);
    let task = Task { name: "salvage, the largest sheet", unit: "line", units: lines };
    bench.run(
        task,
        &mut || clock::time(|| assert_eq!(library::salvage(&mut lent.0, &mut lent.1, old, &mut lent.2, &mut lent.3).0, 0)),
        &mut || clock::time(|| assert_eq!(plain::salvage(&mut other.0, &mut other.1, old, &mut other.2, &mut other.3).0, 0)),
        None,
    );
}

/// From about 500 to 50,000 vertices: the library's time per vertex at each size, in tables as full each time, the sizes by turns.
fn growth(levels: &[(Vec<u8>, Vec<i32>)], bench: &mut Bench) {
    let steps: Vec<Grown> = levels.windows(2).filter(|step| count(&step[1].0) >= 400).map(grown).collect();
    let mut rows = vec![[Duration::MAX; 5]; steps.len()];
    let mut out = vec![1; 26 * MOST];
    for _ in 0..bench.rounds {
        for (step, row) in steps.iter().zip(&mut rows) {
            clock::lesser(row, step.round(&mut out));
        }
    }
    println!(
        "\ngrowth: nanoseconds a vertex, tables three quarters full\n  {:>8} {:>14} {:>11} {:>12} {:>10} {:>13}",
        "vertices", "subdivide_all", "write_full", "write_reduced", "read_full", "read_reduced"
    );
    let per_vertex: Vec<[f64; 5]> =
        steps.iter().zip(rows).map(|(step, row)| row.map(|time| time.as_nanos() as f64 / step.vertices as f64)).collect();
    for (step, [subdivide, full, less, read, read_less]) in steps.iter().zip(&per_vertex) {
        println!("  {:>8} {subdivide:>14.0} {full:>11.0} {less:>12.0} {read:>10.0} {read_less:>13.0}", step.vertices);
    }
    let (most, last) = (steps[steps.len() - 1].vertices, per_vertex[steps.len() - 1]);
    let first = per_vertex[steps.iter().position(|step| step.vertices == GROWN_FROM).expect("the sheet that growth is counted from")];
    let ratio = |i: usize| last[i] / first[i];
    print!("  {:>8} {:>14.2} {:>11.2} {:>12.2} {:>10.2} {:>13.2}", "ratio", ratio(0), ratio(1), ratio(2), ratio(3), ratio(4));
    println!("   a vertex of {most} beside one of {GROWN_FROM}, at most {GROWTH:.2}");
    for (i, call) in ["subdivide_all", "write_full", "write_reduced", "read_full", "read_reduced"].into_iter().enumerate() {
        bench.over.most(&format!("{call}, a vertex of {most} beside one of {GROWN_FROM}"), ratio(i), GROWTH);
    }
}

/// A sheet before and after one more level, and its files.
struct Grown {
    vertices: usize,
    before: Vec<u8>,
    list: Vec<i32>,
    after: Vec<u8>,
    full: Vec<u8>,
    reduced: Vec<u8>,
}

fn grown(step: &[(Vec<u8>, Vec<i32>)]) -> Grown {
    let vertices = count(&step[1].0);
    let (before, after) = (relaid(&step[0].0, vertices * 4 / 3), relaid(&step[1].0, vertices * 4 / 3));
    let file = |write: Write| {
        let mut out = vec![0; 26 * vertices];
        let long = write(&after, &mut out).1 as usize;
        out.truncate(long);
        out
    };
    let (full, reduced) = (file(library::write_full), file(library::write_reduced));
    Grown { vertices, before, list: step[0].1.clone(), after, full, reduced }
}

impl Grown {
    /// How long the five calls take.
    fn round(&self, out: &mut [u8]) -> [Duration; 5] {
        let (mut table, mut scratch) = (self.before.clone(), self.before.clone());
        [
            clock::time(|| assert_eq!(library::subdivide_all(&mut table, &self.list).0, 0)),
            clock::time(|| assert_eq!(library::write_full(&self.after, out).0, 0)),
            clock::time(|| assert_eq!(library::write_reduced(&self.after, out).0, 0)),
            clock::time(|| assert_eq!(library::read_full(&mut table, &mut scratch, &self.full).0, 0)),
            clock::time(|| assert_eq!(library::read_reduced(&mut table, &mut scratch, &self.reduced).0, 0)),
        ]
    }
}

/// The full file, and our own OFF file, beside OpenMesh's OFF file of the same sheet, by turns, all from memory and to memory.
fn beside(mut openmesh: OpenMesh, bench: &mut Bench) {
    let sheet = published();
    let vertices = count(&sheet);
    let (mut table, mut scratch, mut out, mut other) = (sheet.clone(), sheet.clone(), vec![0; room(vertices)], vec![0; room(vertices)]);
    let long = library::write_full(&sheet, &mut out).1 as usize;
    let file = out[..long].to_vec();
    let mut times = [Duration::MAX; 5];
    for _ in 0..bench.rounds {
        let [read, written] = openmesh.round();
        let round = [
            clock::time(|| assert_eq!(library::read_full(&mut table, &mut scratch, &file).0, 0)),
            clock::time(|| assert_eq!(library::write_full(&sheet, &mut out).0, 0)),
            clock::time(|| assert_eq!(library::write_off(&sheet, &mut other).0, 0)),
            read,
            written,
        ];
        clock::lesser(&mut times, round);
    }
    println!(
        "\nbeside OpenMesh, {vertices} vertices, nanoseconds a vertex\n  {:12} {:>8} {:>8} {:>14} {:>9}",
        "", "library", "OpenMesh", "times as fast", "at least"
    );
    let [read, write, off, their_read, their_write] = times.map(|time| time.as_nanos() as f64 / vertices as f64);
    for (name, ours, theirs, bar) in
        [("read_full", read, their_read, READS), ("write_full", write, their_write, WRITES), ("write_off", off, their_write, VIEWS)]
    {
        let mark = bench.over.least(&format!("{name} beside OpenMesh"), theirs / ours, bar);
        println!("  {name:12} {ours:>8.0} {theirs:>8.0} {:>14.1} {bar:>9.1} {mark}", theirs / ours);
    }
}

/// Bytes a vertex, beside a half-edge structure's: document 000's V + 10E + F references of 4 bytes, and 8 for a position.
fn sizes(table: &[u8]) {
    let vertices = count(table) as f64;
    let mut out = vec![0; 26 * MOST];
    let full = library::write_full(table, &mut out).1 as f64;
    let reduced = library::write_reduced(table, &mut out).1 as f64;
    println!("\nbytes a vertex, {vertices} vertices");
    println!("  table, full of them      {:>6.1}", SLOT as f64);
    println!("  table, as lent here      {:>6.1}", table.len() as f64 / vertices);
    println!("  full file                {:>6.1}", full / vertices);
    println!("  reduced file             {:>6.1}", reduced / vertices);
    println!("  half-edge structure      {:>6.1}   (22 references and a position)", 22.0 * 4.0 + 8.0);
}
