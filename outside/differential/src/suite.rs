//! The tests, for any caller against the mesher; `suite!` makes test functions of them.
//!
//! FLASKBLOOM_SEED sets the seed (a number, or `now`), FLASKBLOOM_CASES the number of random cases.

pub use crate::bring::*;
use crate::caller::{inside, why, Caller, Mesher};
use crate::case::{difference, Case, Outcome};
use crate::coverage::Coverage;
pub use crate::edges::*;
pub use crate::engine::*;
pub use crate::findings::*;
use crate::makers::*;
pub use crate::outlines::*;
use crate::random::Cases;
use crate::rng::Rng;
pub use crate::salvage::*;
pub use crate::viewer::*;
use mesher::mesh::base as base_records;
use mesher::record::Record;
use mesher::slots::SLOT;
use mesher::spot::Point;
use mesher::star::star;

const SEED: u64 = 20_240_320;
const CASES: u64 = 200_000;
const FUZZED: u64 = 300_000;

fn number_from(name: &str, default: u64) -> u64 {
    match std::env::var(name) {
        Ok(text) if text == "now" => std::time::UNIX_EPOCH.elapsed().map_or(default, |t| t.as_nanos() as u64),
        Ok(text) => text.parse().unwrap_or_else(|_| panic!("{name} is no number: {text}")),
        Err(_) => default,
    }
}

pub fn seed() -> u64 {
    number_from("FLASKBLOOM_SEED", SEED)
}

pub fn fuzzed() -> u64 {
    number_from("FLASKBLOOM_FUZZED", FUZZED)
}

/// Puts the case to both; ends the test where they differ. Gives the number.
pub fn same(caller: &dyn Caller, case: &Case) -> u8 {
    let wanted = case.run(&Mesher);
    let got = case.run(caller);
    if let Some(how) = difference(&wanted, &got) {
        panic!("the mesher and the other differ: {how}\n{case}");
    }
    wanted.number
}

/// Random cases, and every number of every call reached.
pub fn random_cases(caller: &dyn Caller) {
    let (seed, cases) = (seed(), number_from("FLASKBLOOM_CASES", CASES));
    println!("seed {seed}, {cases} cases");
    let mut coverage = Coverage::default();
    for case in Cases::new(seed).take(cases as usize) {
        let wanted = case.run(&Mesher);
        coverage.note(case.call(), wanted.number, why());
        let one_of_many = match case.call() {
            "salvage" => "salvage, a line",
            "faces_all" => "faces_all, one",
            "vertices" => "vertices, one",
            _ => "neighbours_all, one",
        };
        inside().into_iter().for_each(|(number, why)| coverage.note_inside(one_of_many, number, why));
        let got = case.run(caller);
        if let Some(how) = difference(&wanted, &got) {
            panic!("seed {seed}, case {}: the mesher and the other differ: {how}\n{case}", coverage.cases);
        }
    }
    println!("{}", coverage.table());
    assert_eq!(coverage.unexpected(), [], "reached, and not expected");
    if cases >= CASES {
        assert_eq!(coverage.missing(), [], "expected, and not reached");
    }
}

/// Readers and census on scribbled and spoiled bytes.
pub fn fuzzed_readers(caller: &dyn Caller) {
    let (seed, inputs) = (seed(), fuzzed());
    println!("seed {seed}, {inputs} inputs");
    let mut rng = Rng::new(seed ^ 0xf0);
    let texts: Vec<String> = (0..40).map(|i| file(&grown(&mut rng, 7 + i), i % 2 == 1)).collect();
    for _ in 0..inputs {
        let bytes = match rng.below(3) {
            0 => scribble(&mut rng, 24),
            _ => {
                let mut bytes = rng.pick(&texts).clone().into_bytes();
                for _ in 0..1 + rng.below(2) {
                    spoil_bytes(&mut rng, &mut bytes);
                }
                bytes
            }
        };
        let slots = 16 + rng.below(30);
        let (table, scratch) = (vec![7; slots * SLOT], vec![9; slots * SLOT]);
        same(
            caller,
            &match rng.below(3) {
                0 => Case::ReadFull { table, scratch, file: bytes },
                1 => Case::ReadReduced { table, scratch, file: bytes },
                _ => Case::Census { input: bytes, table, scratch, out: vec![1; 128] },
            },
        );
    }
}

/// Every star of every degree, orientation and level, valid or not, at points within and at the limit of the ranges.
pub fn all_stars(caller: &dyn Caller) {
    let mut points = vec![[i32::MIN, i32::MAX, 0], [0, 0, 255], [3, 3, 1], [9, 0, 6]];
    for m in 0..=7 {
        let reach = 251 * 3i32.pow(m as u32);
        points.extend([[0, 0, m], [1, 0, m], [-1, 2, m], [reach, -reach, m], [reach - 1, reach, m], [reach + 1, 1, m], [1, -reach - 1, m]]);
    }
    for [a, b, m] in points {
        for d in 0..=8 {
            for k in 0..=13 {
                for n in 0..=14 {
                    same(caller, &Case::Star([a, b], [m as u8, d, k, n]));
                }
            }
        }
    }
    for m in 0..=255 {
        for a in [0, 1, 3, -3, 9, 81, 3i32.pow(19), -3i32.pow(19), i32::MIN, i32::MAX, i32::MAX - 1] {
            for b in [0, 2, -6, 9, -3i32.pow(19), 2 * 3i32.pow(18), i32::MIN, i32::MAX] {
                same(caller, &Case::Normalise([a, b], m));
            }
        }
    }
}

/// Each record of small grown meshes with each other valid star, and without it, as full and as reduced files: number 11, near the truth.
pub fn single_edits(caller: &dyn Caller) {
    let mut rng = Rng::new(seed() ^ 0x11);
    let three = base_records(&[(0, 0), (1, 1), (2, -1)]);
    let mut meshes = vec![base_records(&[(0, 0)]), three.clone(), grow(&mut rng, &three, 22, 1), grow(&mut rng, &three, 34, 3)];
    meshes.push(grow(&mut rng, &base_records(&disc(7)), 60, 0));
    let mut grown_after = 0;
    for mesh in meshes {
        for i in 0..mesh.len() {
            for edited in every_star(mesh[i].point()) {
                let mut list = mesh.clone();
                list[i] = edited;
                grown_after += readers(caller, &list);
            }
            let mut list = mesh.clone();
            list.remove(i);
            grown_after += readers(caller, &list);
        }
        for spot in mesh.iter().flat_map(star).flat_map(|c| [c.adjacent, c.first, c.second.unwrap_or(c.first)]) {
            let p = spot.point();
            if mesh.iter().all(|r| r.point() != p) {
                let mut list = mesh.clone();
                list.push(some_star(&mut rng, p));
                grown_after += readers(caller, &list);
            }
        }
    }
    assert!(grown_after > 0);
}

/// Meshes that are nearly grown, as files: number 11 where only the whole tells; and counted, which asks for none.
pub fn nearly_grown_files(caller: &dyn Caller) {
    let mut rng = Rng::new(seed() ^ 0x11a);
    let mut accepted = 0;
    for _ in 0..1_000 {
        let most = *rng.pick(&[16, 30, 60, 100]);
        let mesh = grown(&mut rng, most);
        for _ in 0..10 {
            let list = nearly_grown(&mut rng, &mesh);
            accepted += readers(caller, &list);
            let table = laid(&mut rng, &list, list.len() + 16);
            assert_eq!(same(caller, &Case::Counts { table }), 0);
        }
    }
    assert!(accepted > 1_000);
}

/// Every valid record at a point.
pub fn every_star(p: Point) -> Vec<Record> {
    let mut all = Vec::new();
    for d in [0, 3, 4, 5, 6] {
        for k in 0..12 {
            all.extend((0..=12).map(|n| Record::at(p, d, k, n)).filter(Record::is_valid));
        }
    }
    all
}

/// Both readers on the full and the reduced file of these records; how often they were accepted.
fn readers(caller: &dyn Caller, records: &[Record]) -> u32 {
    let len = SLOT * (records.len() + 16);
    let (table, scratch) = (vec![0; len], vec![1; len]);
    let mut accepted = 0;
    let full = file(records, false).into_bytes();
    let reduced = file(records, true).into_bytes();
    for case in [
        Case::ReadFull { table: table.clone(), scratch: scratch.clone(), file: full.clone() },
        Case::ReadReduced { table: table.clone(), scratch: scratch.clone(), file: reduced },
        Case::ReadReduced { table, scratch, file: full },
    ] {
        accepted += (same(caller, &case) == 0) as u32;
    }
    accepted
}

/// Each byte of a small table set to many values, each call; and each byte of a small file to each value, each reader.
pub fn single_bytes(caller: &dyn Caller) {
    let mut rng = Rng::new(seed() ^ 0x51);
    let records = grow(&mut rng, &base_records(&[(0, 0), (1, 1), (2, -1)]), 22, 0);
    let table = laid(&mut rng, &records, 30);
    for at in 0..table.len() {
        for value in [0, 1, 2, 3, 4, 5, 6, 7, 11, 12, 13, 127, 128, 254, 255] {
            let mut table = table.clone();
            table[at] = value;
            let point = request(&mut rng, &records, true);
            same(caller, &Case::Subdivide { table: table.clone(), point });
            same(caller, &Case::Neighbours { table: table.clone(), point });
            same(caller, &Case::Faces { table: table.clone(), point });
            let points = vec![point.0[0], point.0[1], point.1 as i32, 1, 0, 0];
            same(caller, &Case::FacesAll { table: table.clone(), points, answers: vec![3; 41] });
            same(caller, &Case::Counts { table: table.clone() });
            same(caller, &Case::WriteOff { table: table.clone(), out: vec![3; 1_200] });
            same(caller, &Case::WriteReduced { table, out: vec![3; 400] });
        }
    }
    let (full, reduced) = (file(&base_records(&[(0, 0)]), false).into_bytes(), file(&records, true).into_bytes());
    for (text, values) in [(full, 0..=255u8), (reduced, 8..=60)] {
        for at in 0..text.len() {
            for value in values.clone() {
                let mut file = text.clone();
                file[at] = value;
                let (table, scratch) = (vec![0; 28 * SLOT], vec![1; 28 * SLOT]);
                same(caller, &Case::ReadFull { table: table.clone(), scratch: scratch.clone(), file: file.clone() });
                same(caller, &Case::ReadReduced { table, scratch, file });
            }
            let (table, scratch) = (vec![0; 28 * SLOT], vec![1; 28 * SLOT]);
            same(caller, &Case::ReadReduced { table, scratch, file: text[..at].to_vec() });
        }
    }
}

/// Writers with every length of output up to past the file's; readers with every number of slots about the mesh's.
pub fn every_length(caller: &dyn Caller) {
    let mut rng = Rng::new(seed() ^ 0x13);
    for size in [7, 16, 40] {
        let records = grown(&mut rng, size);
        let slots = records.len().max(16);
        let table = laid(&mut rng, &records, slots);
        let (full, reduced) = (file(&records, false), file(&records, true));
        for len in 0..full.len() + 3 {
            same(caller, &Case::WriteFull { table: table.clone(), out: vec![3; len] });
            same(caller, &Case::WriteReduced { table: table.clone(), out: vec![3; len] });
        }
        let points: Vec<i32> = records.iter().take(4).flat_map(|r| [r.a, r.b, r.m as i32]).collect();
        for (read, room) in (0..=points.len()).flat_map(|read| (0..102).map(move |room| (read, room))) {
            let (points, answers) = (points[..read].to_vec(), vec![3; room]);
            same(caller, &Case::NeighboursAll { table: table.clone(), points: points.clone(), answers: answers.clone() });
            same(caller, &Case::FacesAll { table: table.clone(), points, answers });
        }
        for slots in 0..records.len() + 20 {
            for len in [slots * SLOT, slots * SLOT + 5] {
                let (table, scratch) = (vec![0; len], vec![1; len]);
                same(caller, &Case::ReadFull { table: table.clone(), scratch: scratch.clone(), file: full.clone().into_bytes() });
                same(caller, &Case::ReadReduced { table: table.clone(), scratch, file: reduced.clone().into_bytes() });
                let centres: Vec<i32> = records.iter().filter(|r| r.m == 0 && (r.a - r.b) % 3 == 0).flat_map(|r| [r.a, r.b]).collect();
                same(caller, &Case::Base { table, centres });
            }
        }
    }
}

/// Meshes grown by the calls themselves, table against table at each step, to level 12, until the table is full; then files there and back.
pub fn deep_meshes(caller: &dyn Caller) {
    let mut rng = Rng::new(seed() ^ 0xd0);
    for round in 0..24 {
        let centres = centres(&mut rng, 1 + 2 * (round % 8));
        let slots = 100 + rng.below(500);
        let mut table = vec![0; slots * SLOT];
        let start = Case::Base { table: table.clone(), centres: flat(&centres) };
        if same(caller, &start) != 0 {
            continue;
        }
        caller.base(&mut table, &flat(&centres));
        for _ in 0..120 {
            let records = stored(&table);
            let deepest = records.iter().filter(|r| r.d == 6).max_by_key(|r| (r.n, r.m, r.a, r.b));
            let point = match deepest {
                Some(r) if !rng.once_in(3) => ([r.a, r.b], r.m),
                _ => request(&mut rng, &records, true),
            };
            let case = Case::Subdivide { table: table.clone(), point };
            same(caller, &case);
            caller.subdivide(&mut table, point.0[0], point.0[1], point.1);
            let v = *rng.pick(&records);
            same(caller, &Case::Faces { table: table.clone(), point: ([v.a, v.b], v.m) });
        }
        let mut out = vec![0; 40 * slots];
        same(caller, &Case::WriteFull { table: table.clone(), out: out.clone() });
        same(caller, &Case::WriteReduced { table: table.clone(), out: out.clone() });
        let (_, len) = caller.write_reduced(&table, &mut out);
        out.truncate(len as usize);
        let case = Case::ReadReduced { table: table.clone(), scratch: table.clone(), file: out };
        assert_eq!(same(caller, &case), 0);
    }
}

/// Meshes of thousands of vertices, grown by the calls at random, in tables of odd sizes; then queries, files, and one byte changed.
pub fn large_meshes(caller: &dyn Caller) {
    let mut rng = Rng::new(seed() ^ 0x1a);
    for slots in [1_009, 4_096, 12_347, 30_000] {
        let mut table = vec![0; slots * SLOT];
        let centres = flat(&disc(1 + slots / 40));
        assert_eq!(same(caller, &Case::Base { table: table.clone(), centres: centres.clone() }), 0);
        caller.base(&mut table, &centres);
        for _ in 0..8 {
            let mut points = Vec::new();
            for r in stored(&table).into_iter().filter(|r| r.d == 6 && r.n < 12) {
                if rng.once_in(1 + 2 * slots / 4_096) {
                    points.extend([r.a, r.b, r.m as i32]);
                }
            }
            same(caller, &Case::SubdivideAll { table: table.clone(), points: points.clone() });
            caller.subdivide_all(&mut table, &points);
        }
        let list = stored(&table);
        let points: Vec<i32> = list.iter().flat_map(|r| [r.a, r.b, r.m as i32]).collect();
        let answers = vec![-1; 20 * list.len()];
        assert_eq!(same(caller, &Case::NeighboursAll { table: table.clone(), points: points.clone(), answers: answers.clone() }), 0);
        assert_eq!(same(caller, &Case::FacesAll { table: table.clone(), points, answers }), 0);
        for _ in 0..10 {
            let v = *rng.pick(&list);
            same(caller, &Case::Faces { table: table.clone(), point: ([v.a, v.b], v.m) });
            same(caller, &Case::WriteFull { table: damaged(&mut rng, &table), out: vec![5; 26 * slots] });
        }
        assert_eq!(same(caller, &Case::Counts { table: table.clone() }), 0);
        let rent = torn(&mut rng, &list);
        assert_eq!(same(caller, &Case::Counts { table: laid(&mut rng, &rent, rent.len() + 9) }), 0);
        assert_eq!(same(caller, &Case::WriteOff { table: table.clone(), out: vec![5; 55 * slots] }), 0);
        assert_eq!(same(caller, &Case::WriteObj { table: table.clone(), out: vec![5; 55 * slots] }), 0);
        let mut out = vec![5; 26 * slots];
        same(caller, &Case::WriteFull { table: table.clone(), out: out.clone() });
        same(caller, &Case::WriteReduced { table: table.clone(), out: out.clone() });
        let (_, long) = caller.write_reduced(&table, &mut out);
        out.truncate(long as usize);
        let scratch = table.clone();
        assert_eq!(same(caller, &Case::ReadReduced { table: table.clone(), scratch: scratch.clone(), file: out }), 0);
        assert_eq!(same(caller, &Case::ReadFull { table, scratch, file: file(&list, false).into_bytes() }), 0);
    }
}

/// The records of a table that is in order.
fn stored(table: &[u8]) -> Vec<Record> {
    table.chunks(SLOT).filter(|s| *s != [255; SLOT]).map(mesher::slots::decode).collect()
}

/// Tables where many records have the same few homes, about the end: long searches, across the end, into gaps.
pub fn crowded_tables(caller: &dyn Caller) {
    let mut rng = Rng::new(seed() ^ 0xc0);
    for slots in [16, 61, 256, 1_000] {
        let crowded = [slots - 2, slots - 1, 3];
        let mut points: Vec<Point> = Vec::new();
        for (a, b) in (-60..60).flat_map(|a| (-200..200).map(move |b| (a, b))) {
            let p = Point::new(a, b, 0);
            if crowded.contains(&mesher::slots::home(p, slots)) {
                points.push(p);
            }
        }
        rng.shuffle(&mut points);
        for load in [slots / 2, slots - 7, slots - 1, slots] {
            let mut list: Vec<Record> = Vec::new();
            for p in points.iter().take(load) {
                list.push(some_star(&mut rng, *p));
            }
            let table = laid(&mut rng, &list, slots);
            for _ in 0..60 {
                let absent = *rng.pick(&points[load.min(points.len() - 1)..]);
                let present = rng.pick(&list).point();
                for p in [absent, present] {
                    same(caller, &Case::Neighbours { table: table.clone(), point: ([p.a, p.b], p.m) });
                    same(caller, &Case::Subdivide { table: damaged(&mut rng, &table), point: ([p.a, p.b], p.m) });
                }
            }
            assert_eq!(same(caller, &Case::Counts { table: table.clone() }), 0);
            same(caller, &Case::WriteReduced { table: table.clone(), out: vec![5; 26 * slots] });
            let (lent, scratch) = (vec![5; slots * SLOT], vec![6; slots * SLOT]);
            same(caller, &Case::ReadReduced { table: lent, scratch, file: file(&list, false).into_bytes() });
        }
    }
}

const STACK: usize = 128 * 1024;

/// Puts a large case to the caller on a thread of 128 KiB of stack, and compares with the mesher's outcome.
fn on_small_stack(caller: &dyn Caller, case: &Case) -> Outcome {
    let got = std::thread::scope(|scope| {
        let thread = std::thread::Builder::new().stack_size(STACK).spawn_scoped(scope, || case.run(caller));
        thread.expect("a thread").join().expect("the call came back")
    });
    if let Some(how) = difference(&case.run(&Mesher), &got) {
        panic!("the mesher and the other differ: {how}\n{}", case.call());
    }
    got
}

/// Each call at the largest sizes.
pub fn small_stack(caller: &dyn Caller) {
    let slots = 65_536;
    let blank = vec![0u8; slots * SLOT];
    let run = |case: Case| on_small_stack(caller, &case);
    let based = run(Case::Base { table: blank.clone(), centres: flat(&disc(20_000)) });
    assert_eq!(based.number, 0);
    assert_eq!(run(Case::WriteOff { table: based.lent[0].clone(), out: vec![0; 55 * slots] }).number, 0);
    assert_eq!(run(Case::WriteObj { table: based.lent[0].clone(), out: vec![0; 55 * slots] }).number, 0);
    let sixes = stored(&based.lent[0]).into_iter().filter(|r| r.d == 6).flat_map(|r| [r.a, r.b, r.m as i32]).collect();
    let grown = run(Case::SubdivideAll { table: based.lent[0].clone(), points: sixes });
    assert_eq!(grown.number, 8);
    let (table, point, out) = (grown.lent[0].clone(), ([1, 0], 0), vec![0; 26 * slots]);
    run(Case::Subdivide { table: table.clone(), point });
    run(Case::Neighbours { table: table.clone(), point });
    run(Case::Faces { table: table.clone(), point });
    let (points, answers) = (vec![1, 0, 0, 3, 0, 1], vec![0; 40]);
    run(Case::NeighboursAll { table: table.clone(), points: points.clone(), answers: answers.clone() });
    run(Case::FacesAll { table: table.clone(), points, answers });
    let (deep, [a, b, m]) = deepest(slots);
    assert_eq!(run(Case::BringToSix { table: deep, scratch: blank.clone(), point: ([a, b], m as u8) }).number, 0);
    let wide = [0.0, 0.0, 60.0f64].map(f64::to_bits);
    let refine =
        |table: &[u8], passes| Case::RefineDisc { table: table.to_vec(), scratch: blank.clone(), outline: wide, passes, level: 12 };
    assert_eq!(run(refine(&based.lent[0], 2)).number, 0);
    assert_eq!(run(refine(&table, 1)).number, 8);
    assert_eq!(run(Case::Counts { table: table.clone() }).number, 0);
    let long = listed(&mut Rng::new(seed() ^ 0x17), 3_000, 20_000);
    assert_eq!(run(Case::Vertex { centres: long.centres, pairs: long.pairs, point: ([1, 0], 0) }).number, 0);
    let list = findings_list(&mut Rng::new(seed() ^ 0x16), &stored(&table), 60_000);
    run(Case::Findings { table: table.clone(), out: vec![0; list.len()], list });
    let full = run(Case::WriteFull { table: table.clone(), out: out.clone() });
    let reduced = run(Case::WriteReduced { table, out });
    let text = |written: Outcome| written.lent[1][..written.value[0] as usize].to_vec();
    let (old, restored) = (text(reduced.clone()), vec![0; 11 * slots]);
    let salvaged = Case::Salvage { table: blank.clone(), scratch: blank.clone(), file: old, out: vec![0; 26 * slots], changes: restored };
    assert_eq!(run(salvaged).number, 0);
    for (file, number) in past_the_slots(slots) {
        assert_eq!(run(Case::Salvage { table: blank.clone(), scratch: blank.clone(), file, out: vec![], changes: vec![] }).number, number);
    }
    assert_eq!(run(Case::ReadFull { table: blank.clone(), scratch: blank.clone(), file: text(full) }).number, 0);
    assert_eq!(run(Case::ReadReduced { table: blank.clone(), scratch: blank, file: text(reduced) }).number, 0);
    run(Case::Star([1, 0], [6, 5, 11, 11]));
    run(Case::Normalise([0, 0], 255));
    let sheets = (1..).map(|tens| file(&base_records(&disc(10 * tens)), false).into_bytes());
    let input = sheets.take_while(|text| text.len() <= 65_536).last().expect("a sheet that fits");
    let lent = vec![0; 5461 * SLOT];
    assert_eq!(run(Case::Census { input, table: lent.clone(), scratch: lent, out: vec![0; 128] }).number, 0);
}

/// Test functions of the whole suite for a caller, or, after the word `rest`, of what a caller that measures its stack does not run there.
#[macro_export]
macro_rules! suite {
    ($caller:expr; $($name:ident),+) => {
        $(#[test]
        fn $name() {
            $crate::suite::$name(&$caller);
        })+
    };
    ($caller:expr) => {
        $crate::suite!($caller; small_stack, bring_deepest);
        $crate::suite!($caller, rest);
    };
    ($caller:expr, rest) => {
        $crate::suite!($caller; random_cases, fuzzed_readers, all_stars, single_edits, single_bytes, every_length);
        $crate::suite!($caller; nearly_grown_files, deep_meshes, large_meshes, crowded_tables);
        $crate::suite!($caller; edges_at_the_rim, edges_of_edited_tables, edges_of_scattered_stars);
        $crate::suite!($caller; bring_refusals_in_order, bring_every_vertex);
        $crate::suite!($caller; outline_examples, outline_refusals_in_order, outline_rooms, outline_largest);
        $crate::suite!($caller; vertex_refusals_in_order, vertex_every_edit, vertices_are_the_tables);
        $crate::suite!($caller; viewer_refusals_in_order, viewer_every_length, viewer_widths, viewer_coordinates, viewer_read_back);
        $crate::suite!($caller; viewer_of_edited_tables, viewer_of_scattered_stars);
        $crate::suite!($caller; salvage_lines, salvage_refusals_in_order, salvage_whole_files, salvage_every_length, salvage_past_the_slots);
        $crate::suite!($caller; fuzzed_salvage);
        $crate::suite!($caller; findings_malformed, findings_done, findings_refusals_in_order, findings_bytes, fuzzed_findings, long_findings);
    };
}
