//! A plan as large as a table can be: 65,536 vertices, every slot taken. One vertex more is refused with 8, and nothing before.

mod common;

use common::Desk;
use std::collections::{BTreeSet, HashSet};

const EIGHT: &str = "refused with 8: too few free slots in the table; of the census, an input of over 65,536 bytes";
/// Half a side of the rhombus that is laid, and how often it is subdivided; with three hexagons apart that makes 65,536 vertices.
const HALF: i32 = 126;
const SUBDIVIDED: usize = 138;

const AROUND: [(i32, i32); 6] = [(1, 0), (0, 1), (-1, 1), (-1, 0), (0, -1), (1, -1)];

fn centres(half: i32) -> impl Iterator<Item = (i32, i32)> {
    let all = (-half..=half).flat_map(move |a| (-half..=half).map(move |b| (a, b)));
    all.filter(|(a, b)| (a - b) % 3 == 0)
}

fn rhombus(half: i32) -> String {
    centres(half).map(|(a, b)| format!("{a}\t{b}\n")).collect()
}

#[test]
fn all_the_slots() {
    let desk = Desk::new("large");
    desk.put("centres.txt", rhombus(HALF) + "200\t200\n210\t210\n220\t220\n");
    assert_eq!(desk.run("lay centres.txt -o base.full").err, "bladeplan: lay: 21340 hexagons in, 64708 vertices out\n");
    let base = desk.get("base.full");
    let six = base.lines().filter(|line| line.ends_with("\t6\t0\t0"));
    let points: Vec<String> = six.map(|line| line.split('\t').take(3).collect::<Vec<_>>().join(",")).collect();
    desk.put("points.txt", points[..SUBDIVIDED].join("\n"));
    let made = desk.run("subdivide base.full --list points.txt -o plan.full");
    assert_eq!(made.err, "bladeplan: subdivide: 64708 vertices in, 65536 vertices out\n");
    let reduced = desk.run("reduce plan.full -o plan.reduced");
    assert_eq!(reduced.err, "bladeplan: reduce: 65536 vertices in, 65536 vertices out on 22900 lines\n");
    assert!(desk.good("restore plan.reduced") == desk.get("plan.full"));
    let next = &points[SUBDIVIDED];
    desk.refused(&format!("subdivide plan.reduced {next}"), 8, &format!("plan.reduced, point {next}: {EIGHT}"));
    let changed = with_another_star(&base, &points[..SUBDIVIDED]);
    let compared = format!("64708\tin both\n{changed}\tof these with another star\n0\tonly in base.full\n828\tonly in plan.reduced\n");
    assert_eq!(desk.good("compare base.full plan.reduced"), compared);
}

/// How many vertices of a base get another star where these are subdivided once each: they themselves, and their inner neighbours.
fn with_another_star(base: &str, points: &[String]) -> usize {
    let fields = |line: &str| line.split(['\t', ',']).map(|field| field.parse().expect("a number")).collect::<Vec<i32>>();
    let records: Vec<Vec<i32>> = base.lines().map(fields).collect();
    let inner: HashSet<(i32, i32)> = records.iter().filter(|r| r[3] != 0).map(|r| (r[0], r[1])).collect();
    let around = |p: &String| {
        let p = fields(p);
        AROUND.into_iter().chain([(0, 0)]).map(move |(a, b)| (p[0] + a, p[1] + b))
    };
    points.iter().flat_map(around).filter(|point| inner.contains(point)).collect::<HashSet<_>>().len()
}

/// The census, past what the census program takes: every vertex and, three a hexagon and six more a subdivision, every face.
#[test]
fn counted() {
    let desk = Desk::new("counted");
    desk.put("centres.txt", rhombus(HALF));
    desk.good("lay centres.txt -o base.full");
    desk.good("subdivide base.full 1,0 4,0 3,0,1 -o plan.full");
    desk.good("reduce plan.full -o plan.reduced");
    let census = desk.good("census plan.full");
    assert_eq!(desk.good("census plan.reduced"), census);
    let numbers: Vec<usize> = census.lines().nth(1).expect("numbers").split('\t').map(|field| field.parse().expect("a number")).collect();
    let (vertices, faces) = (desk.get("plan.full").lines().count(), 3 * centres(HALF).count() + 6 * 3);
    assert!(vertices > 64_000);
    assert_eq!((numbers[0], numbers[2], numbers[3..].iter().sum()), (vertices, faces, vertices));
    let told = format!(": {vertices} vertices, {} edges, {faces} faces\n", numbers[1]);
    let (checked, hexagons) = (desk.good("check plan.reduced"), centres(HALF).count());
    assert!(checked.contains(&told));
    let base = vertices - 6 * 3;
    assert!(checked.contains(&format!("\n{hexagons} hexagons and 3 subdivisions fit together: V = {base} + 6*3 = {vertices}, E = ")));
    assert!(checked.ends_with(&format!(" = {}, F = 3*{hexagons} + 6*3 = {faces}\n", numbers[1])));
}

#[test]
fn one_vertex_more() {
    let desk = Desk::new("larger");
    desk.put("centres.txt", rhombus(HALF + 2));
    desk.refused("lay centres.txt", 8, &format!("centres.txt: {EIGHT}"));
}

/// The reduced file of a rhombus laid, as text: no library is asked, so it may be larger than any table.
fn reduced(half: i32) -> String {
    let listed: HashSet<(i32, i32)> = centres(half).collect();
    let beside = |(a, b): (i32, i32)| AROUND.map(|(x, y)| (a + x, b + y));
    let within = |p: (i32, i32)| beside(p).into_iter().filter(|q| listed.contains(q)).count() == 3;
    let is_six = |p: (i32, i32)| (p.0 - p.1).rem_euclid(3) == 1 && within(p);
    let corners = listed.iter().flat_map(|centre| beside(*centre));
    let points: BTreeSet<(i32, i32)> = listed.iter().copied().chain(corners).collect();
    let line = |p: (i32, i32)| match (listed.contains(&p), within(p)) {
        _ if is_six(p) => Some((p, 6, 0)),
        (true, _) | (_, true) if beside(p).into_iter().any(is_six) => None,
        (true, _) => Some((p, 3, 0)),
        (_, true) => Some((p, 3, 2)),
        _ => Some((p, 0, 0)),
    };
    points.into_iter().filter_map(line).map(|((a, b), d, k)| format!("{a}\t{b}\t0\t{d}\t{k}\t0\n")).collect()
}

/// It is no full file, and no table holds what it is the reduced file of: both are told, and 8 is the status.
#[test]
fn too_large_once_restored() {
    let desk = Desk::new("restored");
    desk.put("small", rhombus(6));
    desk.good("lay small -o small.full");
    assert_eq!(desk.good("reduce small.full"), reduced(6));
    desk.put("plan", reduced(HALF + 2));
    let eleven =
        "refused with 11: these records are no grown mesh: a vertex is missing, or something was changed by hand; also an empty file";
    desk.refused("check plan", 8, &format!("plan: not a full file, {eleven}; not a reduced file, {EIGHT}"));
}
