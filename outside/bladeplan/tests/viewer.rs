//! `off` and `obj`: a plan for a viewer, read back line by line.

mod common;

use common::{Desk, Ran};
use std::collections::HashSet;

/// The plan's vertices as they stand on the blade, worked out from its full file by floating point.
fn places(full: &str) -> Vec<[f64; 2]> {
    let field = |line: &str, i: usize| -> f64 { line.split('\t').nth(i).and_then(|word| word.parse().ok()).expect("a number") };
    let place = |line: &str| {
        let (a, b, m) = (field(line, 0), field(line, 1), field(line, 2));
        [(2.0 * a + b) / (2.0 * 3f64.powf(m)), b * 3f64.sqrt() / (2.0 * 3f64.powf(m))]
    };
    full.lines().map(place).collect()
}

/// The faces that `bladeplan faces` tells of each vertex with a star, by their vertices' lines in the full file, smallest first.
fn asked(desk: &Desk, plan: &str, full: &str) -> Vec<[usize; 4]> {
    let points: Vec<String> = full.lines().map(|line| line.split('\t').take(3).collect::<Vec<_>>().join(",")).collect();
    let inside = full.lines().zip(&points).filter(|(line, _)| line.split('\t').nth(3) != Some("0"));
    let mut faces = HashSet::new();
    for (_, point) in inside {
        for line in desk.good(&format!("faces {plan} {point}")).lines() {
            let numbers = line.split('\t').map(|corner| points.iter().position(|p| p == corner).expect("a vertex"));
            let mut face: [usize; 4] = numbers.collect::<Vec<_>>().try_into().expect("four corners");
            let least = (0..4).min_by_key(|i| face[*i]).expect("four");
            face.rotate_left(least);
            faces.insert(face);
        }
    }
    let mut faces: Vec<[usize; 4]> = faces.into_iter().collect();
    faces.sort();
    faces
}

/// Vertices and faces of a file of either kind, without its first lines.
fn read(text: &str, vertex: &str, face: &str, first: usize) -> (Vec<[f64; 2]>, Vec<[usize; 4]>) {
    let (mut places, mut faces) = (Vec::new(), Vec::new());
    for line in text.lines() {
        if let Some(numbers) = line.strip_prefix(face) {
            let numbers: Vec<usize> = numbers.split(' ').map(|word| word.parse::<usize>().expect("a number") - first).collect();
            faces.push(numbers.try_into().expect("four vertices"));
        } else {
            let words: Vec<&str> = line.strip_prefix(vertex).expect("a vertex").split(' ').collect();
            assert_eq!((words.len(), words[2]), (3, "0.0000"));
            places.push([words[0].parse().expect("x"), words[1].parse().expect("y")]);
        }
    }
    (places, faces)
}

#[test]
fn vertices_and_faces_of_the_plan() {
    let desk = Desk::with_plan("viewer");
    for plan in ["base.full", "plan.full", "plan.reduced"] {
        let full = desk.good(&format!("restore {plan} -q"));
        let (places, faces) = (places(&full), asked(&desk, plan, &full));
        let census: Vec<String> =
            desk.good(&format!("census {plan}")).lines().nth(1).expect("counts").split('\t').map(str::to_string).collect();
        let off = desk.good(&format!("off {plan}"));
        let (head, rest) = off.split_at(off.match_indices('\n').nth(1).expect("two lines").0 + 1);
        assert_eq!(head, format!("OFF\n{} {} {}\n", census[0], census[2], census[1]));
        for (found, drawn) in [read(rest, "", "4 ", 0), read(&desk.good(&format!("obj {plan}")), "v ", "f ", 1)] {
            assert_eq!((found.len(), &drawn), (places.len(), &faces));
            let near = |(p, q): (&[f64; 2], &[f64; 2])| (p[0] - q[0]).abs() < 0.000_051 && (p[1] - q[1]).abs() < 0.000_051;
            assert!(found.iter().zip(&places).all(near));
        }
    }
}

#[test]
fn counted_and_refused() {
    let desk = Desk::with_plan("viewer-counted");
    let ran = desk.run("off plan.reduced -o plan.off");
    let told = "bladeplan: off: 28 vertices in on 22 lines, 28 vertices and 21 faces out\n";
    assert_eq!(ran, Ran { status: 0, out: String::new(), err: told.to_string() });
    assert_eq!(desk.get("plan.off"), desk.good("off plan.full -q"));
    assert_eq!(desk.run("obj plan.full -q").err, "");
    assert_eq!(desk.fed("obj -", desk.get("base.full").as_bytes()).err, "bladeplan: obj: 16 vertices in, 16 vertices and 9 faces out\n");
    assert_eq!(desk.fed("off -", desk.get("plan.reduced").as_bytes()).out, desk.get("plan.off"));
    let eleven = "these records are no grown mesh: a vertex is missing, or something was changed by hand; also an empty file";
    desk.put("torn.full", desk.get("plan.full").lines().skip(1).map(|line| format!("{line}\n")).collect::<String>());
    for command in ["off", "obj"] {
        desk.refused(
            &format!("{command} torn.full -o plan.off"),
            11,
            &format!("torn.full: neither a full file nor a reduced one, refused with 11: {eleven}"),
        );
        desk.refused(&format!("{command} nothing"), 74, "nothing: No such file or directory");
    }
    assert_eq!(desk.get("plan.off"), desk.good("off plan.full -q"));
    // an OFF file is no plan
    assert_eq!(desk.run("census plan.off").status, 9);
}
