//! Files for a viewer, document 02's fifth ticket: the readings that this project takes, by example. `;` is a line feed here.

mod common;
use common::*;
use mesher::*;

const THREE: [i32; 6] = [0, 0, 1, 1, 2, -1];

type Write = fn(&[u8], &mut [u8]) -> Answer<u64>;

/// The file of a table, in an output of its exact length, in a longer one, whose other bytes stay, and in one a byte short, which stays.
fn text(table: &[u8], write: Write) -> String {
    let mut out = vec![b'.'; 200 * table.len() / 12];
    let answer = write(table, &mut out);
    assert_eq!(answer.number, 0);
    let long = answer.value as usize;
    assert!(out[long..].iter().all(|byte| *byte == b'.'));
    let mut exact = vec![b'.'; long];
    assert_eq!(write(table, &mut exact), answer);
    assert_eq!(exact, out[..long]);
    if long > 0 {
        let mut short = vec![b'.'; long - 1];
        let refused = write(table, &mut short);
        assert_eq!((refused.number, refused.value, short), (13, 0, vec![b'.'; long - 1]));
    }
    String::from_utf8(exact).unwrap().replace('\n', ";")
}

#[test]
fn one_hexagon() {
    let table = based(16, &[0, 0]);
    let vertices = [
        "-1.0000 0.0000 0.0000",
        "-0.5000 0.8660 0.0000",
        "-0.5000 -0.8660 0.0000",
        "0.0000 0.0000 0.0000",
        "0.5000 0.8660 0.0000",
        "0.5000 -0.8660 0.0000",
        "1.0000 0.0000 0.0000",
    ];
    let faces = [[0, 2, 3, 1], [1, 3, 6, 4], [2, 5, 6, 3]];
    let line = |before: &str, face: [usize; 4], first: usize| format!("{before} {};", face.map(|n| (n + first).to_string()).join(" "));
    let off: String = vertices.iter().map(|v| format!("{v};")).chain(faces.map(|face| line("4", face, 0))).collect();
    let obj: String = vertices.iter().map(|v| format!("v {v};")).chain(faces.map(|face| line("f", face, 1))).collect();
    // file order is by a, then b: [-1, 0], [-1, 1], [0, -1], [0, 0], [0, 1], [1, -1], [1, 0]
    assert_eq!(text(&table, write_off), format!("OFF;7 3 9;{off}"));
    assert_eq!(text(&table, write_obj), obj);
}

#[test]
fn r1_r2_the_head() {
    assert!(text(&based(16, &THREE), write_off).starts_with("OFF;16 9 24;"));
    // two hexagons side by side: the side between them has both ends on the rim, and is one edge
    assert!(text(&based(16, &[0, 0, 1, 1]), write_off).starts_with("OFF;12 6 17;"));
}

#[test]
fn r3_r4_lines() {
    for write in [write_off, write_obj] {
        let mut table = based(64, &THREE);
        assert_eq!(subdivide(&mut table, 1, 0, 0).number, 0);
        let text = text(&table, write);
        assert!(text.ends_with(';') && !text.contains("  ") && !text.contains(" ;") && !text.contains("; ") && !text.contains('\t'));
    }
    let mut table = vec![255; 16 * 12];
    place(&mut table, &[Record { a: -251, b: -251, m: 0, d: 0, k: 0, n: 0 }]);
    assert_eq!(text(&table, write_off), "OFF;1 0 0;-376.5000 -217.3724 0.0000;");
    assert_eq!(text(&table, write_obj), "v -376.5000 -217.3724 0.0000;");
}

/// Next to a tie: y of [0, 48479, 5] is 172.77385 and less than three millionths of a ten-thousandth over.
#[test]
fn r5_r6_the_nearest_and_zero() {
    let record = |a, b, m| Record { a, b, m, d: 0, k: 0, n: 0 };
    let mut table = vec![255; 16 * 12];
    place(&mut table, &[record(0, 0, 0), record(1, -2, 3), record(1, 0, 6), record(0, 1, 6), record(0, 48_479, 5), record(-1, 2, 6)]);
    let wanted = [
        "0.0000 0.0000 0.0000",
        "0.0000 -0.0642 0.0000",
        "99.7510 172.7739 0.0000",
        "0.0000 0.0024 0.0000",
        "0.0007 0.0012 0.0000",
        "0.0014 0.0000 0.0000",
    ];
    assert_eq!(text(&table, write_obj), wanted.map(|v| format!("v {v};")).concat());
}

/// "faces rise by their numbers": as numbers, 2 before 10.
#[test]
fn r7_r8_r9_faces() {
    let mut table = based(64, &THREE);
    assert_eq!(subdivide(&mut table, 1, 0, 0).number, 0);
    let text = text(&table, write_off);
    let faces: Vec<Vec<usize>> =
        text.split(';').filter_map(|line| line.strip_prefix("4 ")).map(|l| l.split(' ').map(|n| n.parse().unwrap()).collect()).collect();
    assert_eq!(faces.len(), 15);
    assert!(faces.windows(2).all(|two| two[0] < two[1]));
    assert!(faces.iter().all(|face| face.iter().min() == face.first()));
    assert!(faces.iter().any(|face| face[1] >= 10) && faces.iter().any(|face| face.windows(2).any(|two| two[0] > two[1])));
}

#[test]
fn r10_torn_or_not() {
    let mut torn = vec![255; 16 * 12];
    let v = Record { a: 0, b: 0, m: 0, d: 3, k: 0, n: 0 };
    let rim = |a, b| Record { a, b, m: 0, d: 0, k: 0, n: 0 };
    let refused = |table: &[u8], why| {
        for write in [write_off, write_obj] {
            let mut out = [b'.'; 400];
            let answer = write(table, &mut out);
            assert_eq!((answer.number, answer.value, answer.why, out), (7, 0, why, [b'.'; 400]));
            assert_eq!(write(table, &mut []).number, 7);
        }
    };
    place(&mut torn, &[v, rim(1, 0), rim(-1, 1)]);
    refused(&torn, "an adjacent is absent");
    place(&mut torn, &[rim(0, -1), rim(0, 1), rim(-1, 0)]);
    refused(&torn, "a corner with no opposite");
    // whole, though no mesh that grows: one vertex of three faces and its rim
    place(&mut torn, &[rim(2, -2)]);
    assert!(text(&torn, write_off).starts_with("OFF;7 3 9;"));
    assert_eq!(write_off(&torn[12..], &mut []).number, 1);
    assert_eq!(write_off(&[7; 16 * 12], &mut []).number, 1);
}

#[test]
fn r12_the_empty_table() {
    let empty = vec![255; 16 * 12];
    assert_eq!(text(&empty, write_off), "OFF;0 0 0;");
    assert_eq!(text(&empty, write_obj), "");
    assert_eq!(write_obj(&empty, &mut []).number, 0);
}
