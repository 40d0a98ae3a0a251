//! Document 01's bench examples, and findings, through the safe calls.

use flaskbloom::*;

fn three() -> Table {
    Table::base(64, &[[0, 0], [1, 1], [2, -1]]).unwrap()
}

fn at(table: &Table, a: i32, b: i32, m: u8) -> Option<(u8, u8, u8)> {
    table.records().find(|r| r.point == Point::new(a, b, m)).map(|r| (r.degree, r.orientation, r.level))
}

#[test]
fn normalisations() {
    assert_eq!(normalise(Point::new(3, 0, 1)), Point::new(1, 0, 0));
    assert_eq!(normalise(Point::new(9, -18, 3)), Point::new(1, -2, 1));
    assert_eq!(normalise(Point::new(0, 0, 6)), Point::new(0, 0, 0));
}

#[test]
fn a_star_without_a_mesh() {
    let r = Record { point: Point::new(0, 0, 0), degree: 6, orientation: 1, level: 1 };
    let points = star(r).unwrap();
    assert_eq!(points[..3], [Point::new(1, 1, 1), Point::new(-1, 2, 1), Point::new(-2, 1, 1)]);
    assert_eq!(star(Record { degree: 0, orientation: 0, level: 0, ..r }), Err(Refusal::DegreeZero));
    assert_eq!(star(Record { level: 2, ..r }), Err(Refusal::BadLine));
}

#[test]
fn three_hexagons() {
    let sheet = three();
    assert_eq!(sheet.records().count(), 16);
    assert_eq!(census(&sheet.write_full().unwrap()), "V\tE\tF\td0\td3\td4\td5\td6\n16\t24\t9\t12\t3\t0\t0\t1\n");
    assert_eq!(sheet.write_reduced().unwrap().iter().filter(|byte| **byte == b'\n').count(), 13);
    assert_eq!(sheet.neighbours(Point::new(2, 0, 0)), Err(Refusal::DegreeZero));
    assert_eq!(sheet.faces(Point::new(1, 0, 0)).unwrap().len(), 6);
}

#[test]
fn counting() {
    let mut sheet = three();
    assert_eq!(sheet.counts(), Ok(Counts { vertices: 16, edges: 24, faces: 9, degrees: [12, 3, 0, 0, 1] }));
    sheet.subdivide_all(&[Point::new(1, 0, 0); 2]).unwrap();
    assert_eq!(sheet.counts(), Ok(Counts { vertices: 28, edges: 48, faces: 21, degrees: [12, 6, 9, 0, 1] }));
    assert_eq!(Table::from_bytes(vec![255; 192]).counts(), Ok(Counts { vertices: 0, edges: 0, faces: 0, degrees: [0; 5] }));
    assert_eq!(Table::from_bytes(vec![1; 192]).counts(), Err(Refusal::NotInOrder));
}

#[test]
fn subdividing() {
    let mut sheet = three();
    assert_eq!(sheet.subdivide(Point::new(0, 0, 0)), Err(Refusal::NotDegreeSix));
    assert_eq!(sheet.subdivide(Point::new(5, 5, 0)), Err(Refusal::NoRecord));
    sheet.subdivide(Point::new(3, 0, 1)).unwrap();
    assert_eq!(at(&sheet, 4, 1, 1), Some((3, 3, 1)));
    assert_eq!(at(&sheet, 1, 1, 0), Some((4, 0, 0)));
    sheet.subdivide_all(&[Point::new(1, 0, 0)]).unwrap();
    assert_eq!(at(&sheet, 4, 0, 1), Some((3, 2, 2)));
    assert_eq!(at(&sheet, 4, 1, 1), Some((4, 11, 1)));
    let refused = sheet.subdivide_all(&[Point::new(1, 0, 0), Point::new(0, 0, 0)]);
    assert_eq!(refused, Err(RefusedAt { refusal: Refusal::NotDegreeSix, at: 1 }));
}

#[test]
fn brought_to_degree_six() {
    let mut sheet = Table::base(64, &[[0, 0], [1, 1], [-1, 2], [-2, 1], [-1, -1], [1, -2], [2, -1]]).unwrap();
    assert_eq!(sheet.bring_to_six(Point::new(0, 0, 0)), Ok(3));
    assert_eq!(at(&sheet, 0, 0, 0), Some((6, 1, 1)));
    assert_eq!(sheet.bring_to_six(Point::new(0, 0, 2)), Ok(0));
    let mut sheet = three();
    assert_eq!(sheet.bring_to_six(Point::new(0, 0, 0)), Err(Refusal::AtTheRim));
    assert_eq!(sheet, three());
    assert_eq!(sheet.bring_to_six(Point::new(2, 0, 0)), Err(Refusal::DegreeZero));
    assert_eq!(sheet.bring_to_six(Point::new(5, 5, 0)), Err(Refusal::NoRecord));
    assert_eq!(Table::from_bytes(vec![1; 192]).bring_to_six(Point::new(0, 0, 0)), Err(Refusal::NotInOrder));
}

#[test]
fn many_queries() {
    let mut sheet = three();
    sheet.subdivide(Point::new(1, 0, 0)).unwrap();
    let asked: Vec<Point> = sheet.records().map(|r| r.point).chain([Point::new(5, 5, 0), Point::new(9, 0, 2)]).collect();
    assert_eq!(sheet.neighbours_all(&asked), Ok(asked.iter().map(|p| sheet.neighbours(*p)).collect()));
    assert_eq!(sheet.opposites_all(&asked), Ok(asked.iter().map(|p| sheet.opposites(*p)).collect()));
    assert_eq!(sheet.faces_all(&asked), Ok(asked.iter().map(|p| sheet.faces(*p)).collect()));
    assert_eq!(sheet.neighbours_all(&[]), Ok(Vec::new()));
    assert_eq!(Table::from_bytes(vec![1; 192]).faces_all(&[]), Err(Refusal::NotInOrder));
}

#[test]
fn files_there_and_back() {
    let mut sheet = three();
    sheet.subdivide(Point::new(1, 0, 0)).unwrap();
    let (full, reduced) = (sheet.write_full().unwrap(), sheet.write_reduced().unwrap());
    assert_eq!(Table::read_full(64, &full).unwrap().write_reduced().unwrap(), reduced);
    assert_eq!(Table::read_reduced(64, &reduced).unwrap().write_full().unwrap(), full);
    assert_eq!(Table::read_reduced(64, &full), Err(RefusedAt { refusal: Refusal::RedundantKept, at: 0 }));
    assert_eq!(Table::read_full(16, &full), Err(RefusedAt { refusal: Refusal::TooFewSlots, at: 17 }));
    assert_eq!(Table::read_full(64, b"0\n"), Err(RefusedAt { refusal: Refusal::BadLine, at: 1 }));
}

#[test]
fn files_for_a_viewer() {
    let lone = Table::base(16, &[[0, 0]]).unwrap();
    let off = String::from_utf8(lone.write_off().unwrap()).unwrap();
    assert!(off.starts_with("OFF\n7 3 9\n-1.0000 0.0000 0.0000\n-0.5000 0.8660 0.0000\n"), "{off}");
    assert!(off.ends_with("\n1.0000 0.0000 0.0000\n4 0 2 3 1\n4 1 3 6 4\n4 2 5 6 3\n"), "{off}");
    let obj = String::from_utf8(lone.write_obj().unwrap()).unwrap();
    assert!(obj.starts_with("v -1.0000 0.0000 0.0000\n") && obj.ends_with("\nf 1 3 4 2\nf 2 4 7 5\nf 3 6 7 4\n"), "{obj}");
    assert!(three().write_off().unwrap().starts_with(b"OFF\n16 9 24\n"));
    let empty = Table::from_bytes(vec![255; 192]);
    assert_eq!((empty.write_off(), empty.write_obj()), (Ok(b"OFF\n0 0 0\n".to_vec()), Ok(Vec::new())));
    assert_eq!(Table::from_bytes(vec![1; 192]).write_off(), Err(Refusal::NotInOrder));
    let mut torn = vec![255; 192];
    torn[..12].copy_from_slice(&[0, 0, 0, 0, 0, 0, 0, 0, 0, 3, 0, 0]);
    assert_eq!(Table::from_bytes(torn).write_obj(), Err(Refusal::Torn));
}

#[test]
fn bases_refused() {
    assert_eq!(Table::base(16, &[[0, 0], [1, 0]]), Err(RefusedAt { refusal: Refusal::BadCentre, at: 1 }));
    assert_eq!(Table::base(15, &[[0, 0]]), Err(RefusedAt { refusal: Refusal::NotInOrder, at: 0 }));
    assert_eq!(Table::from_bytes(vec![1; 192]).write_full(), Err(Refusal::NotInOrder));
    assert_eq!((Refusal::DegreeZero.number(), Refusal::BadFinding.number(), Refusal::AtTheRim.number()), (14, 15, 16));
}

#[test]
fn an_old_file_salvaged() {
    let mut sheet = three();
    sheet.subdivide(Point::new(1, 0, 0)).unwrap();
    let (full, reduced) = (sheet.write_full().unwrap(), sheet.write_reduced().unwrap());
    let whole = Table::salvage(32, &full).unwrap();
    assert_eq!((&whole.file, whole.changes), (&full, Vec::new()));
    let old = [&reduced[..], b"3\t0\t1\t6\t3\t1\n0 0 0 3 0 0\n1\t0"].concat();
    let lines = reduced.iter().filter(|byte| **byte == b'\n').count();
    let list = format!(
        "{}\tnormalised\n{0}\trepeat\n{}\tdropped\n{}\tdropped\n{}",
        lines + 1,
        lines + 2,
        lines + 3,
        "0\trestored\n".repeat(22 - lines)
    );
    let mended = Table::salvage(32, &old).unwrap();
    assert_eq!((&mended.file, String::from_utf8(mended.changes).unwrap()), (&full, list));
    assert_eq!(mended.table.write_reduced(), Ok(reduced));
    assert_eq!(Table::salvage(16, &full), Err(Refusal::TooFewSlots));
    assert_eq!(Table::salvage(32, &[&full[..], b"1\t0\t0\t3\t0\t0\n"].concat()), Err(Refusal::TwoRecords));
    assert_eq!((Table::salvage(32, b""), Table::salvage(15, &full)), (Err(Refusal::NotGrown), Err(Refusal::NotInOrder)));
    assert_eq!(Refusal::TwoRecords.number(), 20);
}

#[test]
fn findings_joined() {
    let sheet = three();
    let list = b"7\t3\t0\t1\tpit\n3\t9\t9\t0\tgone\n8\t1\t0\t0\t\n2\t-1\t0\t0\trim\n";
    let joined = b"-1\t0\t0\t2\trim\n1\t0\t0\t7\tpit\n1\t0\t0\t8\t\n?\t3\tgone\n";
    assert_eq!(sheet.findings(list), Ok(joined.to_vec()));
    assert_eq!(sheet.findings(b""), Ok(Vec::new()));
    assert_eq!(sheet.findings(b"1\t0\t0\t0\t\n0\t0\t0\t0\t\n"), Err(RefusedAt { refusal: Refusal::BadFinding, at: 2 }));
    assert_eq!(Table::from_bytes(vec![1; 192]).findings(list), Err(RefusedAt { refusal: Refusal::NotInOrder, at: 0 }));
}

#[test]
fn refining_round_an_outline() {
    let (mut sheet, pit) = (three(), Outline::Disc { x: 1.0, y: 0.0, radius: 0.3 });
    sheet.refine(pit, 2, 12).unwrap();
    assert_eq!(sheet.records().count(), 28);
    let mut narrow = Table::base(28, &[[0, 0], [1, 1], [2, -1]]).unwrap();
    let refused = narrow.refine(pit, 3, 12).unwrap_err();
    assert_eq!((refused.refusal, refused.at, narrow.records().count()), (Refusal::TooFewSlots, 2, 28));
    for outline in [Outline::Disc { x: 1.0, y: 0.0, radius: 0.0 }, Outline::Line { p: f64::NAN, q: 1.0, s: 0.0 }] {
        assert_eq!(sheet.refine(outline, 0, 0).unwrap_err().refusal, Refusal::BadOutline);
    }
    sheet.refine(Outline::Line { p: 0.0, q: 1.0, s: 900.0 }, 12, 12).unwrap();
    assert_eq!(sheet.records().count(), 28);
}
