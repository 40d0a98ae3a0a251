//! The readings that this project takes where document 01 is open: those that change an answer, by example.

mod common;
use common::*;
use mesher::record::Record;
use mesher::slots::{home, Slots};
use mesher::spot::Point;
use mesher::*;

const THREE: [i32; 6] = [0, 0, 1, 1, 2, -1];

fn read_lines(slots: usize, file: &str) -> (u8, u64) {
    read_with(read_full, slots, file)
}

fn read_reduced_lines(slots: usize, file: &str) -> (u8, u64) {
    read_with(read_reduced, slots, file)
}

fn read_with(read: fn(&mut [u8], &mut [u8], &[u8]) -> Answer<u64>, slots: usize, file: &str) -> (u8, u64) {
    let (mut table, mut scratch) = (vec![1; 12 * slots], vec![2; 12 * slots]);
    let answer = read(&mut table, &mut scratch, file.replace(' ', "\t").as_bytes());
    assert!(scratch.iter().all(|byte| *byte == 255));
    assert!(answer.number == 0 || table.iter().all(|byte| *byte == 255));
    (answer.number, answer.value)
}

fn one() -> String {
    full_text(&based(16, &[0, 0]))
}

#[test]
fn r1_a_bad_centre_goes_before_the_room() {
    let mut table = vec![0; 16 * 12];
    let answer = base(&mut table, &[0, 0, 30, 0, 60, 0, 1, 0]);
    assert_eq!((answer.number, answer.value), (2, 3));
}

#[test]
fn r2_room_is_counted_in_different_points() {
    // Three has 16 points, not 21; two apart have 14, three apart 21.
    assert_eq!(records(&based(16, &THREE)).len(), 16);
    let mut table = vec![0; 20 * 12];
    assert_eq!(base(&mut table, &[0, 0, 30, 0, 60, 0]).number, 8);
    assert!(table.iter().all(|byte| *byte == 255));
    assert_eq!(records(&based(21, &[0, 0, 30, 0, 60, 0])).len(), 21);
}

#[test]
fn r3_to_r6_the_star_call() {
    assert_eq!(star(3, 0, 1, 6, 0, 0).number, 9);
    assert_eq!(star(0, 0, 0, 0, 0, 2).number, 9);
    assert_eq!(star(1, 0, 1, 0, 0, 0).number, 14);
    assert_eq!(star(251, 0, 0, 6, 0, 0).value[..4], [6, 252, 0, 0]);
}

#[test]
fn r5_degree_0_at_depth_1_is_in_order_and_never_grown() {
    let mut table = based(32, &[0, 0]);
    place(&mut table, &[Record { a: 1, b: 0, m: 1, d: 0, k: 0, n: 0 }]);
    assert_eq!(neighbours(&table, 1, 0, 1).number, 14);
    assert_eq!(read_lines(32, &full_text(&table)), (11, 0));
}

#[test]
fn r7_r8_line_feeds() {
    let file = one();
    assert_eq!(read_lines(16, &file[..file.len() - 1]), (9, 7));
    assert_eq!(read_lines(16, "\n"), (9, 1));
    assert_eq!(read_lines(16, &(file.clone() + "\n")), (9, 8));
    assert_eq!(read_lines(16, ""), (11, 0));
    // 9 goes before 10 on a line without its line feed
    assert_eq!(read_lines(16, "0 0 0 3 0 0\n-1 0 0 0 0 0"), (9, 2));
}

#[test]
fn r9_r10_order_and_long_numbers() {
    assert_eq!(read_lines(16, "0 0 0 3 0 0\n0 0 0 0 0 0\n"), (10, 2));
    assert_eq!(read_lines(16, "0 0 0 3 0 0\n999999999999999999999 0 0 0 0 0\n"), (9, 2));
    assert_eq!(read_lines(16, "4294967296 0 0 3 0 0\n"), (9, 1));
    assert_eq!(read_lines(16, "0 0 0 3 256 0\n"), (9, 1));
}

#[test]
fn r11_room_for_a_line() {
    let seventeen: String = (0..17).map(|b| format!("0 {b} 0 0 0 0\n")).collect();
    assert_eq!(read_lines(16, &seventeen), (8, 17));
    assert_eq!(read_lines(17, &seventeen), (11, 0));
    let sixteen: String = seventeen.lines().take(16).map(|line| line.to_string() + "\n").collect();
    assert_eq!(read_lines(16, &(sixteen.clone() + "x\n")), (9, 17));
    assert_eq!(read_lines(16, &(sixteen.clone() + "0 0 0 0 0 0\n")), (10, 17));
    assert_eq!(read_lines(16, &(seventeen + "x\n")), (8, 17));
}

#[test]
fn r12_r13_restoring() {
    let reduced = reduced_text(&based(16, &THREE));
    assert_eq!(read_reduced_lines(16, &reduced), (0, 0));
    // a lone degree 6: six restored, then not grown
    assert_eq!(read_reduced_lines(16, "1 0 0 6 0 0\n"), (11, 0));
    // three of them: eighteen restored into thirteen slots
    assert_eq!(read_reduced_lines(16, "1 0 0 6 0 0\n31 0 0 6 0 0\n61 0 0 6 0 0\n"), (8, 0));
    // the same with a point out of range met first
    assert_eq!(read_reduced_lines(16, "-251 0 0 6 0 0\n31 0 0 6 0 0\n61 0 0 6 0 0\n"), (11, 0));
    // and with it met only after the room has gone
    assert_eq!(read_reduced_lines(16, "1 0 0 6 0 0\n31 0 0 6 0 0\n251 0 0 6 0 0\n"), (11, 0));
    assert_eq!(read_reduced_lines(16, "1 0 0 6 0 0\n31 0 0 6 0 0\n61 0 0 6 0 0\n251 0 0 6 0 0\n"), (8, 0));
}

#[test]
fn r15_a_kept_redundant_record() {
    let table = based(16, &THREE);
    assert_eq!(read_reduced_lines(16, &full_text(&table)), (12, 0));
    let not_grown = full_text(&table).replace("2\t-1\t0\t3\t0\t0", "2\t-1\t0\t3\t2\t0");
    assert_eq!(read_reduced_lines(16, &not_grown), (11, 0));
}

#[test]
fn r17_lengths_of_readers() {
    for (table, scratch) in [(192, 204), (204, 192), (180, 180), (191, 191), (0, 0), (12 * 65_537, 12 * 65_537)] {
        let (mut table, mut scratch) = (vec![1; table], vec![2; scratch]);
        assert_eq!(read_full(&mut table, &mut scratch, one().as_bytes()).number, 1);
        assert!(table.iter().all(|byte| *byte == 1) && scratch.iter().all(|byte| *byte == 2));
    }
}

#[test]
fn r18_plus_four_is_mod_12() {
    // k' = 2 at place 4 of an orientation 0 star; k = 10 fits by 10 + 4 = 2 mod 12 and gives k' - 4 = 10
    let mut table = vec![255; 64 * 12];
    let ring = [(1, 0), (0, 1), (-1, 1), (-1, 0), (0, -1), (1, -1)];
    let mut list = vec![Record { a: 0, b: 0, m: 0, d: 6, k: 0, n: 0 }];
    for (i, (a, b)) in ring.into_iter().enumerate() {
        let (d, k) = if i == 4 { (4, 10) } else { (0, 0) };
        list.push(Record { a, b, m: 0, d, k, n: 0 });
    }
    place(&mut table, &list);
    assert_eq!(subdivide(&mut table, 0, 0, 0).number, 0);
    assert!(records(&table).contains(&Record { a: 0, b: -1, m: 0, d: 5, k: 10, n: 0 }));
}

#[test]
fn r19_reduced_whatever_the_level() {
    let mut table = vec![255; 16 * 12];
    let six = Record { a: 0, b: 0, m: 0, d: 6, k: 0, n: 0 };
    let three = Record { a: 1, b: 0, m: 0, d: 3, k: 1, n: 7 };
    place(&mut table, &[six, three]);
    assert_eq!(reduced_text(&table), "0\t0\t0\t6\t0\t0\n");
}

#[test]
fn r20_home_in_whole_numbers() {
    let (a, b) = (251 * 729, 251 * 729 - 1);
    let sum = 7919i128 * a as i128 + 104_729 * b as i128 + 6;
    assert_eq!(home(Point::new(a, b, 6), 1000) as i128, sum.rem_euclid(1000));
    assert_eq!(home(Point::new(-a, -b, 6), 1000) as i128, (12 - sum).rem_euclid(1000));
    assert_eq!(home(Point::new(-1, 0, 0), 16), 1);
}

#[test]
fn r21_requests_out_of_range() {
    let mut table = based(16, &[0, 0]);
    for (a, b, m) in [(i32::MIN, i32::MAX, 255), (252, 0, 0), (1, 0, 7)] {
        assert_eq!(subdivide(&mut table, a, b, m).number, 3);
        assert_eq!(neighbours(&table, a, b, m).number, 3);
    }
    assert_eq!(neighbours(&table, 0, 0, 255).number, 0);
    let mut edge = vec![255; 16 * 12];
    place(&mut edge, &[Record { a: 251, b: 251, m: 0, d: 6, k: 0, n: 0 }]);
    assert_eq!(neighbours(&edge, 251, 251, 0).number, 7);
    assert_eq!(faces(&edge, 251, 251, 0).number, 7);
    assert_eq!(subdivide(&mut edge, 251, 251, 0).number, 7);
}

#[test]
fn r22_r33_census_refusals() {
    assert_eq!(census_text(&vec![b'x'; 65_537]), "refused\t8\t0\n");
    assert_eq!(census_text(&vec![b'x'; 65_536]), "refused\t9\t1\n");
    assert_eq!(census_text(b""), "refused\t11\t0\n");
    assert_eq!(census_text(b"0\t0\t0\t3\t0\t0\n0\t0\t0\t3\t0\t0\n"), "refused\t10\t2\n");
}

#[test]
fn r25_an_odd_list_clears_the_table() {
    for list in [&[][..], &[0, 0, 1][..], &[999][..]] {
        let mut table = vec![1; 16 * 12];
        let answer = base(&mut table, list);
        assert_eq!((answer.number, answer.value), (2, 0));
        assert!(table.iter().all(|byte| *byte == 255));
    }
    let mut table = vec![1; 15 * 12];
    assert_eq!(base(&mut table, &[]).number, 1);
    assert!(table.iter().all(|byte| *byte == 1));
}

#[test]
fn r26_centres_repeated_and_far_out() {
    let mut table = vec![1; 16 * 12];
    assert_eq!(base(&mut table, &[0, 0, 1, 1, 0, 0]).value, 2);
    assert_eq!(base(&mut table, &[0, 0, i32::MIN, i32::MAX]).value, 1);
    assert_eq!(base(&mut table, &[0, 0, 1, 0, 999, 0]).value, 1);
}

#[test]
fn r27_torn_before_room() {
    let mut table = vec![255; 16 * 12];
    let mut list = vec![Record { a: 0, b: 0, m: 0, d: 6, k: 0, n: 0 }];
    list.extend((0..15).map(|i| Record { a: 40 + i, b: 0, m: 0, d: 0, k: 0, n: 0 }));
    place(&mut table, &list);
    assert_eq!(subdivide(&mut table, 0, 0, 0).number, 7);
}

#[test]
fn r34_writers_one_byte_short() {
    let table = based(16, &THREE);
    for (write, text) in [(write_full as fn(&[u8], &mut [u8]) -> Answer<u64>, full_text(&table)), (write_reduced, reduced_text(&table))] {
        let mut out = vec![b'.'; text.len() - 1];
        let answer = write(&table, &mut out);
        assert_eq!((answer.number, answer.value), (13, 0));
        assert!(out.iter().all(|byte| *byte == b'.'));
        let mut out = vec![b'.'; text.len() + 3];
        assert_eq!(write(&table, &mut out).value, text.len() as u64);
        assert_eq!(out, (text + "...").into_bytes());
    }
    assert_eq!(write_full(&[255; 192], &mut []).number, 0);
}

#[test]
fn r35_tables_in_order() {
    // full tables are in order; a record away from its home with a gap before it is not
    let full = based(16, &THREE);
    assert!(Slots::of(&full).is_ok());
    let mut gap = vec![255; 16 * 12];
    gap[12..24].copy_from_slice(&mesher::slots::encode(&Record { a: 0, b: 0, m: 0, d: 3, k: 0, n: 0 }));
    assert_eq!(neighbours(&gap, 0, 0, 0).number, 1);
    // wrapping: [1, 0, 0] has home 7919 mod 16 = 15; moved on to slot 0 with 15 taken
    let mut wrapped = vec![255; 16 * 12];
    let home_15 = [Record { a: 17, b: 0, m: 0, d: 0, k: 0, n: 0 }, Record { a: 1, b: 0, m: 0, d: 0, k: 0, n: 0 }];
    place(&mut wrapped, &home_15);
    assert_eq!(wrapped[15 * 12], 17);
    assert_eq!(wrapped[0], 1);
    assert_eq!(neighbours(&wrapped, 1, 0, 0).number, 14);
    let first: Vec<u8> = wrapped[15 * 12..].to_vec();
    wrapped[12..24].copy_from_slice(&first);
    assert_eq!(neighbours(&wrapped, 1, 0, 0).number, 1);
}

#[test]
fn r36_stars_begin_at_their_orientation() {
    assert_eq!(star(0, 0, 0, 3, 2, 0).value[..7], [3, 0, 1, 0, -1, 0, 0]);
    assert_eq!(star(0, 0, 0, 4, 6, 0).value[..4], [4, -1, 0, 0]);
}

#[test]
fn r37_bytes_of_a_file() {
    for bad in [
        "0\t0\t0\t3\t0\t0\r\n",
        "0\t0\t0\t3\t0\t0\0\n",
        "0 0\t0\t3\t0\t0\n",
        "+0\t0\t0\t3\t0\t0\n",
        "0\t0\t0\t3\t0\t0\t\n",
        "-0\t0\t0\t3\t0\t0\n",
        "00\t0\t0\t3\t0\t0\n",
        "0\t0\t0\t3\t0\n",
        "\t0\t0\t3\t0\t0\n",
        "-\t0\t0\t3\t0\t0\n",
        "0\t0\t0\t3\t0\t\u{e9}\n",
    ] {
        let (mut table, mut scratch) = (vec![1; 192], vec![2; 192]);
        let answer = read_full(&mut table, &mut scratch, bad.as_bytes());
        assert_eq!((answer.number, answer.value), (9, 1), "{bad:?}");
    }
}

#[test]
fn subdividing_a_list() {
    let mut table = based(64, &THREE);
    let mut each = table.clone();
    assert_eq!(subdivide_all(&mut table, &[1, 0, 0, 3, 0, 1, 9, 9]).value, 2);
    assert_eq!(subdivide(&mut each, 1, 0, 0).number, 0);
    assert_eq!(subdivide(&mut each, 1, 0, 0).number, 0);
    assert_eq!(table, each);
    let answer = subdivide_all(&mut table, &[1, 0, 0, 1, 0, 256, 1, 0, 0]);
    assert_eq!((answer.number, answer.value), (3, 1));
    assert_eq!(subdivide_all(&mut table, &[1, 0, -1]).number, 3);
    assert_eq!(subdivide_all(&mut table, &[]).number, 0);
    assert_eq!(subdivide_all(&mut table[1..], &[]).number, 1);
}

#[test]
fn counting_any_table() {
    // a corner has a face as soon as its opposite is there, its adjacent points absent or not; one with no opposite has no face and no sides
    let mut table = vec![255; 16 * 12];
    assert_eq!(counts(&table).value, [0; 8]);
    place(&mut table, &[Record { a: 1, b: 0, m: 0, d: 6, k: 0, n: 0 }]);
    assert_eq!(counts(&table).value, [1, 0, 0, 0, 0, 0, 0, 1]);
    place(&mut table, &[Record { a: 2, b: 1, m: 0, d: 0, k: 0, n: 0 }]);
    assert_eq!(counts(&table).value, [2, 4, 1, 1, 0, 0, 0, 1]);
    for (k, edges, faces) in [(2, 4, 1), (0, 9, 3)] {
        let mut table = table.clone();
        place(&mut table, &[Record { a: 2, b: 0, m: 0, d: 3, k, n: 0 }]);
        assert_eq!(counts(&table).value, [3, edges, faces, 1, 1, 0, 0, 1]);
    }
    let answer = counts(&table[..180]);
    assert_eq!((answer.number, answer.value), (1, [0; 8]));
}

/// Ticket 2. A side between two hexagons, from rim to rim, is one edge though no star names it and two faces have it.
#[test]
fn edges_at_the_rim() {
    let counted = |centres: &[i32]| counts(&based(64, centres)).value;
    assert_eq!(counted(&[0, 0]), [7, 9, 3, 6, 1, 0, 0, 0]);
    assert_eq!(counted(&[0, 0, 1, 1]), [12, 17, 6, 10, 2, 0, 0, 0]);
    assert_eq!(counted(&THREE), [16, 24, 9, 12, 3, 0, 0, 1]);
    // V - E + F is pieces less holes: two hexagons apart; six round a hole
    assert_eq!(counted(&[0, 0, 3, 3]), [14, 18, 6, 12, 2, 0, 0, 0]);
    assert_eq!(counted(&[1, 1, -1, 2, -2, 1, -1, -1, 1, -2, 2, -1]), [30, 48, 18, 24, 6, 0, 0, 0]);
}
