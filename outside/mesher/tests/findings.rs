//! Findings on the plan, document 02's first ticket: the readings that this project takes, by example. `>` is a tab here, `;` a line feed.

mod common;
use common::*;
use mesher::*;

const THREE: [i32; 6] = [0, 0, 1, 1, 2, -1];

fn text(short: &str) -> Vec<u8> {
    short.replace('>', "\t").replace(';', "\n").into_bytes()
}

/// The joined list of Three; every output that is long enough gives it, and the bytes past it stay.
fn joined(list: &[u8]) -> Vec<u8> {
    let table = based(16, &THREE);
    let mut out = vec![b'.'; list.len() + 3];
    let answer = findings(&table, list, &mut out);
    assert_eq!((answer.number, answer.value[0]), (0, 0), "{:?}", String::from_utf8_lossy(list));
    let long = answer.value[1] as usize;
    assert!(long <= list.len() && out[long..].iter().all(|byte| *byte == b'.'));
    let mut exact = vec![b'.'; long];
    assert_eq!(findings(&table, list, &mut exact), answer);
    assert_eq!(exact, out[..long]);
    exact
}

fn gives(list: &str, wanted: &str) {
    assert_eq!(String::from_utf8_lossy(&joined(&text(list))), String::from_utf8_lossy(&text(wanted)));
}

/// The line that is malformed, nothing being written.
fn malformed(list: &[u8]) -> u64 {
    let mut out = [b'.'; 400];
    let answer = findings(&based(16, &THREE), list, &mut out);
    assert_eq!((answer.number, answer.value[1]), (15, 0), "{:?}", String::from_utf8_lossy(list));
    assert_eq!(out, [b'.'; 400]);
    answer.value[0]
}

fn bad(line: &str) {
    assert_eq!(malformed(&text(&(line.to_string() + "1>0>0>0>;"))), 1, "{line}");
    assert_eq!(malformed(&text(&("1>0>0>0>;".to_string() + line))), 2, "{line}");
}

#[test]
fn r1_r2_five_fields_and_four_tabs() {
    gives("5>1>0>0>;", "1>0>0>5>;");
    for line in ["5>1>0>0;", "5>1>0;", "5;", ";", "5 1 0 0 pit;", "1>0>0;5>1>0>0>;", ">5>1>0>0>;"] {
        bad(line);
    }
}

#[test]
fn r3_notes_are_bytes() {
    let mut bytes: Vec<u8> = (0..=255).filter(|byte| ![b'\t', b'\n'].contains(byte)).collect();
    bytes.push(b'\r');
    for note in bytes.chunks(80) {
        assert_eq!(joined(&[b"5\t1\t0\t0\t", note, b"\n"].concat()), [b"1\t0\t0\t5\t", note, b"\n"].concat());
        assert_eq!(joined(&[b"5\t9\t9\t0\t", note, b"\n"].concat()), [b"?\t5\t", note, b"\n"].concat());
    }
    gives(&format!("5>1>0>0>{};", "x".repeat(80)), &format!("1>0>0>5>{};", "x".repeat(80)));
    bad(&format!("5>1>0>0>{};", "x".repeat(81)));
    bad(&format!("5>1>0>0>{};", "é".repeat(41)));
    for line in ["5>1>0>0>a>b;", "5>1>0>0>>;", "5>1>0>0>pit>;"] {
        bad(line);
    }
    gives("5>1>0>0> ;6>1>0>0>\r;", "1>0>0>5> ;1>0>0>6>\r;");
}

#[test]
fn r4_limits_are_judged_as_written() {
    bad("1>1062882>0>12>;");
    bad("1>531441>0>13>;");
    for line in ["0>0>0>0>;", "1000000>0>0>0>;", "-1>0>0>0>;", "1>1000001>0>0>;", "1>-1000001>0>0>;"] {
        bad(line);
    }
    for line in ["1>0>1000001>0>;", "1>0>-1000001>0>;", "1>0>0>-1>;", "1>0>0>13>;", "1>0>0>256>;", "1>0>0>4294967296>;"] {
        bad(line);
    }
    gives("1>1000000>-1000000>12>;", "?>1>;");
    gives("999999>-1000000>1000000>0>x;1>0>0>12>;", "0>0>0>1>;?>999999>x;");
}

#[test]
fn numbers_as_in_document_01() {
    for field in ["", "-", "+1", "01", "-0", "00", "-01", "1x", " 1", "1 ", "1.0", "0x1", "18446744073709551617", "99999999999999999999999"]
    {
        for line in [format!("{field}>0>0>0>;"), format!("1>{field}>0>0>;"), format!("1>0>{field}>0>;"), format!("1>0>0>{field}>;")] {
            bad(&line);
        }
    }
}

#[test]
fn r5_r6_the_list_s_end() {
    gives("", "");
    assert_eq!(findings(&based(16, &THREE), b"", &mut []).number, 0);
    assert_eq!(malformed(b"\n"), 1);
    assert_eq!(malformed(b"1\t0\t0\t0\t\n\n"), 2);
    assert_eq!(malformed(b"1\t0\t0\t0\t\n1\t0\t0\t0\tpit"), 2);
    assert_eq!(malformed(b"1\t0\t0\t0\t"), 1);
    assert_eq!(malformed(b"1"), 1);
}

#[test]
fn r7_r8_the_first_malformed_line_before_the_room() {
    assert_eq!(malformed(&text("1>0>0>0>;0>0>0>0>;1>0>0>;")), 2);
    let table = based(16, &THREE);
    assert_eq!(findings(&table, &text("1>0>0>0>;0>0>0>0>;"), &mut []).value, [2, 0]);
    let damaged = vec![7; table.len()];
    assert_eq!(findings(&damaged, b"\n", &mut []).number, 1);
    assert_eq!(findings(&damaged, b"\n", &mut []).value, [0, 0]);
    assert_eq!(findings(&table[12..], b"\n", &mut []).number, 1);
    let mut out = [b'.'; 8];
    let answer = findings(&table, &text("5>1>0>0>;"), &mut out);
    assert_eq!((answer.number, answer.value, out), (13, [0, 0], [b'.'; 8]));
}

#[test]
fn r9_any_table_in_order() {
    let mut out = [0; 64];
    let empty = vec![255; 16 * 12];
    let answer = findings(&empty, &text("1>0>0>0>x;2>1>0>0>;"), &mut out);
    assert_eq!((answer.number, &out[..answer.value[1] as usize]), (0, &text("?>1>x;?>2>;")[..]));
    let mut torn = empty;
    place(&mut torn, &[Record { a: 5, b: -7, m: 2, d: 6, k: 0, n: 4 }]);
    let answer = findings(&torn, &text("2>0>0>0>;1>15>-21>3>;"), &mut out);
    assert_eq!((answer.number, &out[..answer.value[1] as usize]), (0, &text("5>-7>2>1>;?>2>;")[..]));
    gives("1>-1>0>0>rim;", "-1>0>0>1>rim;");
}

#[test]
fn r10_points_in_any_spelling() {
    gives("1>3>0>1>;2>531441>0>12>;3>1>0>0>;4>0>0>12>;", "0>0>0>4>;1>0>0>1>;1>0>0>2>;1>0>0>3>;");
    gives("1>1>0>12>;2>1>0>7>;3>1>0>1>;4>252>0>0>;5>1000000>1000000>0>;", "?>1>;?>2>;?>3>;?>4>;?>5>;");
}

#[test]
fn r11_r12_order_and_form() {
    gives("7>3>0>1>pit;3>9>9>0>gone;8>1>0>0>;2>-1>0>0>rim;", "-1>0>0>2>rim;1>0>0>7>pit;1>0>0>8>;?>3>gone;");
    gives("9>1>0>0>b;1>1>0>0>a;9>1>0>0>b;", "1>0>0>9>b;1>0>0>1>a;1>0>0>9>b;");
    gives("2>9>9>0>;1>9>9>0>;2>9>9>0>;", "?>2>;?>1>;?>2>;");
}

/// Depth goes before a, and a before b, however the table's slots stand.
#[test]
fn vertices_in_full_file_order() {
    let mut table = based(64, &THREE);
    assert_eq!(subdivide(&mut table, 1, 0, 0).number, 0);
    let full = full_text(&table);
    let points: Vec<String> = full.lines().map(|line| line.split('\t').take(3).collect::<Vec<_>>().join("\t")).collect();
    let list: String = points.iter().rev().map(|point| format!("1\t{point}\t\n")).collect();
    let wanted: String = points.iter().map(|point| format!("{point}\t1\t\n")).collect();
    let mut out = vec![0; list.len()];
    assert_eq!(findings(&table, list.as_bytes(), &mut out).number, 0);
    assert_eq!(String::from_utf8_lossy(&out), wanted);
}

/// "Each line comes out exactly once": a list of many lines, counted.
#[test]
fn r13_a_list_of_any_length() {
    let list: String = (0..30_000).map(|i| format!("{}\t{}\t{}\t0\tnote {}\n", 1 + i % 999_999, i % 5 - 2, i % 3 - 1, i % 7)).collect();
    let out = joined(list.as_bytes());
    assert_eq!(out.iter().filter(|byte| **byte == b'\n').count(), 30_000);
}
