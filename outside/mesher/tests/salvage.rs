//! Old files: document 02's words on a line, and the readings of it.

use mesher::salvage::mended;

/// What is listed of a file.
fn listed(file: &str) -> String {
    mended(file.as_bytes()).changes
}

#[test]
fn a_line() {
    for (line, word) in [
        ("1\t0\t0\t6\t0\t0\n", ""),
        ("1\t0\t0\t6\t8\t0\n", "1\tnormalised\n"),
        ("1\t0\t0\t6\t11\t0\n", "1\tdropped\n"),
        ("1\t0\t0\t6\t12\t0\n", "1\tdropped\n"),
        ("-1\t0\t0\t0\t4\t0\n", "1\tdropped\n"),
        ("3\t0\t1\t0\t0\t0\n", "1\tnormalised\n"),
        ("531441\t0\t12\t0\t0\t0\n", "1\tnormalised\n"),
        ("1062882\t0\t12\t0\t0\t0\n", "1\tdropped\n"),
        ("1000000\t0\t0\t0\t0\t0\n", "1\tdropped\n"),
        ("0\t0\t13\t3\t0\t0\n", "1\tdropped\n"),
        ("1\t0\t0\t4\t11\t1\n", ""),
        ("1\t0\t0\t0\t0\t0", "1\tdropped\n"),
        ("1\t0\t0\t0\t0\t0\r\n", "1\tdropped\n"),
        ("\n", "1\tdropped\n"),
        ("", ""),
    ] {
        assert_eq!(listed(line), word, "{line:?}");
    }
}

#[test]
fn repeats() {
    let one = "1\t0\t0\t0\t0\t0\n";
    assert_eq!(listed(&one.repeat(3)), "2\trepeat\n3\trepeat\n");
    assert_eq!(listed(&format!("{one}x\n3\t0\t1\t0\t0\t0\n2\t0\t0\t0\t0\t0\n")), "2\tdropped\n3\tnormalised\n3\trepeat\n");
    assert!(mended(one.repeat(2).as_bytes()).clash.is_none());
}

#[test]
fn two_records_of_one_point() {
    for other in ["1\t0\t0\t3\t0\t0\n", "9\t0\t2\t6\t10\t4\n"] {
        assert!(mended(format!("1\t0\t0\t0\t0\t0\n{other}").as_bytes()).clash.is_some(), "{other:?}");
    }
    assert!(mended(b"1\t0\t0\t0\t0\t0\n1\t0\t0\t6\t1\t0\n").clash.is_none());
    let many: String = (0..100).map(|i| format!("{}\t0\t0\t0\t0\t0\n", i + 1)).collect();
    for (file, number) in [(many.clone(), 8), (many + "100\t0\t0\t3\t0\t0\n", 20)] {
        let (mut table, mut scratch) = ([7; 192], [9; 192]);
        let answer = mesher::salvage(&mut table, &mut scratch, file.as_bytes(), &mut [], &mut []);
        assert_eq!((answer.number, table, scratch), (number, [255; 192], [255; 192]));
    }
}
