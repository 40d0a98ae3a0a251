//! Drawings: well-formed, whole, short, and true to what the library says of the plan. That the example's drawings are the stored ones is
//! in example.rs.

#[path = "../common/mod.rs"]
mod common;

mod browser;
mod findings;
mod large;
mod sheet;
mod xml;

use common::Desk;
use sheet::Sheet;
use std::ffi::OsString;
use std::fs;
use std::os::unix::ffi::OsStringExt;

/// A point of the file's columns, in sides of a hexagon.
fn place(point: &str) -> (f64, f64) {
    let numbers: Vec<f64> = point.split([',', '\t']).take(3).map(|field| field.parse().expect("a number")).collect();
    let part = 3f64.powi(numbers[2] as i32);
    ((numbers[0] + numbers[1] / 2.0) / part, -numbers[1] * 3f64.sqrt() / 2.0 / part)
}

/// Within a hundredth of a side: corners of marks are rounded, and the scale bar's length is.
fn near(one: (f64, f64), other: (f64, f64)) -> bool {
    (one.0 - other.0).abs() < 0.01 && (one.1 - other.1).abs() < 0.01
}

#[test]
fn the_faces_are_the_library_s() {
    let desk = Desk::new("faces-drawn");
    desk.put("plan.full", include_str!("../../../../examples/plan.full"));
    let sheet = Sheet::of(&desk.good("draw plan.full -q"));
    let side = sheet.side();
    let drawn: Vec<sheet::Figure> =
        sheet.figures("faces").into_iter().map(|f| f.iter().map(|(x, y)| (x / side, y / side)).collect()).collect();
    let mut told = 0;
    for line in desk.get("plan.full").lines().filter(|line| line.split('\t').nth(3) != Some("0")) {
        let point = line.split('\t').take(3).collect::<Vec<_>>().join(",");
        for face in desk.good(&format!("faces plan.full {point}")).lines() {
            let corners: Vec<(f64, f64)> = face.split('\t').map(place).collect();
            let same = |figure: &&sheet::Figure| figure.len() == 4 && corners.iter().all(|c| figure.iter().any(|other| near(*c, *other)));
            assert_eq!(drawn.iter().filter(same).count(), 1, "{face}");
            told += 1;
        }
    }
    assert_eq!((drawn.len(), told), (162, 67 * 3 + 42 * 4 + 9 * 5 + 22 * 6));
}

#[test]
fn a_mark_has_a_corner_for_each_neighbour() {
    let desk = Desk::with_plan("corners");
    let sheet = Sheet::of(&desk.good("draw plan.full -q"));
    let (side, marks, file) = (sheet.side(), sheet.figures("marks"), desk.get("plan.full"));
    let middle = |figure: &sheet::Figure| {
        let sum = figure.iter().fold((0.0, 0.0), |sum, corner| (sum.0 + corner.0, sum.1 + corner.1));
        (sum.0 / side / figure.len() as f64, sum.1 / side / figure.len() as f64)
    };
    for line in file.lines().filter(|line| line.split('\t').nth(3) != Some("0")) {
        let degree: usize = line.split('\t').nth(3).and_then(|field| field.parse().ok()).expect("a degree");
        let here = |figure: &&sheet::Figure| near(middle(figure), place(line));
        let corners: Vec<usize> = marks.iter().filter(here).map(Vec::len).collect();
        assert_eq!(corners, [degree], "{line}");
    }
}

#[test]
fn every_vertex_and_face_is_drawn_once() {
    let desk = Desk::with_plan("all-drawn");
    let sheet = Sheet::of(&desk.good("draw plan.full -q"));
    assert_eq!(sheet.moves("faces"), 21);
    assert_eq!(sheet.moves("marks"), 28 + 12); // at the rim a circle is drawn and then its middle
    let caption = sheet.texts("caption");
    let shown = [
        "28 vertices",
        "21 faces, 48 edges",
        "on the rim",
        "12",
        "with 3 neighbours",
        "6",
        "with 4 neighbours",
        "9",
        "with 6 neighbours",
        "1",
    ];
    assert!(shown.iter().all(|text| caption.iter().any(|other| other == text)), "{caption:?}");
}

#[test]
fn full_and_reduced_files_draw_alike() {
    let desk = Desk::with_plan("alike");
    for more in ["", "--html ", "--over base.full "] {
        assert_eq!(desk.good(&format!("draw plan.full {more}--title T -q")), desk.good(&format!("draw plan.reduced {more}--title T -q")));
    }
}

#[test]
fn an_a4_sheet_upright_or_lying() {
    let desk = Desk::new("a4");
    desk.put("wide.txt", (0..12).map(|i| format!("{}\t{}\n", 2 * i, -i)).collect::<String>());
    desk.put("high.txt", (0..12).map(|i| format!("{}\t{}\n", -i, 2 * i)).collect::<String>());
    for (name, width, height) in [("wide", "297mm", "210mm"), ("high", "210mm", "297mm")] {
        desk.good(&format!("lay {name}.txt -o {name}.full -q"));
        let sheet = Sheet::of(&desk.good(&format!("draw {name}.full -q")));
        assert_eq!((sheet.root("width"), sheet.root("height")), (width, height), "{name}");
    }
}

#[test]
fn an_older_plan_is_under_it() {
    let desk = Desk::with_plan("older");
    let sheet = Sheet::of(&desk.good("draw plan.full --over base.full -q"));
    assert_eq!((sheet.moves("older"), sheet.moves("faces")), (9, 21));
    let new = sheet.all("faces", "path").filter(|path| path.get("class").ends_with(" new"));
    assert_eq!(new.map(|path| path.get("d").matches('z').count()).sum::<usize>(), 18);
    let caption = sheet.texts("caption").join("|");
    for text in
        ["Older plan, 16 vertices|base.full", "new faces|18", "faces gone|6", "new vertices|12", "with another star|4", "as they were|12"]
    {
        assert!(caption.contains(text), "{text}: {caption}");
    }
    let back = Sheet::of(&desk.good("draw base.full --over plan.full -q")).texts("caption").join("|");
    assert!(back.contains("vertices gone|12") && back.contains("new faces|6") && back.contains("faces gone|18"), "{back}");
}

#[test]
fn titles_are_text() {
    let desk = Desk::with_plan("titles");
    let title = "<b>&\"'</title>\u{202E}é";
    let words = ["draw", "plan.full", "-q", "--title", title];
    let sheet = Sheet::of(&desk.run_words(words, b"").out);
    assert!(sheet.elements.iter().any(|e| e.name == "title" && e.text == "<b>&\"'</title>‹U+202E›é"));
    let page = desk.run_words(["draw", "plan.full", "-q", "--html", "--title", title], b"").out;
    assert!(page.contains("<h1>&lt;b&gt;&amp;&quot;&#39;&lt;/title&gt;‹U+202E›é</h1>") && !page.contains("<b>"));
    let longer = "A title that is set smaller, but is all there, to its very last word".to_string() + &" and on".repeat(8);
    let sheet = Sheet::of(&desk.run_words(["draw", "plan.full", "-q", "--title", &longer], b"").out);
    assert!(sheet.elements.iter().any(|e| e.name == "text" && e.text == longer));
    let long = "A very long title ".repeat(40);
    let sheet = Sheet::of(&desk.run_words(["draw", "plan.full", "-q", "--title", &long], b"").out);
    assert!(sheet.elements.iter().any(|e| e.name == "text" && e.text.ends_with('…')));
}

#[test]
fn names_of_files_are_text_and_take_one_line() {
    let desk = Desk::with_plan("names");
    let name = |first: u8| OsString::from_vec([vec![first], vec![0xFF, b'<', 1], vec![b'&'; 200]].concat());
    let [plan, older, list] = [b'p', b'o', b'l'].map(name);
    for (name, bytes) in [(&plan, desk.get("plan.full")), (&older, desk.get("base.full")), (&list, "1\t1\t0\t0\tpit\n".to_string())] {
        fs::write(desk.place.join(name), bytes).expect("a file for the test");
    }
    let words = |html: &str| {
        ["draw", "-q", html, "--over"].map(OsString::from).into_iter().chain([
            older.clone(),
            "--findings".into(),
            list.clone(),
            plan.clone(),
        ])
    };
    let sheet = Sheet::of(&desk.run_words(words("--quiet"), b"").out);
    assert!(sheet.texts("caption").iter().any(|text| text.starts_with("o‹FF›<‹01›&&") && text.ends_with('…')));
    assert!(sheet.side() > 20.0, "the plan is squeezed: {} mm a side", sheet.side());
    assert_eq!(Sheet::of_page(&desk.run_words(words("--html"), b"").out).moves("faces"), 21);
}

#[test]
fn a_page_stands_alone_and_its_script_is_small() {
    let desk = Desk::with_plan("alone");
    let page = desk.good("draw plan.full --html -q");
    let loads = ["src=", "href=", "url(", "@import", "fetch(", "https:", "import "];
    assert!(loads.iter().all(|word| !page.contains(word)) && page.matches("http:").count() == 1, "something is loaded");
    assert!(page.contains("default-src 'none'"));
    assert!(
        page.matches("@page").count() == 2 && page.contains("@page sheet {") && page.contains("@page list {"),
        "the sheet and the list"
    );
    let script = page.rsplit("<script>").next().and_then(|after| after.split("</script>").next()).expect("a script");
    assert!(script.lines().count() < 200, "{} lines of script", script.lines().count());
    assert_eq!(Sheet::of_page(&page).moves("faces"), 21);
}
