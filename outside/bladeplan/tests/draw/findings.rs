//! Findings are counted in and counted out: on the sheet in boxes or in the caption, on the page in the list; and their notes are text.

use crate::common::{Desk, FIFTEEN};
use crate::sheet::Sheet;
use crate::xml;

/// Repeated numbers and points, a point spelled in other ways, the rim, and four lost: far off, too deep, beside the mesh, out of range.
const LIST: &str = "7\t3\t0\t1\tpit\n3\t9\t9\t0\tgone\n8\t1\t0\t0\t\n2\t-1\t0\t0\trim\n7\t531441\t0\t12\tonce more\n7\t1\t0\t0\tpit\n\
                    40\t1\t0\t12\ttoo deep\n41\t7\t0\t2\tbeside\n999999\t-1000000\t1000000\t0\tout of range\n5\t6\t6\t2\t<b>&amp;</b>\n";
const AT_A_VERTEX: [&str; 6] = ["2", "5", "7", "7", "7", "8"];
const LOST: [&str; 4] = ["3", "40", "41", "999999"];

#[test]
fn each_comes_in_and_goes_out() {
    let desk = Desk::with_plan("counted");
    desk.put("list.txt", LIST);
    let ran = desk.run("draw plan.full --findings list.txt");
    assert_eq!(
        ran.err,
        "bladeplan: plan.full: 28 vertices in, 28 drawn\nbladeplan: list.txt: 10 findings in; 6 at a vertex, 4 with no vertex\n"
    );
    let sheet = Sheet::of(&ran.out);
    let mut boxes: Vec<String> = sheet.texts("findings").iter().flat_map(|text| text.split(", ")).map(str::to_string).collect();
    boxes.sort();
    assert_eq!(boxes, AT_A_VERTEX);
    let caption = sheet.texts("caption");
    let from = caption.iter().position(|text| text == "4 findings with no vertex in this plan:").expect("the lost are listed");
    let lost: Vec<&str> = caption[from + 1..].iter().filter_map(|text| text.split("  ").next()).collect();
    assert_eq!(lost, LOST);
    assert_eq!(caption[from + 1], "3  9,9,0  gone");
    assert_eq!(sheet.all("findings", "rect").count(), 3); // three vertices have findings
}

#[test]
fn the_page_lists_the_lost_first() {
    let desk = Desk::with_plan("listed");
    desk.put("list.txt", LIST);
    let page = desk.good("draw plan.full --findings list.txt --html -q");
    let entries: Vec<&str> = page.split("<span class=\"number\">").skip(1).filter_map(|after| after.split('<').next()).collect();
    assert_eq!(entries, ["3", "40", "41", "999999", "7", "8", "2", "7", "7", "5"]);
    assert!(page.contains("<h2 class=\"lost\">4 findings with no vertex</h2>") && page.contains("<h2>6 findings at 3 vertices</h2>"));
    assert!(page.contains("1,0,0, written 531441,0,12") && page.contains("&lt;b&gt;&amp;amp;&lt;/b&gt;") && !page.contains("<b>"));
}

#[test]
fn many_lost_go_on_further_pages() {
    let desk = Desk::with_plan("many-lost");
    desk.put("list.txt", (1..=500).map(|i| format!("{i}\t900\t{i}\t0\tlost {i}\n")).collect::<String>());
    let sheet = Sheet::of(&desk.good("draw plan.full --findings list.txt -q"));
    let height: f64 = sheet.root("height").trim_end_matches("mm").parse().expect("a height");
    let width: f64 = sheet.root("width").trim_end_matches("mm").parse().expect("a width");
    let one = if width == 210.0 { 297.0 } else { 210.0 };
    assert!(height > one && height % one == 0.0, "{height}");
    let caption = sheet.texts("caption");
    assert!((1..=500).all(|i| caption.contains(&format!("{i}  900,{i},0  lost {i}"))));
    assert!(caption.contains(&"with no vertex: next page".to_string()));
    let lowest = sheet.all("caption", "text").map(|text| text.get("y").parse::<f64>().expect("a place")).fold(0.0, f64::max);
    assert!(lowest < height - 10.0);
}

#[test]
fn notes_are_any_bytes() {
    let desk = Desk::with_plan("bytes");
    let bytes: Vec<u8> = (0..=255).filter(|byte| *byte != b'\t' && *byte != b'\n').collect();
    let mut list = Vec::new();
    for (i, note) in bytes.chunks(80).enumerate() {
        for point in ["1\t0\t0", "99\t0\t0"] {
            list.extend(format!("{}\t{point}\t", i + 1).bytes().chain(note.iter().copied()).chain([b'\n']));
        }
    }
    desk.put("list.txt", &list);
    let sheet = Sheet::of(&desk.good("draw plan.full --findings list.txt -q"));
    let caption = sheet.texts("caption").concat().replace(' ', "");
    let page = desk.good("draw plan.full --findings list.txt --html -q");
    for byte in bytes.iter().filter(|byte| **byte < 32 || **byte >= 127) {
        let shown = format!("‹{byte:02X}›");
        assert!(caption.contains(&shown) && page.matches(&shown).count() >= 2, "{shown}");
    }
    let text: String = (33..127u8).map(char::from).collect();
    assert!(caption.contains(&text[..40]) && caption.contains("&'()*+,-./"));
    let aside = page.split("<aside>").nth(1).and_then(|after| after.split("</aside>").next()).expect("a list");
    assert!(aside.contains("!&quot;#$%&amp;&#39;()*+,-./0123456789:;&lt;=&gt;?@") && aside.matches("<li>").count() == 8);
    assert!(!page.bytes().any(|byte| byte < 32 && byte != b'\n'), "a control character");
}

#[test]
fn what_is_no_finding_is_refused() {
    let desk = Desk::with_plan("no-finding");
    desk.put("list.txt", "1\t0\t0\t0\tgood\n2\t0\t0\tshort\n");
    desk.put("old.svg", "old");
    desk.refused("draw plan.full --findings list.txt -o old.svg", 15, &format!("list.txt, line 2: {FIFTEEN}"));
    assert_eq!(desk.get("old.svg"), "old");
    desk.refused("draw plan.full --findings missing.txt", 74, "missing.txt: No such file or directory");
    desk.put("empty.txt", "");
    let sheet = Sheet::of(&desk.good("draw plan.full --findings empty.txt -q"));
    assert!(sheet.texts("caption").contains(&"0 findings".to_string()));
}

#[test]
fn a_thousand_findings_in_one_place_are_all_there() {
    let desk = Desk::with_plan("heap");
    desk.put("list.txt", (1..=1000).map(|i| format!("{i}\t1\t0\t0\tpit\n")).collect::<String>());
    let svg = desk.good("draw plan.full --findings list.txt -q");
    xml::parse(&svg).expect("XML");
    let boxes: Vec<String> = Sheet::of(&svg).texts("findings").iter().flat_map(|text| text.split(", ")).map(str::to_string).collect();
    assert_eq!(boxes, (1..=1000).map(|i| i.to_string()).collect::<Vec<_>>());
}
