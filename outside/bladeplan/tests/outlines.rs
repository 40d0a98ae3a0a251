//! `refine` round outlines, and outlines on a drawing: pass by pass told, in the order typed, whole or not at all.

mod common;

use common::{Desk, Ran};

const SEVENTEEN: &str = "refused with 17: a number of the outline is not finite or beyond 1,000 either way, its radius is not above 0, or the passes or the level are over 12";

/// The numbers before these words in the lines of standard error.
fn told(ran: &Ran, word: &str) -> Vec<usize> {
    let before = |line: &str| line.split(word).next().and_then(|text| text.rsplit(' ').next()).and_then(|text| text.parse().ok());
    ran.err.lines().filter(|line| line.contains(word)).filter_map(before).collect()
}

#[test]
fn each_pass_is_told() {
    let desk = Desk::with_plan("passes");
    let ran = desk.run("refine base.full --disc 1,0,0.3 --passes 4 -o fine.full");
    assert_eq!(ran.status, 0, "{}", ran.err);
    let (listed, now) = (told(&ran, " listed"), told(&ran, " vertices now"));
    assert_eq!((listed.len(), now.len()), (4, 4));
    let mut vertices = 16;
    for (listed, now) in listed.iter().zip(&now) {
        vertices += 6 * listed;
        assert_eq!(vertices, *now);
    }
    assert!(ran.err.starts_with(
        "bladeplan: refine: disc 1,0,0.3, pass 1: 1 listed, 22 vertices now\nbladeplan: refine: disc 1,0,0.3, pass 2: 1 listed, 28 vertices now\n"
    ));
    assert!(ran.err.ends_with(&format!("bladeplan: refine: 16 vertices in, {vertices} vertices out\n")));
    assert_eq!(desk.get("fine.full").lines().count(), vertices);
    assert!(desk.good("check fine.full").starts_with("fine.full is a full file\n"));
    // what two subdivisions of the vertex make, two passes make
    desk.good("refine base.full --disc 1,0,0.3 --passes 2 -o twice.full -q");
    assert_eq!(desk.get("twice.full"), desk.get("plan.full"));
    let none = desk.run("refine base.full --disc 1,0,0.3 --passes 0");
    assert_eq!((none.status, none.out), (0, desk.get("base.full")));
    assert_eq!(desk.good("refine base.full --disc 1,0,0.3 --level 0 -q"), desk.get("base.full"));
}

#[test]
fn in_the_order_typed() {
    let desk = Desk::with_plan("typed");
    desk.put("score.txt", "# a score\nline 0,1,0.4\n");
    let ran = desk.run("refine base.full --line -0.5,1,.2 --outlines score.txt --disc 1,0,0.3 --level 3 -o one.full");
    let outlines: Vec<&str> = ran.err.lines().filter_map(|line| line.split("refine: ").nth(1)?.split(", pass").next()).collect();
    assert_eq!(outlines[..3], ["line -0.5,1,.2", "line 0,1,0.4 (score.txt, line 2)", "disc 1,0,0.3"]);
    desk.put("all.txt", "line -0.5,1,.2\nline\t0\t1\t0.4\ndisc 1, 0, 0.3\n");
    desk.good("refine base.full --outlines all.txt --level 3 -o other.full -q");
    assert_eq!(desk.get("one.full"), desk.get("other.full"));
    for line in ["disc 1,0\n", "ring 1,0,1\n", "line 0,1,2,3\n"] {
        desk.put("bad.txt", format!("disc 1,0,1\n{line}"));
        let nine = "bad.txt, line 2: refused with 9: that line of the file is malformed, or its record is not valid";
        desk.refused("refine base.full --outlines bad.txt", 9, nine);
    }
}

#[test]
fn a_refused_pass_leaves_the_file() {
    let desk = Desk::new("left");
    // 64,457 vertices, so that 1,079 slots are free in the largest table
    let centres = (-70..=70).flat_map(|i| (-75..=75).map(move |j| (i + 2 * j, i - j)));
    desk.put("sheet.txt", centres.map(|(a, b)| format!("{a}\t{b}\n")).collect::<String>());
    desk.good("lay sheet.txt -o sheet.full -q");
    let before = desk.get("sheet.full");
    let ran = desk.run("refine sheet.full --disc 1,0,5 --disc 0,0,60 --passes 2 -o sheet.full");
    assert_eq!((ran.status, ran.out.as_str()), (8, ""), "{}", ran.err);
    assert!(desk.get("sheet.full") == before);
    let (lines, last) = (ran.err.lines().count(), ran.err.lines().last().expect("a line"));
    assert_eq!((told(&ran, " listed").len(), lines), (2, 3), "{}", ran.err);
    assert!(last.starts_with("bladeplan: sheet.full, disc 0,0,60, pass 1: refused with 8"), "{last}");
    assert_eq!(desk.run("refine sheet.full --disc 0,0,60 -q -o sheet.full").err.lines().count(), 1);
}

#[test]
fn what_is_out_of_range() {
    let desk = Desk::with_plan("range");
    for outline in ["disc 1,0,0", "disc 1,0,-0", "disc nan,0,1", "disc 1001,0,1", "line inf,0,1", "line 0,1,-1000.0000000000001"] {
        let (kind, numbers) = outline.split_once(' ').expect("two words");
        for passes in [0, 3] {
            let line = format!("refine plan.full --{kind} {numbers} --passes {passes} -o plan.full");
            desk.refused(&line, 17, &format!("plan.full, {outline}: {SEVENTEEN}"));
        }
        desk.refused(&format!("draw plan.full --{kind} {numbers}"), 17, &format!("plan.full, {outline}: {SEVENTEEN}"));
    }
    for more in ["--passes 13", "--level 13", "--passes 999999999999"] {
        desk.refused(&format!("refine plan.full --disc 1,0,1 {more}"), 17, &format!("plan.full, disc 1,0,1: {SEVENTEEN}"));
    }
    assert_eq!(desk.run("refine plan.full --disc 1,0,1 --passes 1e3").status, 64);
}

#[test]
fn outlines_are_drawn() {
    let desk = Desk::with_plan("drawn");
    desk.put("list.txt", "disc 1,0,0.3\nline 0,1,0.4\n");
    let ran = desk.run("draw plan.full --disc 900,0,1 --outlines list.txt");
    assert_eq!(ran.err, "bladeplan: plan.full: 28 vertices in, 28 drawn\nbladeplan: 3 outlines in; 2 on the plan, 1 beside it\n");
    let group = ran.out.split("<g id=\"outlines\"").nth(1).and_then(|rest| rest.split("</g>").next()).expect("a group of outlines");
    assert_eq!((group.matches("<circle ").count(), group.matches("<path ").count()), (1, 1));
    assert!(ran.out.contains(">3 outlines</text>"));
    assert!(!desk.good("draw plan.full -q").contains("outlines"));
    assert!(desk.good("draw plan.full --disc 1,0,0.3 --html -q").contains("<g id=\"outlines\""));
}
