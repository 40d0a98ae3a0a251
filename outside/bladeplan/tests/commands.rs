//! Each subcommand on good, damaged and missing input: its output, its one line of refusal, its exit status.

mod common;

use common::{Desk, Ran, THREE};

const MISSING: &str = "no such: No such file or directory";
const NINE: &str = "refused with 9: that line of the file is malformed, or its record is not valid";
const ELEVEN: &str =
    "refused with 11: these records are no grown mesh: a vertex is missing, or something was changed by hand; also an empty file";
const TWELVE: &str = "refused with 12: a full file, or a mixture, where a reduced one belongs: it keeps a vertex that its neighbours imply";

/// What the worked example prints between two of its headings.
fn printed(from: &str, to: &str) -> String {
    let text = include_str!("../../../crates/plan/stdout");
    let after = text.split_once(&format!("{from}\n")).expect("the heading").1;
    after.split_once(&format!("{to}\n")).expect("the next heading").0.to_string()
}

#[test]
fn the_worked_example() {
    let desk = Desk::with_plan("worked");
    assert_eq!(desk.get("plan.full"), printed("full file", "reduced file"));
    assert_eq!(desk.get("plan.reduced"), printed("reduced file", "census of the plan"));
    let census = printed("census of the plan", "census of what the reduced file gives back");
    assert_eq!((desk.good("census plan.full"), desk.good("census plan.reduced")), (census.clone(), census));
}

#[test]
fn lay() {
    let desk = Desk::new("lay");
    let laid = desk.fed("lay -", b"0\t0\n");
    assert_eq!(laid.out, "-1\t0\t0\t0\t0\t0\n-1\t1\t0\t0\t0\t0\n0\t-1\t0\t0\t0\t0\n0\t0\t0\t3\t0\t0\n0\t1\t0\t0\t0\t0\n1\t-1\t0\t0\t0\t0\n1\t0\t0\t0\t0\t0\n");
    assert_eq!((laid.status, laid.err.as_str()), (0, "bladeplan: lay: 1 hexagon in, 7 vertices out\n"));
    desk.put("commented", format!("# three hexagons\n\n{THREE}"));
    assert_eq!(desk.run("lay commented").err, "bladeplan: lay: 3 hexagons in, 16 vertices out\n");
    assert_eq!(desk.run("lay commented --quiet").err, "");
    desk.put("from an editor", format!("\u{feff}{}", THREE.replace('\n', "\r\n").trim_end()));
    assert_eq!(desk.run_words(["lay", "from an editor"], b"").out, desk.good("lay commented"));
    let bad = "refused with 2: the list of hexagons is empty, odd, or has a bad centre; the place says which";
    for (list, place) in
        [("", "list"), ("# one\n0\t0\n\n1\t0\n", "list, line 4"), ("0\t0\n0\t0\n", "list, line 2"), ("251\t251\n", "list, line 1")]
    {
        desk.put("list", list);
        desk.refused("lay list", 2, &format!("{place}: {bad}"));
    }
    for list in ["0\t0\n0 0\n", "0\t0\n+1\t1\n", "0\t0\n1\t1\t0\n", "0\t0\n1\n", "0\t0\n01\t1\n", "0\t0\n\u{0}\n"] {
        desk.put("list", list);
        desk.refused("lay list", 9, &format!("list, line 2: {NINE}"));
    }
    desk.refused("lay nothing", 74, "nothing: No such file or directory");
}

#[test]
fn subdivide() {
    let desk = Desk::with_plan("subdivide");
    let once = desk.run("subdivide base.full 3,0,1 -o once.full");
    assert_eq!(once, Ran { status: 0, out: String::new(), err: "bladeplan: subdivide: 16 vertices in, 22 vertices out\n".to_string() });
    desk.put("list", "# the pit\n1,0\n\n1\t0\t0\n");
    assert_eq!(desk.good("subdivide base.full --list list"), desk.get("plan.full"));
    assert_eq!(desk.good("subdivide base.full 1,0 --list=list"), desk.good("subdivide plan.reduced 1,0"));
    let four = "refused with 4: the vertex has not got six neighbours yet";
    desk.refused("subdivide base.full 1,0 0,0,3 -o once.full", 4, &format!("base.full, point 0,0,3: {four}"));
    assert_eq!(desk.get("once.full").lines().count(), 22);
    desk.refused("subdivide base.full 5,5", 3, "base.full, point 5,5,0: refused with 3: no vertex stands at that point");
    desk.put("list", "1,0\n\n0,0\n");
    desk.refused("subdivide base.full 1,0 --list list", 4, &format!("base.full, point 0,0,0 (list, line 3): {four}"));
    desk.put("list", "1,0\n1,0,256\n");
    desk.refused("subdivide base.full --list list", 9, &format!("list, line 2: {NINE}"));
    desk.refused("subdivide base.full --list nothing", 74, "nothing: No such file or directory");
    let thirteen = format!("subdivide base.full {}", "1,0 ".repeat(13));
    desk.refused(&thirteen, 5, "base.full, point 1,0,0: refused with 5: it is subdivided as deep as it goes");
}

#[test]
fn refine() {
    let desk = Desk::with_plan("refine");
    desk.put("seven.txt", "0\t0\n1\t1\n-1\t2\n-2\t1\n-1\t-1\n1\t-2\n2\t-1\n");
    desk.good("lay seven.txt -o seven.full");
    let ran = desk.run("refine seven.full 0,0,2 1,0 0,0");
    let told = "bladeplan: refine: 0,0,2 took 3 subdivisions\nbladeplan: refine: 1,0,0 took none\nbladeplan: refine: 0,0,0 took none\n";
    assert_eq!((ran.status, ran.err), (0, format!("{told}bladeplan: refine: 31 vertices in, 49 vertices out\n")));
    assert_eq!(ran.out, desk.good("subdivide seven.full 1,0 -1,1 0,-1"));
    let finer = desk.run("refine seven.full 1,0 0,0 --subdivide -o seven.full");
    let told = "bladeplan: refine: 1,0,0 took 1 subdivision\nbladeplan: refine: 0,0,0 took 3 subdivisions\n";
    assert_eq!(finer.err, format!("{told}bladeplan: refine: 31 vertices in, 55 vertices out\n"));
    assert_eq!(desk.run("refine seven.full 0,0 --quiet").err, "");
    let sixteen = "refused with 16: what has to be subdivided first comes to a vertex at the rim, which has no star";
    desk.refused("refine base.full 1,0 0,0,3 -o base.full", 16, &format!("base.full, point 0,0,3: {sixteen}"));
    desk.refused("refine base.full 2,0", 14, "base.full, point 2,0,0: refused with 14: asked of a vertex at the rim, which has no star");
    desk.refused("refine base.full 5,5", 3, "base.full, point 5,5,0: refused with 3: no vertex stands at that point");
    desk.put("list", "1,0\n\n0,0\n");
    desk.refused("refine base.full --list list", 16, &format!("base.full, point 0,0,0 (list, line 3): {sixteen}"));
    let deep = format!("subdivide base.full {}-o deep.full", "1,0 ".repeat(12));
    desk.good(&deep);
    desk.refused("refine deep.full 1,0 --subdivide", 5, "deep.full, point 1,0,0: refused with 5: it is subdivided as deep as it goes");
    assert_eq!(desk.good("refine deep.full 1,0"), desk.get("deep.full"));
}

#[test]
fn queries() {
    let desk = Desk::with_plan("queries");
    assert_eq!(desk.good("neighbours plan.full 3,0,1"), "4,0,1\n3,1,1\n2,1,1\n2,0,1\n3,-1,1\n4,-1,1\n");
    let faces = desk.good("faces plan.reduced 1,0");
    assert_eq!(faces.lines().count(), 6);
    assert_eq!(faces.lines().next(), Some("1,0,0\t4,0,1\t4,1,1\t3,1,1"));
    for ask in ["neighbours", "faces"] {
        desk.refused(&format!("{ask} plan.full 5,5"), 3, "plan.full, point 5,5,0: refused with 3: no vertex stands at that point");
        desk.refused(
            &format!("{ask} plan.full 2,0"),
            14,
            "plan.full, point 2,0,0: refused with 14: asked of a vertex at the rim, which has no star",
        );
    }
}

#[test]
fn points_without_a_plan() {
    let desk = Desk::new("points");
    assert_eq!(desk.good("normalise 3,0,1 9,-18,3 0,0,6 -1,0"), "1,0,0\n1,-2,1\n0,0,0\n-1,0,0\n");
    assert_eq!(desk.good("star 0,0,0,6,1,1").lines().take(3).collect::<Vec<_>>(), ["1,1,1", "-1,2,1", "-2,1,1"]);
    desk.refused("star 0,0,0,6,1,0", 9, &format!("record 0,0,0,6,1,0: {NINE}"));
    desk.refused("star 0,0,0,0,0,0", 14, "record 0,0,0,0,0,0: refused with 14: asked of a vertex at the rim, which has no star");
    assert_eq!(desk.run_words(["star", "1\t0\t0\t6\t0\t0"], b"").out.lines().count(), 6);
}

#[test]
fn reduce_and_restore() {
    let desk = Desk::with_plan("convert");
    let (full, reduced) = (desk.get("plan.full"), desk.get("plan.reduced"));
    for plan in ["plan.full", "plan.reduced"] {
        assert_eq!((desk.good(&format!("reduce {plan}")), desk.good(&format!("restore {plan}"))), (reduced.clone(), full.clone()));
    }
    assert_eq!(desk.run("reduce plan.full").err, "bladeplan: reduce: 28 vertices in, 28 vertices out on 22 lines\n");
    assert_eq!(desk.run("restore plan.reduced").err, "bladeplan: restore: 28 vertices in on 22 lines, 28 vertices out\n");
}

#[test]
fn check() {
    let desk = Desk::with_plan("check");
    let sums = "3 hexagons and 2 subdivisions fit together: V = 16 + 6*2 = 28, E = 24 + 12*2 = 48, F = 3*3 + 6*2 = 21";
    let counts = format!("28 vertices, 48 edges, 21 faces\n{sums}");
    assert_eq!(desk.good("check plan.full"), format!("plan.full is a full file\nas a reduced file it is {TWELVE}\n28 lines: {counts}\n"));
    assert_eq!(
        desk.good("check plan.reduced"),
        format!("plan.reduced is a reduced file\nas a full file it is {ELEVEN}\n22 lines: {counts}\n")
    );
    let alone = desk.fed("lay - -q", b"0\t0\n").out;
    let both = "standard input is a full file, and a reduced one as well: no vertex can be left out of it\n7 lines: 7 vertices, 9 edges, 3 faces\n";
    let sums = "1 hexagon and 0 subdivisions fit together: V = 7 + 6*0 = 7, E = 9 + 12*0 = 9, F = 3*1 + 6*0 = 3\n";
    assert_eq!(desk.fed("check -", alone.as_bytes()).out, format!("{both}{sums}"));
}

/// Every command that takes a plan refuses what is none alike.
#[test]
fn plans_that_are_none() {
    let desk = Desk::with_plan("none");
    let full = desk.get("plan.full");
    let without = |line: &str| full.replace(line, "");
    let mixture = desk.get("plan.reduced").replace("2\t-1\t1\t4\t5\t1\n", "2\t-1\t1\t4\t5\t1\n2\t0\t1\t3\t0\t2\n");
    let ten = "refused with 10: that line does not come after the one before it: the file is out of order, or has a point twice";
    let cases = [
        ("", 11, format!("bad: neither a full file nor a reduced one, {ELEVEN}")),
        ("\n", 9, format!("bad, line 1: neither a full file nor a reduced one, {NINE}")),
        (&full.replace("\n1\t0\t0\t6", "\n1\t0\t0\t7"), 9, format!("bad, line 8: neither a full file nor a reduced one, {NINE}")),
        (&full[..full.len() - 1], 9, format!("bad, line 28: neither a full file nor a reduced one, {NINE}")),
        (&full.repeat(2), 10, format!("bad, line 29: neither a full file nor a reduced one, {ten}")),
        (&without("-1\t0\t0\t0\t0\t0\n"), 11, format!("bad: neither a full file nor a reduced one, {ELEVEN}")),
        (&mixture, 12, format!("bad: not a full file, {ELEVEN}; not a reduced file, {TWELVE}")),
    ];
    for (bytes, status, line) in cases {
        desk.put("bad", bytes);
        for command in ["subdivide bad 1,0", "neighbours bad 1,0", "faces bad 1,0", "reduce bad", "restore bad", "census bad", "check bad"]
        {
            desk.refused(command, status, &line);
        }
        desk.refused("compare bad plan.full", status, &line);
        desk.refused("findings bad list.txt", status, &line);
        desk.refused("compare plan.full bad", status, &line);
    }
}

#[test]
fn plans_that_are_missing() {
    let desk = Desk::with_plan("missing");
    for command in [
        "subdivide PLAN 1,0",
        "neighbours PLAN 1,0",
        "faces PLAN 1,0",
        "reduce PLAN",
        "census PLAN",
        "check PLAN",
        "compare PLAN plan.full",
        "findings PLAN list.txt",
    ] {
        let words: Vec<&str> = command.split(' ').map(|word| if word == "PLAN" { "no such" } else { word }).collect();
        assert_eq!(desk.run_words(words, b""), Ran { status: 74, out: String::new(), err: format!("bladeplan: {MISSING}\n") });
    }
    desk.refused("restore .", 74, ".: Is a directory");
}

#[test]
fn compare() {
    let desk = Desk::with_plan("compare");
    assert_eq!(
        desk.good("compare base.full plan.reduced"),
        "16\tin both\n4\tof these with another star\n0\tonly in base.full\n12\tonly in plan.reduced\n"
    );
    assert_eq!(
        desk.good("compare plan.full plan.reduced"),
        "28\tin both\n0\tof these with another star\n0\tonly in plan.full\n0\tonly in plan.reduced\n"
    );
    let listed = desk.run("compare plan.full base.full --list");
    assert_eq!(listed.err, "bladeplan: compare: 16 in both, 4 of these with another star, 12 only in OLD, 0 only in NEW\n");
    let lines: Vec<&str> = listed.out.lines().collect();
    let count = |word: &str| lines.iter().filter(|line| line.split('\t').next() == Some(word)).count();
    assert_eq!(["same", "changed", "old", "new"].map(count), [12, 4, 12, 0]);
    assert!(lines.contains(&"changed\t1,0,0\t6,0,2\t6,0,0") && lines.contains(&"old\t4,0,1\t3,2,2\t-"));
}
