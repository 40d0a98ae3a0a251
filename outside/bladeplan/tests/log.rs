//! Logs: kept by lay, subdivide and refine; replayed; a plan checked by one; and logs that do not fit.

mod common;

use common::{Desk, THREE};

const TWENTY_ONE: &str =
    "refused with 21: no subdivisions of these hexagons, one after the other, leave that: the line says which cannot be, or it is another plan's log";

/// Three hexagons laid with a log, and the vertex between them subdivided twice.
fn logged(name: &str) -> Desk {
    let desk = Desk::new(name);
    desk.put("three.txt", THREE);
    desk.good("lay three.txt -o plan.full --log plan.log -q");
    desk.good("subdivide plan.full 1,0 3,0,1 -o plan.full --log plan.log -q");
    desk
}

#[test]
fn a_log_is_kept_and_replayed() {
    let desk = logged("log");
    assert_eq!(desk.get("plan.log"), format!("{THREE}1\t0\t0\t0\n1\t0\t0\t1\n"));
    let replayed = desk.run("replay plan.log -o again.full");
    assert_eq!((replayed.status, replayed.err.as_str()), (0, "bladeplan: replay: 3 hexagons and 2 subdivisions in, 28 vertices out\n"));
    assert_eq!(desk.get("again.full"), desk.get("plan.full"));
    // without -o the plan goes to standard output, and the log still grows with it
    let finer = desk.good("subdivide plan.full 1,0,0 --log plan.log -q");
    assert_eq!(desk.good("replay plan.log -q"), finer);
    // what people wrote into it stays
    desk.put("plan.log", format!("# three\n\n{THREE}# the pit at 1,0\n3\t0\t1\t0\n1\t0\t0\t1"));
    desk.good("subdivide plan.full 1,0,0 -o finer.full --log plan.log -q");
    assert_eq!(desk.get("plan.log"), format!("# three\n\n{THREE}# the pit at 1,0\n3\t0\t1\t0\n1\t0\t0\t1\n1\t0\t0\t2\n"));
    assert_eq!(desk.get("finer.full"), finer);
    desk.put("one.txt", "0\t0\n");
    desk.good("lay one.txt -o one.full --log plan.log -q");
    assert_eq!(desk.get("plan.log"), "0\t0\n");
    assert_eq!(desk.fed("replay - -q", b"# one hexagon\n\n0\t0\n").out, desk.get("one.full"));
    assert_eq!(desk.files(), ["again.full", "finer.full", "one.full", "one.txt", "plan.full", "plan.log", "three.txt"]);
}

#[test]
fn refining_is_logged_level_by_level() {
    let desk = Desk::new("log-refine");
    desk.put("seven.txt", "0\t0\n1\t1\n-1\t2\n-2\t1\n-1\t-1\n1\t-2\n2\t-1\n");
    desk.good("lay seven.txt -o plan.full --log plan.log -q");
    desk.good("refine plan.full 0,0 --subdivide -o plan.full --log plan.log -q");
    let made: Vec<String> = desk.get("plan.log").lines().skip(7).map(str::to_string).collect();
    assert_eq!(made, ["-1\t1\t0\t0", "0\t-1\t0\t0", "1\t0\t0\t0", "0\t0\t0\t1"]);
    desk.good("refine plan.full 0,0 --subdivide -o plan.full --log plan.log -q");
    assert_eq!(desk.good("replay plan.log -q"), desk.get("plan.full"));
    assert!(desk.good("check plan.full --log plan.log").ends_with(" vertices are so\n"));
}

#[test]
fn passes_round_outlines_are_logged() {
    let desk = logged("log-passes");
    desk.good("refine plan.full --disc 1,0,0.3 --line 0,1,0.2 --passes 3 -o plan.full --log plan.log -q");
    assert!(desk.get("plan.log").starts_with(&format!("{THREE}1\t0\t0\t0\n1\t0\t0\t1\n1\t0\t0\t2\n")));
    assert_eq!(desk.good("replay plan.log -q"), desk.get("plan.full"));
    assert!(desk.good("check plan.full --log plan.log").ends_with(" vertices are so\n"));
    let (plan, log) = (desk.get("plan.full"), desk.get("plan.log"));
    assert_eq!(desk.run("refine plan.full --disc 1,0,0 -o plan.full --log plan.log").status, 17);
    assert_eq!((desk.get("plan.full"), desk.get("plan.log")), (plan, log));
}

#[test]
fn a_plan_is_checked_by_its_log() {
    let desk = logged("log-check");
    let told = desk.good("check plan.full --log plan.log");
    assert_eq!(told.lines().last(), Some("by the log, 3 hexagons and 2 subdivisions, without a table: 28 of 28 vertices are so"));
    assert!(told.starts_with(&desk.good("check plan.full")));
    desk.good("lay three.txt -o base.full -q");
    let other = desk.run("check base.full --log plan.log");
    assert_eq!((other.status, other.err.as_str()), (21, format!("bladeplan: plan.log, line 4: {TWENTY_ONE}\n").as_str()));
    assert_eq!(other.out.lines().last(), Some("by the log, 3 hexagons and 2 subdivisions, without a table: 12 of 28 vertices are so"));
    for line in
        ["subdivide base.full 1,0 --log plan.log", "refine base.full 1,0 --log plan.log", "refine base.full --disc 1,0,0.3 --log plan.log"]
    {
        desk.refused(line, 21, &format!("plan.log, line 4: {TWENTY_ONE}"));
    }
    // a log that ends too early, and one of other hexagons
    desk.put("early.log", format!("{THREE}1\t0\t0\t0\n"));
    desk.refused("subdivide plan.full 1,0 --log early.log", 21, &format!("early.log: {TWENTY_ONE}"));
    desk.put("four.log", format!("{THREE}# one more\n3\t0\n"));
    desk.refused("subdivide plan.full 1,0 --log four.log", 21, &format!("four.log, line 5: {TWENTY_ONE}"));
    desk.refused("subdivide plan.full 1,0 --log nothing", 74, "nothing: No such file or directory");
    // what is refused leaves plan and log as they were
    let (plan, log) = (desk.get("plan.full"), desk.get("plan.log"));
    assert_eq!(desk.run("subdivide plan.full 1,0 0,0 -o plan.full --log plan.log").status, 4);
    assert_eq!((desk.get("plan.full"), desk.get("plan.log")), (plan, log));
}

#[test]
fn logs_that_do_not_fit() {
    let desk = Desk::new("log-wrong");
    let nine = "refused with 9: that line of the file is malformed, or its record is not valid";
    let two = "refused with 2: the list of hexagons is empty, odd, or has a bad centre; the place says which";
    for (more, line) in [
        ("1\t0\t0\t1\n", 4),
        ("1\t0\t0\t0\n# again\n1\t0\t0\t0\n", 6),
        ("1\t0\t0\t0\n1\t0\t0\t1\n1\t0\t0\t3\n1\t0\t0\t2\n", 6),
        ("0\t0\t0\t0\n", 4),
        ("5\t5\t0\t0\n", 4),
        ("1\t0\t0\t12\n", 4),
    ] {
        desk.put("log", format!("{THREE}{more}"));
        desk.refused("replay log", 21, &format!("log, line {line}: {TWENTY_ONE}"));
    }
    for (more, line) in
        [("1\t0\n", 4), ("1\t0\t0\n", 4), ("1\t0\t0\t0\n3\t0\n", 5), ("1\t0\t256\t0\n", 4), ("1\t0\t0\t-1\n", 4), ("x\n", 4)]
    {
        desk.put("log", format!("{THREE}{more}"));
        let (status, what) = if more == "1\t0\n" { (2, two) } else { (9, nine) };
        desk.refused("replay log", status, &format!("log, line {line}: {what}"));
    }
    desk.put("log", "");
    desk.refused("replay log", 2, &format!("log: {two}"));
    desk.refused("replay nothing", 74, "nothing: No such file or directory");
}
