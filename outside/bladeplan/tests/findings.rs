//! `findings`: the list joined with a plan, what is told of it, and its refusals.

mod common;

use common::{Desk, Ran, FIFTEEN};
use std::fs;

const LIST: &str = "7\t3\t0\t1\tpit\n3\t9\t9\t0\tgone\n8\t1\t0\t0\t\n2\t-1\t0\t0\trim\n";
const JOINED: &str = "-1\t0\t0\t2\trim\n1\t0\t0\t7\tpit\n1\t0\t0\t8\t\n?\t3\tgone\n";

fn with_list(name: &str) -> Desk {
    let desk = Desk::with_plan(name);
    desk.put("list.txt", LIST);
    desk
}

#[test]
fn joined_and_counted() {
    let desk = with_list("joined");
    for plan in ["base.full", "plan.full", "plan.reduced"] {
        let ran = desk.run(&format!("findings {plan} list.txt"));
        let err = "bladeplan: list.txt: 4 findings in; 3 at a vertex, 1 with no vertex\n";
        assert_eq!(ran, Ran { status: 0, out: JOINED.to_string(), err: err.to_string() });
    }
    assert_eq!(desk.run("findings plan.full list.txt --quiet").err, "");
    desk.put("empty.txt", "");
    let none = desk.run("findings plan.full empty.txt");
    assert_eq!((none.out.as_str(), none.err.as_str()), ("", "bladeplan: empty.txt: 0 findings in; 0 at a vertex, 0 with no vertex\n"));
}

/// Every line comes out once: vertices in the order of the full file, at each the list's order; the lost last.
#[test]
fn vertex_by_vertex() {
    let desk = Desk::with_plan("by-vertex");
    let plan = desk.get("plan.full");
    let points: Vec<String> = plan.lines().map(|line| line.split('\t').take(3).collect::<Vec<_>>().join("\t")).collect();
    let list = points.iter().rev().map(|point| format!("8\t{point}\tpit\n7\t900\t0\t0\tfar off {point:?}\n6\t{point}\t\n"));
    let lost = points.iter().rev().map(|point| format!("?\t7\tfar off {point:?}\n"));
    let wanted = points.iter().map(|point| format!("{point}\t8\tpit\n{point}\t6\t\n")).chain(lost);
    desk.put("list.txt", list.collect::<String>());
    assert_eq!(desk.good("findings plan.full list.txt"), wanted.collect::<String>());
}

#[test]
fn piped_and_into_a_file() {
    let desk = with_list("piped");
    let piped = desk.fed("findings plan.full -", LIST.as_bytes());
    assert_eq!(piped.out, JOINED);
    assert_eq!(piped.err, "bladeplan: standard input: 4 findings in; 3 at a vertex, 1 with no vertex\n");
    assert_eq!(desk.fed("findings - list.txt", desk.get("plan.reduced").as_bytes()).out, JOINED);
    assert_eq!(desk.good("findings plan.full list.txt -o joined.txt"), "");
    assert_eq!(desk.get("joined.txt"), JOINED);
    desk.good("findings plan.full list.txt -o list.txt");
    assert_eq!(desk.get("list.txt"), JOINED);
    assert_eq!(desk.run("findings plan.full - -o - -q").status, 0);
}

#[test]
fn notes_are_bytes() {
    let desk = Desk::with_plan("note-bytes");
    let note: Vec<u8> = (0..=255).filter(|byte| !b"\t\n".contains(byte)).skip(100).take(80).collect();
    desk.put("list.txt", [b"7\t1\t0\t0\t\0\r\n8\t1\t0\t0\t", &note[..], b"\n"].concat());
    desk.good("findings plan.full list.txt -o joined.txt -q");
    let joined = fs::read(desk.place.join("joined.txt")).expect("the joined list");
    assert_eq!(joined, [b"1\t0\t0\t7\t\0\r\n1\t0\t0\t8\t", &note[..], b"\n"].concat());
}

#[test]
fn lines_that_are_no_finding() {
    let desk = with_list("no-finding");
    desk.put("joined.txt", "the old one");
    let long = format!("1\t0\t0\t0\t{}\n", "x".repeat(81));
    for bad in [
        "\n",
        "1\t0\t0\t0\n",
        "1\t0\t0\t0\tx",
        "0\t0\t0\t0\t\n",
        "1000000\t0\t0\t0\t\n",
        "1\t-0\t0\t0\t\n",
        "1\t01\t0\t0\t\n",
        "1\t+1\t0\t0\t\n",
        "1\t0\t1000001\t0\t\n",
        "1\t0\t0\t13\t\n",
        "1\t0\t0\t0\ta\tb\n",
        "1\t\t0\t0\t\n",
        "# a comment\n",
        "1,0,0,0,pit\n",
        &long,
    ] {
        desk.put("list.txt", format!("{LIST}{bad}"));
        desk.refused("findings plan.full list.txt -o joined.txt", 15, &format!("list.txt, line 5: {FIFTEEN}"));
        desk.refused("draw plan.full --findings list.txt -o joined.txt", 15, &format!("list.txt, line 5: {FIFTEEN}"));
    }
    assert_eq!(desk.get("joined.txt"), "the old one");
    let piped = desk.fed("findings plan.full -", b"1\n");
    assert_eq!((piped.status, piped.err), (15, format!("bladeplan: standard input, line 1: {FIFTEEN}\n")));
}

#[test]
fn inputs_that_are_missing_or_damaged() {
    let desk = with_list("damaged");
    desk.refused("findings plan.full nothing", 74, "nothing: No such file or directory");
    desk.refused("findings nothing list.txt", 74, "nothing: No such file or directory");
    desk.refused("findings plan.full .", 74, ".: Is a directory");
    desk.put("bad", desk.get("plan.full").replace("\n1\t0\t0\t6", "\n1\t0\t0\t7"));
    let nine = "bad, line 8: neither a full file nor a reduced one, refused with 9: that line of the file is malformed, or its record is not valid";
    desk.refused("findings bad list.txt", 9, nine);
    desk.refused("findings plan.full /dev/zero", 74, "/dev/zero: a list of over 64 MiB");
}

/// No file longer than a few blocks can be written: the old one is whole.
#[test]
fn a_write_that_fails_half_way_leaves_the_old_file() {
    let desk = with_list("half-joined");
    desk.put("list.txt", LIST.repeat(200));
    desk.put("joined.txt", "the old one");
    let failed = desk.shell("trap '' XFSZ; ulimit -f 1; exec \"$0\" findings plan.full list.txt -o joined.txt");
    assert_eq!(failed, Ran { status: 74, out: String::new(), err: "bladeplan: joined.txt: File too large\n".to_string() });
    assert_eq!(desk.get("joined.txt"), "the old one");
    assert_eq!(desk.files(), ["base.full", "joined.txt", "list.txt", "plan.full", "plan.reduced", "three.txt"]);
}

/// What a drawing shows is what the joined list says: as many at a vertex, as many lost.
#[test]
fn draw_goes_by_the_same_call() {
    let desk = Desk::with_plan("same-call");
    desk.put("list.txt", LIST.to_string() + "3\t1\t0\t0\tgone\n7\t99\t0\t0\tpit\n1\t531441\t0\t12\t\n");
    let told = "bladeplan: list.txt: 7 findings in; 5 at a vertex, 2 with no vertex\n";
    assert_eq!(desk.run("findings plan.full list.txt").err, told);
    assert!(desk.run("draw plan.full --findings list.txt").err.ends_with(told));
}
