//! `salvage`: what is left of an old file, what is told of it, and its refusals.

mod common;

use common::{Desk, Ran};

const ELEVEN: &str =
    "refused with 11: these records are no grown mesh: a vertex is missing, or something was changed by hand; also an empty file";
const TWENTY: &str = "refused with 20: one point has two different records in that file: which of them is right it does not say";

/// The sums, of a file that is called old.
fn sums(lines: usize, [dropped, repeated, normalised, restored]: [usize; 4]) -> String {
    let kept = lines - dropped - repeated;
    let came_in =
        format!("bladeplan: old: {lines} lines in: {dropped} dropped, {repeated} repeated, {kept} kept; {normalised} normalised\n");
    format!("{came_in}bladeplan: salvage: {kept} kept and {restored} restored, {} vertices out: they add up\n", kept + restored)
}

/// What is told of the vertices of a full file that have no line in another.
fn restored(full: &str, other: &str) -> Vec<String> {
    let without = full.lines().filter(|line| !other.contains(line));
    let point = |line: &str| line.split('\t').take(3).collect::<Vec<&str>>().join(",");
    without.map(|line| format!("bladeplan: old, no line for {}: restored, as a neighbour implies it\n", point(line))).collect()
}

#[test]
fn whole_files_give_themselves() {
    let desk = Desk::with_plan("whole");
    let full = desk.get("plan.full");
    let mut backwards: Vec<&str> = full.split_inclusive('\n').collect();
    backwards.reverse();
    for (file, count) in [(full.clone(), 0), (backwards.concat(), 0), (desk.get("plan.reduced"), 6)] {
        desk.put("old", &file);
        let ran = desk.run("salvage old --changes list");
        let told = restored(&full, &file);
        assert_eq!(told.len(), count);
        assert_eq!(ran, Ran { status: 0, out: full.clone(), err: told.concat() + &sums(file.lines().count(), [0, 0, 0, count]) });
        assert_eq!(desk.get("list"), "0\trestored\n".repeat(count));
    }
    assert_eq!(desk.run("salvage old --quiet").err, "");
}

#[test]
fn broken_lines_are_told_as_they_stood() {
    let desk = Desk::with_plan("broken");
    let full = desk.get("plan.full");
    desk.put("old", full.clone() + "\n3\t0\t1\t6\t4\t2\n\u{feff}0\t0\n" + &"9".repeat(99));
    let ran = desk.run("salvage old -o new.full --changes list");
    let lines = [
        "bladeplan: old, line 29 is no line of a plan, dropped: (an empty line)\n".to_string(),
        "bladeplan: old, line 30 put into its one written form: 3\\t0\\t1\\t6\\t4\\t2\n".to_string(),
        "bladeplan: old, line 30 says again what an earlier line says, dropped: 3\\t0\\t1\\t6\\t4\\t2\n".to_string(),
        "bladeplan: old, line 31 is no line of a plan, dropped: \\xef\\xbb\\xbf0\\t0\n".to_string(),
        format!("bladeplan: old, line 32 is no line of a plan, dropped: {}.. (cut off)\n", "9".repeat(60)),
    ];
    assert_eq!(ran, Ran { status: 0, out: String::new(), err: lines.concat() + &sums(32, [3, 1, 1, 0]) });
    assert_eq!(
        (desk.get("new.full"), desk.get("list")),
        (full, "29\tdropped\n30\tnormalised\n30\trepeat\n31\tdropped\n32\tdropped\n".to_string())
    );
}

#[test]
fn refusals_write_nothing() {
    let desk = Desk::with_plan("refused");
    desk.put("new.full", "the old one");
    let full = desk.get("plan.full");
    let six = full.lines().position(|line| line.starts_with("1\t0\t0\t")).expect("the vertex") + 1;
    desk.put("old", full.clone() + "1\t0\t0\t3\t0\t0\n");
    desk.refused("salvage old -o new.full --changes list", 20, &format!("old, lines {six} and 29: {TWENTY}"));
    desk.put("old", "x\n9\t0\t2\t3\t4\t0\n1\t0\t0\t3\t0\t0\n\n1\t0\t0\t4\t0\t0\n1\t0\t0\t5\t0\t0\n1");
    desk.refused("salvage old -o new.full --changes list", 20, &format!("old, lines 3 and 5: {TWENTY}"));
    desk.put("old", full.replace("1\t0\t0\t6\t0\t2\n", ""));
    desk.refused("salvage old -o new.full", 11, &format!("old: {ELEVEN}"));
    desk.put("old", "");
    desk.refused("salvage old", 11, &format!("old: {ELEVEN}"));
    desk.refused("salvage nothing", 74, "nothing: No such file or directory");
    desk.refused("salvage /dev/zero", 74, "/dev/zero: a file of over 64 MiB");
    assert_eq!(desk.get("new.full"), "the old one");
    assert_eq!(desk.files(), ["base.full", "new.full", "old", "plan.full", "plan.reduced", "three.txt"]);
}

#[test]
fn piped_and_into_the_file_itself() {
    let desk = Desk::with_plan("piped");
    let full = desk.get("plan.full");
    assert_eq!(desk.fed("salvage - -q", desk.get("plan.reduced").as_bytes()).out, full);
    desk.put("old", desk.get("plan.reduced"));
    desk.good("salvage old -o old -q");
    assert_eq!(desk.get("old"), full);
    assert_eq!(desk.good("salvage old -o new.full --changes -"), "");
    desk.put("old", full + "x");
    assert_eq!(desk.good("salvage old -o new.full --changes - -q"), "29\tdropped\n");
}
