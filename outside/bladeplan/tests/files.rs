//! Files and pipes as people expect of a command: a file is replaced whole or not at all, whatever goes wrong.

mod common;

use common::{Desk, Ran, BLADEPLAN};
use std::fs;
use std::io::Write;
use std::os::unix::fs::{symlink, PermissionsExt};
use std::process::{Command, Stdio};

/// A desk with a plan whose file is longer than a run under LIMITED may write, in a file that was there before.
fn with_a_long_plan(name: &str) -> Desk {
    let desk = Desk::new(name);
    let centres: String = (0..40).map(|at| format!("{at}\t{at}\n")).collect();
    desk.put("centres.txt", centres);
    desk.good("lay centres.txt -o plan.full -q");
    assert!(desk.get("plan.full").len() > 2048);
    desk.put("kept", "the old file\n");
    desk
}

/// No file longer than a few blocks can be written; the write fails, where the signal is ignored, or else the run is killed in it.
const LIMITED: &str = "ulimit -f 1; exec \"$0\" restore plan.full -o kept";

#[test]
fn a_write_that_fails_half_way_leaves_the_old_file() {
    let desk = with_a_long_plan("half");
    let failed = desk.shell(&format!("trap '' XFSZ; {LIMITED}"));
    assert_eq!(failed, Ran { status: 74, out: String::new(), err: "bladeplan: kept: File too large\n".to_string() });
    assert_eq!(desk.get("kept"), "the old file\n");
    assert_eq!(desk.files(), ["centres.txt", "kept", "plan.full"]);
}

#[test]
fn a_run_that_is_killed_in_a_write_leaves_the_old_file() {
    let desk = with_a_long_plan("killed");
    assert_ne!(desk.shell(LIMITED).status, 0);
    assert_eq!((desk.get("kept").as_str(), desk.files().len()), ("the old file\n", 4));
    assert_eq!(desk.run("restore plan.full -o kept -q").status, 0);
    assert_eq!(desk.get("kept"), desk.get("plan.full"));
    assert_eq!(desk.files(), ["centres.txt", "kept", "plan.full"], "what it left is cleared away by the next");
}

/// Only what a killed run left goes: not what another run is writing, nor what merely has such a name.
#[test]
fn what_another_run_is_writing_stays() {
    let desk = Desk::with_plan("writing");
    let others = [".bladeplan-", ".bladeplan-1", ".bladeplan-1-", ".bladeplan-1-x", ".bladeplan-2-0"];
    others.iter().for_each(|name| desk.put(name, "another's"));
    fs::create_dir(desk.place.join(".bladeplan-3-0")).expect("a directory");
    symlink("plan.full", desk.place.join(".bladeplan-4-0")).expect("a link");
    let before = desk.files();
    let writing = fs::File::open(desk.place.join(".bladeplan-2-0")).expect("the file");
    writing.lock().expect("locked");
    desk.good("reduce plan.full -o plan.full -q");
    assert_eq!(desk.files(), before);
    drop(writing);
    desk.good("restore plan.full -o plan.full -q");
    let after: Vec<String> = before.into_iter().filter(|name| name != ".bladeplan-2-0").collect();
    assert_eq!(desk.files(), after);
}

#[test]
fn a_refused_run_leaves_the_old_file() {
    let desk = Desk::with_plan("refused");
    let old = desk.get("plan.full");
    assert_eq!(desk.run("subdivide plan.full 1,0 0,0 -o plan.full").status, 4);
    assert_eq!(desk.get("plan.full"), old);
}

#[test]
fn the_input_may_be_the_output() {
    let desk = Desk::with_plan("same");
    let reduced = desk.get("plan.reduced");
    desk.good("reduce plan.full -o plan.full");
    assert_eq!(desk.get("plan.full"), reduced);
    desk.good("restore plan.full -oplan.full");
    desk.good("reduce plan.full --output=plan.full");
    assert_eq!(desk.get("plan.full"), reduced);
    assert_eq!(desk.files(), ["base.full", "plan.full", "plan.reduced", "three.txt"]);
}

#[test]
fn rights_and_links_stay() {
    let desk = Desk::with_plan("rights");
    let plan = desk.place.join("plan.full");
    fs::set_permissions(&plan, fs::Permissions::from_mode(0o640)).expect("rights");
    symlink("plan.full", desk.place.join("link")).expect("a link");
    desk.good("reduce plan.full -o link");
    assert_eq!(desk.get("plan.full"), desk.get("plan.reduced"));
    assert_eq!(fs::metadata(&plan).expect("the plan").permissions().mode() & 0o777, 0o640);
    assert!(fs::symlink_metadata(desk.place.join("link")).expect("the link").is_symlink());
}

#[test]
fn a_full_disk() {
    let desk = Desk::with_plan("disk");
    desk.refused("census plan.full -o /dev/full", 74, "/dev/full: No space left on device");
    let told = "bladeplan: standard output: No space left on device\n";
    for command in ["census plan.full", "restore plan.full", "compare plan.full base.full --list", "--help", "lay --help", "example x -q"] {
        let ran = desk.shell(&format!("\"$0\" {command} >/dev/full"));
        assert_eq!((ran.status, ran.err.as_str()), (74, told), "{command}");
    }
    assert_eq!(desk.shell("\"$0\" restore plan.full 2>/dev/full").out, desk.get("plan.full"));
    assert_eq!(desk.shell("\"$0\" census nothing 2>/dev/full").status, 74);
    assert!(fs::metadata("/dev/full").expect("the device").permissions().mode() & 0o170000 == 0o020000);
}

#[test]
fn what_is_no_plain_file_is_written_as_it_is() {
    let desk = Desk::with_plan("device");
    assert_eq!(desk.shell("\"$0\" census plan.full -o /dev/stdout | cat").out, desk.good("census plan.full"));
    desk.refused("census plan.full -o .", 74, ".: Is a directory");
    desk.refused("census plan.full -o no/such", 74, "no/such: No such file or directory");
    assert_eq!(desk.run_words(["census", "plan.full", "-o", ""], b"").status, 74);
    assert_eq!(desk.run("census plan.full -o -").out, desk.good("census plan.full"));
}

/// The reader goes before anything is written: no word, and the status of a file that could not be written.
#[test]
fn a_closed_pipe() {
    let desk = Desk::with_plan("pipe");
    let mut command = Command::new(BLADEPLAN);
    let piped = command.args(["restore", "-"]).stdin(Stdio::piped()).stdout(Stdio::piped()).stderr(Stdio::piped());
    let mut child = piped.spawn().expect("the command starts");
    drop(child.stdout.take());
    let mut stdin = child.stdin.take().expect("a pipe");
    stdin.write_all(desk.get("plan.full").as_bytes()).expect("it reads");
    drop(stdin);
    let output = child.wait_with_output().expect("the command ends");
    assert_eq!((output.status.code(), String::from_utf8_lossy(&output.stderr).as_ref()), (Some(74), ""));
}
