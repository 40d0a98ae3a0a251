//! A desk for a test: a directory of its own, and the command run in it.
#![allow(dead_code)] // each test program uses some of it

use std::ffi::OsStr;
use std::fs;
use std::io::Write;
use std::path::{Path, PathBuf};
use std::process::{Command, Output, Stdio};

pub const BLADEPLAN: &str = env!("CARGO_BIN_EXE_bladeplan");

/// Three hexagons round the point 1,0.
pub const THREE: &str = "0\t0\n1\t1\n2\t-1\n";

pub const COMMANDS: [&str; 19] = [
    "lay",
    "subdivide",
    "refine",
    "replay",
    "neighbours",
    "faces",
    "normalise",
    "star",
    "reduce",
    "restore",
    "salvage",
    "census",
    "check",
    "compare",
    "findings",
    "draw",
    "off",
    "obj",
    "example",
];

pub const FIFTEEN: &str = "refused with 15: that line is no finding: number, a, b, m and note, tabs between, each within its limits";

pub struct Desk {
    pub place: PathBuf,
}

/// What a run gave.
#[derive(PartialEq, Eq, Debug)]
pub struct Ran {
    pub status: i32,
    pub out: String,
    pub err: String,
}

impl Desk {
    /// An empty directory, under a name that only this test has.
    pub fn new(name: &str) -> Desk {
        let place = std::env::temp_dir().join(format!("bladeplan-{}-{name}", std::process::id()));
        let _ = fs::remove_dir_all(&place);
        fs::create_dir_all(&place).expect("a directory for the test");
        Desk { place }
    }

    /// A desk with three hexagons laid, and the vertex between them subdivided twice: plan.full and plan.reduced.
    pub fn with_plan(name: &str) -> Desk {
        let desk = Desk::new(name);
        desk.put("three.txt", THREE);
        desk.good("lay three.txt -o base.full -q");
        desk.good("subdivide base.full 1,0 3,0,1 -o plan.full -q");
        desk.good("reduce plan.full -o plan.reduced -q");
        desk
    }

    pub fn put(&self, name: &str, bytes: impl AsRef<[u8]>) {
        fs::write(self.place.join(name), bytes).expect("a file for the test");
    }

    pub fn get(&self, name: &str) -> String {
        fs::read_to_string(self.place.join(name)).expect("a file of the test")
    }

    /// The files, sorted: also those that begin with a point.
    pub fn files(&self) -> Vec<String> {
        names(&self.place)
    }

    /// Runs a command line, its words parted by blanks.
    pub fn run(&self, line: &str) -> Ran {
        self.fed(line, b"")
    }

    /// The same, with something on standard input.
    pub fn fed(&self, line: &str, input: &[u8]) -> Ran {
        self.run_words(line.split_whitespace(), input)
    }

    pub fn run_words(&self, words: impl IntoIterator<Item = impl AsRef<OsStr>>, input: &[u8]) -> Ran {
        ran(Command::new(BLADEPLAN).args(words), &self.place, input)
    }

    /// Runs a line of sh, where $0 is the command.
    pub fn shell(&self, script: &str) -> Ran {
        ran(Command::new("sh").args(["-c", script, BLADEPLAN]), &self.place, b"")
    }

    /// Runs what must go well, and gives its output.
    pub fn good(&self, line: &str) -> String {
        let ran = self.run(line);
        assert_eq!(ran.status, 0, "{line}: {}", ran.err);
        ran.out
    }

    /// Runs what must be refused with this status, in this one line, and nothing on standard output.
    pub fn refused(&self, line: &str, status: i32, err: &str) {
        assert_eq!(self.run(line), Ran { status, out: String::new(), err: format!("bladeplan: {err}\n") }, "{line}");
    }
}

impl Drop for Desk {
    fn drop(&mut self) {
        let _ = fs::remove_dir_all(&self.place);
    }
}

pub fn names(place: &Path) -> Vec<String> {
    let entries = fs::read_dir(place).expect("a directory of the test");
    let mut names: Vec<String> = entries.map(|entry| entry.expect("an entry").file_name().to_string_lossy().into_owned()).collect();
    names.sort();
    names
}

fn ran(command: &mut Command, place: &Path, input: &[u8]) -> Ran {
    let piped = command.current_dir(place).stdin(Stdio::piped()).stdout(Stdio::piped()).stderr(Stdio::piped());
    let mut child = piped.spawn().expect("the command starts");
    let mut stdin = child.stdin.take().expect("a pipe");
    let _ = stdin.write_all(input); // it may have been refused before it was all read
    drop(stdin);
    told(child.wait_with_output().expect("the command ends"))
}

fn told(output: Output) -> Ran {
    let text = |bytes: Vec<u8>| String::from_utf8_lossy(&bytes).into_owned();
    Ran { status: output.status.code().unwrap_or(-1), out: text(output.stdout), err: text(output.stderr) }
}
