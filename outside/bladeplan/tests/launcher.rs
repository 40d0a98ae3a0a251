//! The launcher at the project's root, in a small tree of its own with an `rt`, a `cargo` and a make-archive that only leave files: what it
//! builds and when, what it says, and that it says what is missing.

mod common;

use common::{Desk, Ran};
use std::fs;
use std::os::unix::fs::{symlink, PermissionsExt};

const LAUNCHER: &str = include_str!("../../../bladeplan");
const PROVING: &str = "bladeplan: proving and compiling the library: about six minutes the first time, less where little has changed\n";
const BUILDING: &str = "bladeplan: building the command: about half a minute\n";
const MAKE: &str =
    "#!/bin/sh\nrt\nmkdir -p \"$R/crates/flaskbloom/out\"\ntouch \"$R/crates/flaskbloom/out/libflaskbloom.a\"\necho archive\n";
const CARGO: &str = "#!/bin/sh\nmkdir -p \"$R/outside/target/release\"\necho cargo\n\
    printf '#!/bin/sh\\necho ran \"$@\"\\n' >\"$R/outside/target/release/bladeplan\"\nchmod +x \"$R/outside/target/release/bladeplan\"\n";

fn tree(name: &str) -> Desk {
    let desk = Desk::new(name);
    for place in ["bin", "crates/a/src", "crates/a/must-fail", "outside/bladeplan/src", "outside/flaskbloom", "examples"] {
        fs::create_dir_all(desk.place.join(place)).expect("a directory");
    }
    for file in
        ["crates.txt", "crates/a/src/lib.rt", "outside/Cargo.toml", "outside/Cargo.lock", "outside/bladeplan/src/main.rs", "examples/x"]
    {
        desk.put(file, "");
    }
    for (file, text) in [("bladeplan", LAUNCHER), ("outside/make-archive", MAKE), ("bin/rt", "#!/bin/sh\n"), ("bin/cargo", CARGO)] {
        desk.put(file, text);
        fs::set_permissions(desk.place.join(file), fs::Permissions::from_mode(0o755)).expect("rights");
    }
    for tool in ["bash", "sh", "env", "dirname", "readlink", "find", "touch", "mkdir", "chmod"] {
        let found = ["/usr/bin", "/bin"].map(|place| format!("{place}/{tool}")).into_iter().find(|path| fs::metadata(path).is_ok());
        symlink(found.expect("a tool"), desk.place.join("bin").join(tool)).expect("a link");
    }
    desk
}

fn launched(desk: &Desk) -> Ran {
    desk.shell("export R=\"$PWD\" PATH=\"$PWD/bin\"; ./bladeplan a 'b c'")
}

fn says(err: &str) -> Ran {
    Ran { status: 0, out: "ran a b c\n".to_string(), err: err.to_string() }
}

/// Makes a file newer than all there is.
fn newer(desk: &Desk, file: &str) {
    desk.shell(&format!("touch -d '+2 seconds' {file}"));
}

#[test]
fn it_builds_what_is_missing_or_old() {
    let desk = tree("launcher");
    let all = format!("{PROVING}archive\n{BUILDING}cargo\n");
    assert_eq!(launched(&desk), says(&all));
    assert_eq!(launched(&desk), says(""));
    newer(&desk, "crates/a/must-fail/x.edit");
    assert_eq!(launched(&desk), says(""));
    newer(&desk, "outside/bladeplan/src/main.rs");
    assert_eq!(launched(&desk), says(&format!("{BUILDING}cargo\n")));
    newer(&desk, "crates/a/src/lib.rt");
    assert!(launched(&desk).err.starts_with(PROVING));
    symlink(desk.place.join("bladeplan"), desk.place.join("bin/linked")).expect("a link");
    assert_eq!(desk.shell("export R=\"$PWD\" PATH=\"$PWD/bin\"; cd bin; linked a 'b c'").out, "ran a b c\n");
}

#[test]
fn it_says_what_is_missing() {
    let desk = tree("lacking");
    let gives_up = |line: &str| Ran { status: 69, out: String::new(), err: format!("bladeplan: {line}\n") };
    fs::rename(desk.place.join("bin/rt"), desk.place.join("rt")).expect("moved");
    let no_rt = "there is no 'rt' here: the Rattle kit has it, and proves and compiles the library";
    assert_eq!(launched(&desk), gives_up(no_rt));
    fs::rename(desk.place.join("rt"), desk.place.join("bin/rt")).expect("moved");
    fs::remove_file(desk.place.join("bin/cargo")).expect("removed");
    assert!(launched(&desk).err.ends_with("bladeplan: there is no 'cargo' here: Rust has it, and builds the command\n"));
    desk.put("outside/make-archive", "#!/bin/sh\nexit 1\n");
    newer(&desk, "crates.txt");
    assert_eq!(launched(&desk).err, format!("{PROVING}bladeplan: the library could not be made\n"));
}
