//! docs/DESK.md is true: it has a page for each command, under the command's own usage, and each line that it says to type gives what it shows.

mod common;

use common::{Desk, BLADEPLAN, COMMANDS};
use std::os::unix::fs::symlink;
use std::path::Path;

const PAGES: &str = include_str!("../../../docs/DESK.md");

#[test]
fn each_command_has_a_page() {
    let desk = Desk::new("pages");
    for name in COMMANDS {
        let usage = desk.good(&format!("{name} --help")).lines().next().unwrap_or("").replace("usage: ", "    ");
        assert!(PAGES.contains(&format!("\n### {name}\n\n{usage}\n")), "docs/DESK.md has no page of {name} with its usage: {usage}");
    }
}

/// What is typed, and what is shown below it: the lines of the indented blocks.
fn typed() -> Vec<(String, String)> {
    let mut list: Vec<(String, String)> = Vec::new();
    let mut inside = false;
    for line in PAGES.lines() {
        match line.strip_prefix("    ") {
            Some(text) if text.starts_with("$ ") => {
                list.push((text[2..].to_string(), String::new()));
                inside = true;
            }
            Some(text) if inside => list.last_mut().expect("a line typed").1.push_str(&format!("{text}\n")),
            _ => inside = false,
        }
    }
    list
}

#[test]
fn what_is_typed_gives_what_is_shown() {
    let desk = Desk::new("walk");
    symlink(BLADEPLAN, desk.place.join("bladeplan")).expect("a link");
    symlink(Path::new(env!("CARGO_MANIFEST_DIR")).join("../../examples"), desk.place.join("examples")).expect("a link");
    let list = typed();
    assert!(list.len() > 20, "{} lines are typed", list.len());
    for (line, shown) in list {
        assert_eq!(desk.shell(&format!("exec 2>&1; {line}")).out, shown, "{line}");
    }
}
