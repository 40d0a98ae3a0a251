//! bladeplan: blade plans at the command line. Thin over the proved library, whose calls answer what is asked of a plan; what little is worked
//! out here instead is listed in docs/DECISIONS.md.

mod asked;
mod commands;
mod counted;
mod draw;
mod files;
mod findings;
mod lists;
mod log;
mod outlines;
mod place;
mod plan;
mod points;
mod sizes;
mod trouble;
mod words;

use std::ffi::{OsStr, OsString};
use std::process::ExitCode;
use trouble::{Outcome, Trouble};
use words::{Command, Words};

fn main() -> ExitCode {
    match run(std::env::args_os().skip(1)) {
        Ok(()) => ExitCode::SUCCESS,
        Err(trouble) => {
            if !matches!(trouble, Trouble::ClosedPipe) {
                files::say(&trouble.to_string());
            }
            ExitCode::from(trouble.status())
        }
    }
}

/// Runs one command line: the command's name, and its words.
fn run(mut words: impl Iterator<Item = OsString>) -> Outcome<()> {
    let name = words.next().ok_or_else(|| Trouble::Usage("no command is given; 'bladeplan --help' lists them".to_string()))?;
    match name.to_str() {
        Some("--help" | "-h" | "help") => return files::write(None, help(words.next())?.as_bytes()),
        Some("--version") => return files::write(None, concat!("bladeplan ", env!("CARGO_PKG_VERSION"), "\n").as_bytes()),
        _ => {}
    }
    let command = named(&name)?;
    let words = Words::parse(command, words)?;
    match words.has("--help") {
        true => files::write(None, command.help_text().as_bytes()),
        false => (command.run)(&words),
    }
}

fn named(name: &OsStr) -> Outcome<&'static Command> {
    let unknown = || Trouble::Usage(format!("no command {}; 'bladeplan --help' lists them", name.to_string_lossy()));
    commands::ALL.iter().copied().find(|command| name == command.name).ok_or_else(unknown)
}

fn help(name: Option<OsString>) -> Outcome<String> {
    name.map_or(Ok(overview()), |name| Ok(named(&name)?.help_text()))
}

fn overview() -> String {
    let commands: String = commands::ALL.iter().map(|command| format!("  {:12}{}\n", command.name, command.about)).collect();
    format!("usage: bladeplan COMMAND WORDS..\n\n{commands}\n{}", include_str!("overview.txt"))
}
