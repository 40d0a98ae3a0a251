//! `compare`: an older plan against a newer one, vertex by vertex.

use crate::files;
use crate::plan::{order, Plan};
use crate::points::spelled;
use crate::trouble::Outcome;
use crate::words::{Command, Words};
use flaskbloom::Record;

pub const COMMAND: Command = Command {
    name: "compare",
    usage: "OLD NEW [--list] [-o FILE] [--quiet]",
    about: "compare two plans: vertices in both, in one only, with another star",
    help: "\
OLD and NEW are full or reduced files; one of them may be '-', standard input. Four counts: vertices in both; of these, those
with another star; vertices only in OLD; only in NEW. With --list a line for each vertex instead, tabs between: same, changed, old or new;
the point; its degree, orientation and level in OLD and in NEW, '-' where it has none. The counts then go to standard error.

example: what is new this autumn
  bladeplan compare spring.reduced autumn.reduced --list | grep ^new
",
    flags: &["--list"],
    valued: &["--output"],
    takes: 2..=2,
    run,
};

/// A vertex's record in either plan: one of both at least.
type Pair = (Option<Record>, Option<Record>);

fn run(words: &Words) -> Outcome<()> {
    let (old, new) = (Plan::load(&words.plain[0])?, Plan::load(&words.plain[1])?);
    let pairs = merged(old.records(), new.records());
    let count = |what: &str| pairs.iter().filter(|pair| verdict(pair) == what).count();
    let [same, changed, gone, fresh] = ["same", "changed", "old", "new"].map(count);
    let both = same + changed;
    if !words.has("--list") {
        let (old, new) = (old.name, new.name);
        let text = format!("{both}\tin both\n{changed}\tof these with another star\n{gone}\tonly in {old}\n{fresh}\tonly in {new}\n");
        return files::write(words.output(), text.as_bytes());
    }
    let lines: String = pairs.iter().map(line).collect();
    files::write(words.output(), lines.as_bytes())?;
    if !words.quiet() {
        files::say(&format!("compare: {both} in both, {changed} of these with another star, {gone} only in OLD, {fresh} only in NEW"));
    }
    Ok(())
}

/// Both plans' records in file order, those of one point together.
fn merged(old: &[Record], new: &[Record]) -> Vec<Pair> {
    let mut pairs = Vec::with_capacity(old.len().max(new.len()));
    let (mut old, mut new) = (old.iter().copied().peekable(), new.iter().copied().peekable());
    loop {
        let (before, after) = (old.peek().map(|r| order(r.point)), new.peek().map(|r| order(r.point)));
        let next = match (before, after) {
            (None, None) => return pairs,
            (Some(_), None) => (old.next(), None),
            (None, Some(_)) => (None, new.next()),
            (Some(before), Some(after)) if before < after => (old.next(), None),
            (Some(before), Some(after)) if before > after => (None, new.next()),
            _ => (old.next(), new.next()),
        };
        pairs.push(next);
    }
}

fn verdict(pair: &Pair) -> &'static str {
    match pair {
        (Some(old), Some(new)) if old == new => "same",
        (Some(_), Some(_)) => "changed",
        (Some(_), None) => "old",
        (None, _) => "new",
    }
}

fn line(pair: &Pair) -> String {
    let star = |r: Option<Record>| r.map_or("-".to_string(), |r| format!("{},{},{}", r.degree, r.orientation, r.level));
    let point = pair.0.or(pair.1).map_or(String::new(), |r| spelled(r.point));
    format!("{}\t{point}\t{}\t{}\n", verdict(pair), star(pair.0), star(pair.1))
}
