//! Outlines as people write them: a disc x,y,r or a line p,q,s, typed after an option or a line of a list; x and y as in drawings and OFF files, y up.

use crate::lists::List;
use crate::place::Place;
use crate::plan::Plan;
use crate::trouble::{Outcome, Trouble};
use crate::words::{Command, Words};
use flaskbloom::{Outline, Refusal, Table};
use std::ffi::OsStr;

/// The options that give outlines, in the order typed.
const GIVEN: [&str; 3] = ["--disc", "--line", "--outlines"];

/// An outline, and how it is told: as it was written, with the list's line where it has one.
pub struct Given {
    pub outline: Outline,
    pub told: String,
}

pub fn are_given(words: &Words) -> bool {
    GIVEN.iter().any(|name| words.has(name))
}

/// All outlines of a command line, in the order typed, those of a list at the list's place.
pub fn load(command: &Command, words: &Words) -> Outcome<Vec<Given>> {
    let mut all = Vec::new();
    for (name, value) in words.all(&GIVEN) {
        match name {
            "--outlines" => all.extend(listed(value)?),
            kind => all.push(typed(command, &kind[2..], value)?),
        }
    }
    Ok(all)
}

fn typed(command: &Command, kind: &str, value: &OsStr) -> Outcome<Given> {
    let wrong = || command.wrong(&format!("{} is no {kind} of three numbers, commas between", value.to_string_lossy()));
    let numbers = value.to_str().and_then(numbers).ok_or_else(wrong)?;
    Ok(Given { outline: of(kind, numbers).ok_or_else(wrong)?, told: format!("{kind} {}", value.to_string_lossy()) })
}

/// Lines such as `disc 1.5,2,0.3` or `line 0,1,2`.
fn listed(path: &OsStr) -> Outcome<Vec<Given>> {
    let list = List::load(path)?;
    let lines = list.parsed(line)?;
    let told = |(item, (outline, text)): (usize, (Outline, String))| Given { outline, told: format!("{text} ({})", list.place(item)) };
    Ok(lines.into_iter().enumerate().map(told).collect())
}

fn line(text: &str) -> Option<(Outline, String)> {
    let (kind, rest) = text.trim().split_once([' ', '\t'])?;
    Some((of(kind, numbers(rest)?)?, text.trim().replace('\t', " ")))
}

fn of(kind: &str, [one, two, three]: [f64; 3]) -> Option<Outline> {
    match kind {
        "disc" => Some(Outline::Disc { x: one, y: two, radius: three }),
        "line" => Some(Outline::Line { p: one, q: two, s: three }),
        _ => None,
    }
}

fn numbers(text: &str) -> Option<[f64; 3]> {
    let numbers: Option<Vec<f64>> = text.split([',', '\t']).map(|field| field.trim_matches(' ').parse().ok()).collect();
    numbers?.try_into().ok()
}

/// 17 where the library would not refine round one of them: by a request of no passes, which changes nothing.
pub fn judge(plan: &Plan, outlines: &[Given]) -> Outcome<()> {
    let mut table = Table::from_bytes(plan.table.as_bytes().to_vec());
    for given in outlines {
        table.refine(given.outline, 0, 0).map_err(|refused| refused_at(plan, &given.told, refused.refusal))?;
    }
    Ok(())
}

pub fn refused_at(plan: &Plan, told: &str, refusal: Refusal) -> Trouble {
    Trouble::refused(Place::Outline(plan.name.clone(), told.to_string()), refusal)
}

#[cfg(test)]
mod tests {
    use super::*;

    #[test]
    fn a_line_of_a_list() {
        let disc = Outline::Disc { x: 1.5, y: -2.0, radius: 0.3 };
        assert_eq!(line("disc 1.5,-2,.3"), Some((disc, "disc 1.5,-2,.3".to_string())));
        assert_eq!(line(" disc\t1.5\t-2\t3e-1 "), Some((disc, "disc 1.5 -2 3e-1".to_string())));
        assert_eq!(line("line 0, 1, 2").map(|(outline, _)| outline), Some(Outline::Line { p: 0.0, q: 1.0, s: 2.0 }));
        for none in ["", "disc", "disc 1,2", "disc 1,2,3,4", "line 1,2,x", "ring 1,2,3", "1,2,3", "disc1,2,3"] {
            assert_eq!(line(none), None, "{none}");
        }
    }
}
