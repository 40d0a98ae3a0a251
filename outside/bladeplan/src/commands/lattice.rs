//! `normalise` and `star`: points without any plan.

use crate::files;
use crate::place::Place;
use crate::points::{lines, point_word, record};
use crate::trouble::{Outcome, Trouble};
use crate::words::{Command, Words};

pub const NORMALISE: Command = Command {
    name: "normalise",
    usage: "POINT.. [-o FILE]",
    about: "the one written form of a point",
    help: "\
A POINT is a,b,m (a,b for m 0): the point (a + bw)/3^m. The written form of each goes out, one a line.

example: 9,-18,3 is 1,-2,1
  bladeplan normalise 9,-18,3
",
    flags: &[],
    valued: &["--output"],
    takes: 1..=usize::MAX,
    run: normalise,
};

pub const STAR: Command = Command {
    name: "star",
    usage: "RECORD [-o FILE]",
    about: "the points adjacent to a vertex, from its record alone",
    help: "\
A RECORD is a,b,m,d,k,n: a point in its written form, degree, orientation and level, as in a line of a plan's file (whose tabs will do
for the commas). The adjacent points go out, one a line, counter-clockwise.

example: the star of a vertex of degree 6 that was subdivided once
  bladeplan star 1,0,0,6,1,1
",
    flags: &[],
    valued: &["--output"],
    takes: 1..=1,
    run: star,
};

fn normalise(words: &Words) -> Outcome<()> {
    let points = words.plain.iter().map(|word| point_word(&NORMALISE, word)).collect::<Outcome<Vec<_>>>()?;
    let forms: Vec<_> = points.into_iter().map(flaskbloom::normalise).collect();
    files::write(words.output(), lines(&forms).as_bytes())
}

fn star(words: &Words) -> Outcome<()> {
    let word = &words.plain[0];
    let wrong = || STAR.wrong(&format!("{} is no record a,b,m,d,k,n", word.to_string_lossy()));
    let r = word.to_str().and_then(record).ok_or_else(wrong)?;
    let place = Place::Word(format!("record {}", word.to_string_lossy()));
    let points = flaskbloom::star(r).map_err(|refusal| Trouble::refused(place, refusal))?;
    files::write(words.output(), lines(&points).as_bytes())
}
