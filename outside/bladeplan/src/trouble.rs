//! What can go wrong, each as one line on standard error and an exit status: a wrong command line 64, a file 74, a refusal of the
//! library its own number.

use crate::place::Place;
use flaskbloom::{Refusal, RefusedAt};
use std::fmt;
use std::io;

pub const USAGE: u8 = 64;
pub const FILES: u8 = 74;

pub type Outcome<T> = Result<T, Trouble>;

#[derive(Debug)]
pub enum Trouble {
    /// The command line is wrong; the text says how.
    Usage(String),
    /// A file could not be read or written.
    File { name: String, error: io::Error },
    /// The library refused.
    Refused { place: Place, refusal: Refusal },
    /// No plan: what each of the two readers says of the file.
    NoPlan { name: String, full: RefusedAt, reduced: RefusedAt },
    /// Whoever read our standard output has gone: nothing is left to say.
    ClosedPipe,
}

impl Trouble {
    /// Where the two readers differ, the reduced one saw further: the full one says 11 of whatever is not complete.
    pub fn status(&self) -> u8 {
        match self {
            Trouble::Usage(_) => USAGE,
            Trouble::File { .. } | Trouble::ClosedPipe => FILES,
            Trouble::Refused { refusal, .. } => refusal.number(),
            Trouble::NoPlan { reduced, .. } => reduced.refusal.number(),
        }
    }

    pub fn file(name: &str, error: io::Error) -> Trouble {
        match error.kind() {
            io::ErrorKind::BrokenPipe => Trouble::ClosedPipe,
            _ => Trouble::File { name: name.to_string(), error },
        }
    }

    pub fn refused(place: Place, refusal: Refusal) -> Trouble {
        Trouble::Refused { place, refusal }
    }
}

impl fmt::Display for Trouble {
    fn fmt(&self, f: &mut fmt::Formatter) -> fmt::Result {
        match self {
            Trouble::Usage(text) => f.write_str(text),
            Trouble::File { name, error } => write!(f, "{name}: {}", reason(error)),
            Trouble::Refused { place, refusal } => write!(f, "{place}: {}", told(*refusal)),
            Trouble::NoPlan { name, full, reduced } if full == reduced => {
                let place = Place::in_file(name, full.at);
                write!(f, "{place}: neither a full file nor a reduced one, {}", told(full.refusal))
            }
            Trouble::NoPlan { name, full, reduced } => {
                write!(f, "{name}: not a full file, {}; not a reduced file, {}", told(full.refusal), told(reduced.refusal))
            }
            Trouble::ClosedPipe => f.write_str("the reader of the output has gone"),
        }
    }
}

/// The system's words, without its number.
fn reason(error: &io::Error) -> String {
    let text = error.to_string();
    text.split(" (os error").next().unwrap_or(&text).to_string()
}

/// A refusal's number and words.
pub fn told(refusal: Refusal) -> String {
    format!("refused with {}: {}", refusal.number(), words(refusal))
}

/// The words of the README's table.
fn words(refusal: Refusal) -> &'static str {
    match refusal {
        Refusal::NotInOrder => {
            "these bytes are no table in order: a length that doesn't fit, or damage. \
             For a base or a file read: the lent table's length, or a scratch table of another"
        }
        Refusal::BadCentre => "the list of hexagons is empty, odd, or has a bad centre; the place says which",
        Refusal::NoRecord => "no vertex stands at that point",
        Refusal::NotDegreeSix => "the vertex has not got six neighbours yet",
        Refusal::LevelTwelve => "it is subdivided as deep as it goes",
        Refusal::Torn => {
            "the mesh is torn there: something that must be beside the vertex is missing or does not fit. \
             It never comes in a mesh that was grown"
        }
        Refusal::TooFewSlots => "too few free slots in the table; of the census, an input of over 65,536 bytes",
        Refusal::BadLine => "that line of the file is malformed, or its record is not valid",
        Refusal::NotAbove => "that line does not come after the one before it: the file is out of order, or has a point twice",
        Refusal::NotGrown => "these records are no grown mesh: a vertex is missing, or something was changed by hand; also an empty file",
        Refusal::RedundantKept => "a full file, or a mixture, where a reduced one belongs: it keeps a vertex that its neighbours imply",
        Refusal::OutputShort => "the output is shorter than the file, or has no room for all the answers; nothing was written",
        Refusal::DegreeZero => "asked of a vertex at the rim, which has no star",
        Refusal::BadFinding => "that line is no finding: number, a, b, m and note, tabs between, each within its limits",
        Refusal::AtTheRim => "what has to be subdivided first comes to a vertex at the rim, which has no star",
        Refusal::BadOutline => {
            "a number of the outline is not finite or beyond 1,000 either way, its radius is not above 0, or the passes or the level are over 12"
        }
        Refusal::TwoRecords => "one point has two different records in that file: which of them is right it does not say",
        Refusal::NotLeft => {
            "no subdivisions of these hexagons, one after the other, leave that: the line says which cannot be, or it is another plan's log"
        }
    }
}

#[cfg(test)]
mod tests {
    use super::*;
    use Refusal::*;

    const SOME: [Refusal; 6] = [NotInOrder, BadCentre, NoRecord, NotDegreeSix, LevelTwelve, Torn];
    const OTHERS: [Refusal; 12] = [
        TooFewSlots,
        BadLine,
        NotAbove,
        NotGrown,
        RedundantKept,
        OutputShort,
        DegreeZero,
        BadFinding,
        AtTheRim,
        BadOutline,
        TwoRecords,
        NotLeft,
    ];

    #[test]
    fn the_words_are_the_readme_s() {
        let readme = include_str!("../../../README.md");
        for refusal in SOME.into_iter().chain(OTHERS) {
            let row = format!("| {} | {} |\n", refusal.number(), words(refusal));
            assert!(readme.contains(&row), "the README's table has no row {row}");
        }
    }
}
