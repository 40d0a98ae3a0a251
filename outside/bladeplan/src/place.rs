//! Where a refusal happened: a file, a line of it, a point of a plan, an outline, a word of the command line.

use crate::points::spelled;
use flaskbloom::Point;
use std::fmt;

#[derive(Clone, Debug)]
pub enum Place {
    File(String),
    Line(String, u64),
    /// Two lines of a file that do not go together.
    Lines(String, [usize; 2]),
    /// A point as it was spelled, and the plan it was asked of.
    Point(String, Point),
    /// The same, from a line of a list.
    Listed(String, Point, Box<Place>),
    /// An outline as it was written, and the plan that it was asked of.
    Outline(String, String),
    Word(String),
}

impl Place {
    /// A line of a file; 0 where no line is at fault.
    pub fn in_file(name: &str, line: u64) -> Place {
        match line {
            0 => Place::File(name.to_string()),
            line => Place::Line(name.to_string(), line),
        }
    }
}

impl fmt::Display for Place {
    fn fmt(&self, f: &mut fmt::Formatter) -> fmt::Result {
        match self {
            Place::File(name) => f.write_str(name),
            Place::Line(name, line) => write!(f, "{name}, line {line}"),
            Place::Lines(name, [first, second]) => write!(f, "{name}, lines {first} and {second}"),
            Place::Point(name, p) => write!(f, "{name}, point {}", spelled(*p)),
            Place::Listed(name, p, line) => write!(f, "{name}, point {} ({line})", spelled(*p)),
            Place::Outline(name, outline) => write!(f, "{name}, {outline}"),
            Place::Word(word) => f.write_str(word),
        }
    }
}
