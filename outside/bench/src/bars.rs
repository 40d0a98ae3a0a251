//! The bars: the most that a ratio may be, by the least of five rounds, on whatever machine. `run-bench 5 --bars` fails where one is over its bar.

/// How a task's name begins, and the most that the library's time may be beside plain Rust's.
const BARS: [(&str, f64); 16] = [
    ("star call", 1.5),
    ("lookup", 1.1),
    ("in-order test", 1.05),
    ("base", 1.0),
    ("subdivide_all", 0.85),
    ("bring_to_six", 1.4),
    ("refine_", 1.2),
    ("vertex", 1.1),
    ("neighbours", 1.1),
    ("faces", 1.1),
    ("write_", 1.15),
    ("OFF", 1.5),
    ("read_", 1.0),
    ("census", 1.5),
    ("findings", 2.0),
    ("salvage", 1.5),
];

/// The most that a vertex of the largest sheet may cost, beside one of the sheet with so many vertices.
pub const GROWTH: f64 = 1.3;
pub const GROWN_FROM: usize = 6_825;

/// The most nanoseconds a unit, where a bar is not a ratio.
const NANOSECONDS: [(&str, f64); 2] = [("neighbours_all", 80.0), ("vertex, the list judged", 40.0)];

/// How many times as fast as OpenMesh a file is read and written, at least, and an OFF file.
pub const READS: f64 = 8.0;
pub const WRITES: f64 = 15.0;
pub const VIEWS: f64 = 2.0;

pub fn bar(task: &str) -> Option<f64> {
    BARS.iter().find(|(name, _)| task.starts_with(name)).map(|(_, bar)| *bar)
}

pub fn nanoseconds(task: &str) -> Option<f64> {
    NANOSECONDS.iter().find(|(name, _)| task == *name).map(|(_, most)| *most)
}

/// What is over its bar, each in a line.
#[derive(Default)]
pub struct Over(pub Vec<String>);

impl Over {
    /// Notes a ratio that is over its bar, and gives a mark for its line.
    pub fn most(&mut self, what: &str, ratio: f64, bar: f64) -> &'static str {
        if ratio <= bar {
            return "";
        }
        self.0.push(format!("{what}: {ratio:.2}, at most {bar:.2}"));
        "over"
    }

    /// The same of nanoseconds.
    pub fn most_nanoseconds(&mut self, what: &str, time: f64, most: f64) -> &'static str {
        if time <= most {
            return "";
        }
        self.0.push(format!("{what}: {time:.0} ns, at most {most:.0}"));
        "over"
    }

    pub fn least(&mut self, what: &str, times: f64, bar: f64) -> &'static str {
        if times >= bar {
            return "";
        }
        self.0.push(format!("{what}: {times:.1} times as fast, at least {bar:.1}"));
        "under"
    }
}
