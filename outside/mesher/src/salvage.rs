//! Old files salvaged: document 02's twelfth ticket. A file is cut into lines and each line is judged by itself; what is kept stands in a map in
//! file order, which sorts it and has the first record of each point.

use crate::lines::{self, cut, key, numbers};
use crate::record::Record;
use crate::slips::{made, Slip};
use std::collections::BTreeMap;

/// "any |a|, |b| up to 1,000,000 and m up to 12 may be normalised, and k up to 11"
const FARTHEST: i64 = 1_000_000;
const DEEPEST: i64 = 12;
const LAST_TURN: i64 = 11;

/// What is left of a file's lines.
#[derive(Default)]
pub struct Mended {
    /// One record a point, in file order.
    pub records: BTreeMap<(u8, i32, i32), Record>,
    /// How two records of one point differ, where some do.
    pub clash: Option<&'static str>,
    /// What is listed of the lines.
    pub changes: String,
    /// What became of each line, in words.
    pub lines: Vec<&'static str>,
}

/// "drops malformed lines, normalises, drops a line equal to an earlier one after that, sorts"
pub fn mended(file: &[u8]) -> Mended {
    let (mut pieces, rest) = cut(file);
    let open = !rest.is_empty();
    if open {
        pieces.push(rest);
    }
    let mut mended = Mended::default();
    let mut malformed = Vec::new();
    for (i, piece) in pieces.iter().enumerate() {
        let line = if made(Slip::ChangesFromZero) { i } else { i + 1 };
        let cut_off = open && i + 1 == pieces.len() && !made(Slip::CutOffTaken);
        match salvaged(piece) {
            Ok((record, changed)) if !cut_off => mended.keep(line, record, changed),
            outcome => {
                mended.tell(line, "dropped");
                mended.lines.push(outcome.err().unwrap_or("a line without its line feed"));
                malformed.extend(numbers(piece).ok().map(normalised));
            }
        }
    }
    if made(Slip::DroppedClashes) && malformed.iter().any(|[a, b, m, ..]| mended.has([*m, *a, *b])) {
        mended.clash = Some("two degrees at a point");
    }
    mended
}

/// The record of a line, and whether normalising changed a number of it; or what is malformed.
fn salvaged(piece: &[u8]) -> Result<(Record, bool), &'static str> {
    let written = numbers(piece)?;
    let normal = normalised(written);
    let [a, b, m, _, k, _] = if made(Slip::SalvageLimitsAfter) { normal } else { written };
    if a.abs() > FARTHEST {
        return Err("a beyond 1,000,000");
    }
    if b.abs() > FARTHEST {
        return Err("b beyond 1,000,000");
    }
    if !(0..=DEEPEST).contains(&m) {
        return Err("m not 0 to 12");
    }
    if !(0..=LAST_TURN).contains(&k) {
        return Err("k not 0 to 11");
    }
    let told = if made(Slip::TurnUntold) { 3 } else { 6 };
    Ok((lines::record(normal)?, normal[..told] != written[..told]))
}

/// "Normalized representation": the point without common thirds, the orientation by how a star of this degree looks the same when turned.
fn normalised([mut a, mut b, mut m, d, k, n]: [i64; 6]) -> [i64; 6] {
    while (1..=40).contains(&m) && a % 3 == 0 && b % 3 == 0 {
        (a, b, m) = (a / 3, b / 3, m - 1);
    }
    let k = match d {
        _ if made(Slip::TurnAsSpelled) => k,
        3 => k.rem_euclid(4),
        6 => k.rem_euclid(2),
        _ => k,
    };
    [a, b, m, d, k, n]
}

impl Mended {
    fn keep(&mut self, line: usize, record: Record, changed: bool) {
        let before = self.records.get(&key(&record)).copied();
        let repeat = before == Some(record);
        match before {
            Some(first) if !repeat => drop(self.clash.get_or_insert(difference(&first, &record))),
            _ => drop(self.records.insert(key(&record), record)),
        }
        if repeat && made(Slip::RepeatClashes) {
            self.clash.get_or_insert("two degrees at a point");
        }
        let mut words = [(changed, "normalised"), (repeat, "repeat")];
        if made(Slip::RepeatToldFirst) {
            words.reverse();
        }
        words.iter().filter(|(is, _)| *is).for_each(|(_, word)| self.tell(line, word));
        self.lines.push(match (changed, repeat) {
            (false, false) => "kept",
            (true, false) => "normalised",
            (false, true) => "repeat",
            (true, true) => "normalised and repeat",
        });
    }

    /// Whether a record stands at this point.
    fn has(&self, [m, a, b]: [i64; 3]) -> bool {
        self.records.keys().any(|(depth, x, y)| (*depth as i64, *x as i64, *y as i64) == (m, a, b))
    }

    fn tell(&mut self, line: usize, word: &str) {
        self.changes.push_str(&format!("{line}\t{word}\n"));
    }
}

/// In what two records of one point differ.
fn difference(first: &Record, other: &Record) -> &'static str {
    if first.d != other.d {
        "two degrees at a point"
    } else if first.k != other.k {
        "two orientations at a point"
    } else {
        "two levels at a point"
    }
}
