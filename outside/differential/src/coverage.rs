//! Which refusals were reached, by call, number and reason; and which must be.

use std::collections::BTreeMap;

/// What is wrong with a record: number 9 of the star call and of lines, one of the reasons of number 1 of tables.
const FAULTS: [&str; 7] = [
    "degree 0 with k or n not 0",
    "no such degree",
    "point out of range",
    "point not normalised",
    "level over 12",
    "orientation out of range",
    "k and n not both even or both odd",
];

const NOT_IN_ORDER: [&str; 3] = ["length doesn't fit", "a point stands twice", "a free slot before a record"];

const TORN: [&str; 7] = [
    "an adjacent is absent",
    "an adjacent has degree 6",
    "an adjacent has another level",
    "no rule for an adjacent of degree 3",
    "no rule for an adjacent of degree 4",
    "no rule for an adjacent of degree 5",
    "a new point is already there",
];

const MALFORMED: [&str; 8] = [
    "not six fields",
    "a field without digits",
    "a byte that is no digit",
    "a leading zero",
    "a minus before zero",
    "a number beyond any record",
    "a number beyond its field",
    "a line without its line feed",
];

/// What is counted besides a grown mesh.
const COUNTED: [&str; 4] =
    ["done, an empty table", "done, an adjacent is absent", "done, a corner with no opposite", "done, not a grown mesh"];
/// What is wrong with a line of findings: number 15.
const NO_FINDING: [&str; 13] = [
    "fewer than five fields",
    "a tab in the note",
    "a note over 80 bytes",
    "a field without digits",
    "a byte that is no digit",
    "a leading zero",
    "a minus before zero",
    "a number beyond any record",
    "number not 1 to 999,999",
    "a beyond 1,000,000",
    "b beyond 1,000,000",
    "m not 0 to 12",
    "a line without its line feed",
];

/// Why a vertex can't be brought to degree 6 by what is torn: number 7. (That it ends below degree 6 never comes.)
const NOT_BROUGHT: [&str; 4] =
    ["a neighbour is absent", "a neighbour of degree 6 at another level", "a neighbour not one level lower", "a subdivision is torn"];

/// What is wrong with an outline, or with what is asked of it: number 17; of a disc also its radius.
const BAD_OUTLINE: [&str; 4] = ["an outline number not finite", "an outline number beyond 1,000", "passes over 12", "level over 12"];

/// What becomes of a line of an old file.
const OLD_LINES: [&str; 20] = [
    "kept",
    "normalised",
    "repeat",
    "normalised and repeat",
    "not six fields",
    "a field without digits",
    "a byte that is no digit",
    "a leading zero",
    "a minus before zero",
    "a number beyond any record",
    "a number beyond its field",
    "a line without its line feed",
    "a beyond 1,000,000",
    "b beyond 1,000,000",
    "m not 0 to 12",
    "k not 0 to 11",
    "degree 0 with k or n not 0",
    "no such degree",
    "point out of range",
    "level over 12",
];

/// How an old file is salvaged: number 0.
const SALVAGED: [&str; 4] =
    ["done, nothing changed", "done, records restored", "done, lines changed", "done, lines changed and records restored"];

/// How two records of one point differ: number 20.
const TWO_RECORDS: [&str; 4] =
    ["two degrees at a point", "two orientations at a point", "two levels at a point", "two records at a point, past the slots"];

/// Why no subdivisions leave a list of pairs: number 21.
const NOT_LEFT: [&str; 9] = [
    "numbers past the last pair",
    "a pair of no such depth",
    "a point that no record can have",
    "no vertex at the point",
    "a pair on the rim",
    "a pair below degree 6",
    "a pair at level 12",
    "a pair below its level",
    "a pair above its level",
];

type Key = (&'static str, u8, &'static str);

#[derive(Default)]
pub struct Coverage {
    reached: BTreeMap<Key, u64>,
    pub cases: u64,
}

impl Coverage {
    pub fn note(&mut self, call: &'static str, number: u8, why: &'static str) {
        *self.reached.entry((call, number, why)).or_default() += 1;
        self.cases += 1;
    }

    /// An answer that is one of many in a case.
    pub fn note_inside(&mut self, call: &'static str, number: u8, why: &'static str) {
        *self.reached.entry((call, number, why)).or_default() += 1;
    }

    /// Cases of a call by number: one line a call.
    pub fn table(&self) -> String {
        let mut by_number: BTreeMap<&str, BTreeMap<u8, u64>> = BTreeMap::new();
        for ((call, number, _), times) in &self.reached {
            *by_number.entry(call).or_default().entry(*number).or_default() += times;
        }
        let line = |(call, numbers): (&&str, &BTreeMap<u8, u64>)| {
            let cells: Vec<String> = numbers.iter().map(|(n, times)| format!("{n}: {times}")).collect();
            format!("  {call:19} {}\n", cells.join("   "))
        };
        by_number.iter().map(line).collect()
    }

    /// What should have been reached and was not.
    pub fn missing(&self) -> Vec<Key> {
        expected().into_iter().filter(|key| !self.reached.contains_key(key)).collect()
    }

    /// What was reached and is not expected. 6 is expected of no call: it stays unused.
    pub fn unexpected(&self) -> Vec<Key> {
        let expected = expected();
        self.reached.keys().filter(|key| !expected.contains(key)).copied().collect()
    }
}

/// Every call with every number and reason that it can give.
pub fn expected() -> Vec<Key> {
    let keys = |calls: &[&'static str], number: u8, whys: &[&'static str]| -> Vec<Key> {
        calls.iter().flat_map(|call| whys.iter().map(move |why| (*call, number, *why))).collect()
    };
    let subdividing = ["subdivide", "subdivide_all"];
    let queries = ["neighbours", "faces"];
    let many = ["neighbours_all", "faces_all"];
    let one_of_many = ["neighbours_all, one", "faces_all, one"];
    let writers = ["write_full", "write_reduced"];
    let viewers = ["write_off", "write_obj"];
    let outlines = ["refine_disc", "refine_line"];
    let readers = ["read_full", "read_reduced", "census"];
    let of_a_table = [&[subdividing, queries, many, writers, viewers].concat()[..], &["counts"]].concat();
    let of_a_point = [subdividing, queries, one_of_many].concat();
    let all = [&["normalise", "star", "base"][..], &of_a_table, &one_of_many, &readers].concat();
    let not_in_order = [&FAULTS[..], &NOT_IN_ORDER].concat();
    let bad_lines = [&FAULTS[..], &MALFORMED].concat();
    let bad_lists = ["list empty or of odd length", "centre out of range", "centre of the wrong remainder", "centre repeated"];
    [
        keys(&all, 0, &["done"]),
        keys(&["star"], 9, &FAULTS),
        keys(&["star", "neighbours", "faces", "neighbours_all, one", "faces_all, one"], 14, &["degree 0"]),
        keys(&["base"], 1, &["length doesn't fit"]),
        keys(&["base"], 2, &bad_lists),
        keys(&["base"], 8, &["fewer slots than points"]),
        keys(&of_a_table, 1, &not_in_order),
        keys(&of_a_point, 3, &["no record at the point"]),
        keys(&["subdivide_all", "neighbours_all, one", "faces_all, one"], 3, &["no such depth"]),
        keys(&subdividing, 4, &["degree isn't 6"]),
        keys(&subdividing, 5, &["level is 12"]),
        keys(&subdividing, 7, &TORN),
        keys(&subdividing, 8, &["fewer than six free slots"]),
        keys(&[queries, one_of_many].concat(), 7, &["an adjacent is absent"]),
        keys(&["faces", "faces_all, one"], 7, &["a corner with no opposite"]),
        keys(&many, 0, &["done, numbers past the last triple"]),
        keys(&["counts"], 0, &COUNTED),
        keys(&many, 13, &["too little room for the answers"]),
        keys(&["write_full", "write_reduced", "census"], 13, &["output shorter than the file"]),
        keys(&viewers, 0, &["done, an empty table", "done, not a grown mesh"]),
        keys(&viewers, 7, &["an adjacent is absent", "a corner with no opposite"]),
        keys(&viewers, 13, &["output shorter than the file"]),
        keys(&readers, 1, &["length doesn't fit", "scratch of another length"]),
        keys(&readers, 9, &bad_lines),
        keys(&readers, 10, &["not above the line before"]),
        keys(&readers, 8, &["no slot for a line"]),
        keys(&readers, 11, &["not a grown mesh"]),
        keys(&["read_reduced"], 8, &["no slot for a restored record"]),
        keys(&["read_reduced"], 11, &["a restored record isn't valid"]),
        keys(&["read_reduced"], 12, &["a redundant record was kept"]),
        keys(&["census"], 8, &["input over 65,536 bytes"]),
        keys(&["bring_to_six"], 0, &["done", "done already"]),
        keys(&["bring_to_six"], 1, &[&not_in_order[..], &["scratch of another length"]].concat()),
        keys(&["bring_to_six"], 3, &["no record at the point"]),
        keys(&["bring_to_six"], 14, &["degree 0"]),
        keys(&["bring_to_six"], 5, &["level is 12"]),
        keys(&["bring_to_six"], 7, &NOT_BROUGHT),
        keys(&["bring_to_six"], 16, &["a neighbour on the rim"]),
        keys(&["bring_to_six"], 8, &["fewer than six free slots"]),
        keys(&outlines, 0, &["done", "done, nothing listed", "done, no passes"]),
        keys(&outlines, 1, &[&not_in_order[..], &["scratch of another length"]].concat()),
        keys(&outlines, 17, &BAD_OUTLINE),
        keys(&["refine_disc"], 17, &["a radius not above zero"]),
        keys(&outlines, 7, &[&TORN[..], &["torn, with others to undo"]].concat()),
        keys(&outlines, 8, &["fewer than six free slots", "too few slots, with others to undo"]),
        keys(&["findings"], 0, &["done, an empty list", "done, all lost", "done, none lost", "done, some lost"]),
        keys(&["findings"], 1, &not_in_order),
        keys(&["findings"], 15, &NO_FINDING),
        keys(&["findings"], 13, &["output shorter than the file"]),
        keys(&["salvage"], 0, &SALVAGED),
        keys(&["salvage"], 1, &["length doesn't fit", "scratch of another length"]),
        keys(&["salvage"], 20, &TWO_RECORDS),
        keys(&["salvage"], 8, &["more points than slots", "no slot for a restored record"]),
        keys(&["salvage"], 11, &["no line left", "a restored record isn't valid", "not a grown mesh"]),
        keys(&["salvage"], 13, &["output shorter than the file", "output shorter than the changes"]),
        keys(&["salvage, a line"], 0, &OLD_LINES),
        keys(&["salvage, a line"], 0, &["k and n not both even or both odd"]),
        keys(&["vertex", "vertices, one"], 0, &["done", "done, a boundary vertex"]),
        keys(&["vertex", "vertices, one"], 3, &["no vertex at the point", "a point that no record can have"]),
        keys(&["vertices, one"], 3, &["no such depth"]),
        keys(&["vertex", "vertices"], 2, &bad_lists),
        keys(&["vertex", "vertices"], 21, &NOT_LEFT),
        keys(&["vertices"], 0, &["done", "done, numbers past the last triple"]),
        keys(&["vertices"], 13, &["too little room for the records"]),
    ]
    .concat()
}
