//! A case: a call with its inputs, an outline's numbers by their bits. Run, it gives an outcome: the number, the value, and all lent bytes afterwards.
//!
//! Lent bytes stand between guards, at an odd address as often as not, so a byte written outside shows as a broken guard.

use crate::caller::{Caller, Points};

#[derive(Clone, PartialEq, Eq, Hash)]
pub enum Case {
    Normalise([i32; 2], u8),
    Star([i32; 2], [u8; 4]),
    Base { table: Vec<u8>, centres: Vec<i32> },
    Subdivide { table: Vec<u8>, point: ([i32; 2], u8) },
    SubdivideAll { table: Vec<u8>, points: Vec<i32> },
    BringToSix { table: Vec<u8>, scratch: Vec<u8>, point: ([i32; 2], u8) },
    RefineDisc { table: Vec<u8>, scratch: Vec<u8>, outline: [u64; 3], passes: u8, level: u8 },
    RefineLine { table: Vec<u8>, scratch: Vec<u8>, outline: [u64; 3], passes: u8, level: u8 },
    Neighbours { table: Vec<u8>, point: ([i32; 2], u8) },
    Faces { table: Vec<u8>, point: ([i32; 2], u8) },
    NeighboursAll { table: Vec<u8>, points: Vec<i32>, answers: Vec<i32> },
    FacesAll { table: Vec<u8>, points: Vec<i32>, answers: Vec<i32> },
    WriteFull { table: Vec<u8>, out: Vec<u8> },
    WriteReduced { table: Vec<u8>, out: Vec<u8> },
    WriteOff { table: Vec<u8>, out: Vec<u8> },
    WriteObj { table: Vec<u8>, out: Vec<u8> },
    ReadFull { table: Vec<u8>, scratch: Vec<u8>, file: Vec<u8> },
    ReadReduced { table: Vec<u8>, scratch: Vec<u8>, file: Vec<u8> },
    Census { input: Vec<u8>, table: Vec<u8>, scratch: Vec<u8>, out: Vec<u8> },
    Counts { table: Vec<u8> },
    Findings { table: Vec<u8>, list: Vec<u8>, out: Vec<u8> },
    Salvage { table: Vec<u8>, scratch: Vec<u8>, file: Vec<u8>, out: Vec<u8>, changes: Vec<u8> },
    Vertex { centres: Vec<i32>, pairs: Vec<i32>, point: ([i32; 2], u8) },
    Vertices { centres: Vec<i32>, pairs: Vec<i32>, points: Vec<i32>, records: Vec<i32> },
}

#[derive(PartialEq, Eq, Clone, Debug)]
pub struct Outcome {
    pub number: u8,
    pub value: Vec<i64>,
    pub lent: Vec<Vec<u8>>,
}

/// A lent buffer between guards.
struct Lent {
    bytes: Vec<u8>,
    from: usize,
    len: usize,
}

const GUARD: u8 = 0xa7;
const GUARDS: usize = 48;

impl Lent {
    fn new(content: &[u8]) -> Lent {
        let from = GUARDS + content.len() % 2 + content.len() / 12 % 3;
        let mut bytes = vec![GUARD; from];
        bytes.extend_from_slice(content);
        bytes.resize(bytes.len() + GUARDS, GUARD);
        Lent { bytes, from, len: content.len() }
    }

    fn get(&mut self) -> &mut [u8] {
        &mut self.bytes[self.from..self.from + self.len]
    }

    /// The lent bytes as they are now; a broken guard ends the test.
    fn back(self) -> Vec<u8> {
        let (before, rest) = self.bytes.split_at(self.from);
        let (content, after) = rest.split_at(self.len);
        assert!(before.iter().chain(after).all(|byte| *byte == GUARD), "a byte outside of what was lent has changed");
        content.to_vec()
    }
}

fn points(outcome: (u8, Points)) -> (u8, Vec<i64>) {
    (outcome.0, outcome.1.iter().map(|v| *v as i64).collect())
}

fn count(outcome: (u8, u64)) -> (u8, Vec<i64>) {
    (outcome.0, vec![outcome.1 as i64])
}

/// A call into lent numbers between guards: its number, and the numbers as they then are.
fn numbers(lent: &[i32], call: impl FnOnce(&mut [i32]) -> u8) -> (u8, Vec<i64>) {
    let guard = [i32::from_ne_bytes([GUARD; 4]); GUARDS];
    let mut all = [&guard, lent, &guard].concat();
    let number = call(&mut all[GUARDS..GUARDS + lent.len()]);
    let (before, rest) = all.split_at(GUARDS);
    let (content, after) = rest.split_at(lent.len());
    assert!(before == guard && after == guard, "a number outside of what was lent has changed");
    (number, content.iter().map(|v| *v as i64).collect())
}

impl Case {
    pub fn call(&self) -> &'static str {
        match self {
            Case::Normalise(..) => "normalise",
            Case::Star(..) => "star",
            Case::Base { .. } => "base",
            Case::Subdivide { .. } => "subdivide",
            Case::SubdivideAll { .. } => "subdivide_all",
            Case::BringToSix { .. } => "bring_to_six",
            Case::RefineDisc { .. } => "refine_disc",
            Case::RefineLine { .. } => "refine_line",
            Case::Neighbours { .. } => "neighbours",
            Case::Faces { .. } => "faces",
            Case::NeighboursAll { .. } => "neighbours_all",
            Case::FacesAll { .. } => "faces_all",
            Case::WriteFull { .. } => "write_full",
            Case::WriteReduced { .. } => "write_reduced",
            Case::WriteOff { .. } => "write_off",
            Case::WriteObj { .. } => "write_obj",
            Case::ReadFull { .. } => "read_full",
            Case::ReadReduced { .. } => "read_reduced",
            Case::Census { .. } => "census",
            Case::Counts { .. } => "counts",
            Case::Findings { .. } => "findings",
            Case::Salvage { .. } => "salvage",
            Case::Vertex { .. } => "vertex",
            Case::Vertices { .. } => "vertices",
        }
    }

    pub fn run(&self, caller: &dyn Caller) -> Outcome {
        let ((number, value), lent) = match self {
            Case::Normalise([a, b], m) => {
                let (number, p) = caller.normalise(*a, *b, *m);
                ((number, p.iter().map(|v| *v as i64).collect()), vec![])
            }
            Case::Star([a, b], [m, d, k, n]) => (points(caller.star(*a, *b, *m, *d, *k, *n)), vec![]),
            Case::Base { table, centres } => {
                let mut table = Lent::new(table);
                (count(caller.base(table.get(), centres)), vec![table])
            }
            Case::Subdivide { table, point: ([a, b], m) } => {
                let mut table = Lent::new(table);
                ((caller.subdivide(table.get(), *a, *b, *m), vec![]), vec![table])
            }
            Case::SubdivideAll { table, points } => {
                let mut table = Lent::new(table);
                (count(caller.subdivide_all(table.get(), points)), vec![table])
            }
            Case::BringToSix { table, scratch, point: ([a, b], m) } => {
                let (mut table, mut scratch) = (Lent::new(table), Lent::new(scratch));
                ((caller.bring_to_six(table.get(), scratch.get(), *a, *b, *m), vec![]), vec![table, scratch])
            }
            Case::RefineDisc { table, scratch, outline, passes, level } => {
                let (mut table, mut scratch, numbers) = (Lent::new(table), Lent::new(scratch), outline.map(f64::from_bits));
                (count(caller.refine_disc(table.get(), scratch.get(), numbers, *passes, *level)), vec![table, scratch])
            }
            Case::RefineLine { table, scratch, outline, passes, level } => {
                let (mut table, mut scratch, numbers) = (Lent::new(table), Lent::new(scratch), outline.map(f64::from_bits));
                (count(caller.refine_line(table.get(), scratch.get(), numbers, *passes, *level)), vec![table, scratch])
            }
            Case::Neighbours { table, point: ([a, b], m) } => {
                let mut table = Lent::new(table);
                (points(caller.neighbours(table.get(), *a, *b, *m)), vec![table])
            }
            Case::Faces { table, point: ([a, b], m) } => {
                let mut table = Lent::new(table);
                (points(caller.faces(table.get(), *a, *b, *m)), vec![table])
            }
            Case::NeighboursAll { table, points, answers } => {
                let mut table = Lent::new(table);
                (numbers(answers, |out| caller.neighbours_all(table.get(), points, out)), vec![table])
            }
            Case::FacesAll { table, points, answers } => {
                let mut table = Lent::new(table);
                (numbers(answers, |out| caller.faces_all(table.get(), points, out)), vec![table])
            }
            Case::WriteFull { table, out } => {
                let (mut table, mut out) = (Lent::new(table), Lent::new(out));
                (count(caller.write_full(table.get(), out.get())), vec![table, out])
            }
            Case::WriteReduced { table, out } => {
                let (mut table, mut out) = (Lent::new(table), Lent::new(out));
                (count(caller.write_reduced(table.get(), out.get())), vec![table, out])
            }
            Case::WriteOff { table, out } => {
                let (mut table, mut out) = (Lent::new(table), Lent::new(out));
                (count(caller.write_off(table.get(), out.get())), vec![table, out])
            }
            Case::WriteObj { table, out } => {
                let (mut table, mut out) = (Lent::new(table), Lent::new(out));
                (count(caller.write_obj(table.get(), out.get())), vec![table, out])
            }
            Case::ReadFull { table, scratch, file } => {
                let (mut table, mut scratch, mut file) = (Lent::new(table), Lent::new(scratch), Lent::new(file));
                (count(caller.read_full(table.get(), scratch.get(), file.get())), vec![table, scratch, file])
            }
            Case::ReadReduced { table, scratch, file } => {
                let (mut table, mut scratch, mut file) = (Lent::new(table), Lent::new(scratch), Lent::new(file));
                (count(caller.read_reduced(table.get(), scratch.get(), file.get())), vec![table, scratch, file])
            }
            Case::Census { input, table, scratch, out } => {
                let (mut table, mut scratch) = (Lent::new(table), Lent::new(scratch));
                let (mut input, mut out) = (Lent::new(input), Lent::new(out));
                let given = count(caller.census(input.get(), table.get(), scratch.get(), out.get()));
                (given, vec![input, table, scratch, out])
            }
            Case::Counts { table } => {
                let mut table = Lent::new(table);
                let (number, counts) = caller.counts(table.get());
                ((number, counts.iter().map(|v| *v as i64).collect()), vec![table])
            }
            Case::Findings { table, list, out } => {
                let (mut table, mut list, mut out) = (Lent::new(table), Lent::new(list), Lent::new(out));
                let (number, value) = caller.findings(table.get(), list.get(), out.get());
                ((number, value.iter().map(|v| *v as i64).collect()), vec![table, list, out])
            }
            Case::Salvage { table, scratch, file, out, changes } => {
                let (mut table, mut scratch, mut file) = (Lent::new(table), Lent::new(scratch), Lent::new(file));
                let (mut out, mut changes) = (Lent::new(out), Lent::new(changes));
                let (number, value) = caller.salvage(table.get(), scratch.get(), file.get(), out.get(), changes.get());
                ((number, value.iter().map(|v| *v as i64).collect()), vec![table, scratch, file, out, changes])
            }
            Case::Vertex { centres, pairs, point: ([a, b], m) } => {
                let (number, row) = caller.vertex(centres, pairs, *a, *b, *m);
                ((number, row.iter().map(|v| *v as i64).collect()), vec![])
            }
            Case::Vertices { centres, pairs, points, records } => {
                (numbers(records, |out| caller.vertices(centres, pairs, points, out)), vec![])
            }
        };
        Outcome { number, value, lent: lent.into_iter().map(Lent::back).collect() }
    }
}

/// A buffer for a report: text as text, a table as its records by slot.
fn shown(bytes: &[u8]) -> String {
    if bytes.len() % 12 == 0 && bytes.len() >= 192 && !bytes.contains(&b'\t') {
        let slots = bytes.chunks(12).enumerate().filter(|(_, s)| **s != [255; 12]);
        let list = slots.take(40).map(|(i, s)| {
            let r = mesher::slots::decode(s);
            format!("{i}:[{},{},{} d{} k{} n{}]", r.a, r.b, r.m, r.d, r.k, r.n)
        });
        return format!("{} slots {}", bytes.len() / 12, list.collect::<Vec<_>>().join(" "));
    }
    let head = &bytes[..bytes.len().min(400)];
    format!("{} bytes {:?}", bytes.len(), String::from_utf8_lossy(head))
}

impl std::fmt::Display for Case {
    fn fmt(&self, f: &mut std::fmt::Formatter) -> std::fmt::Result {
        write!(f, "{}: ", self.call())?;
        match self {
            Case::Normalise(p, m) => write!(f, "{p:?} {m}"),
            Case::Star(p, r) => write!(f, "{p:?} {r:?}"),
            Case::Base { table, centres } => write!(f, "{} bytes, {:?}", table.len(), &centres[..centres.len().min(80)]),
            Case::Subdivide { table, point } | Case::Neighbours { table, point } | Case::Faces { table, point } => {
                write!(f, "{point:?} in {}", shown(table))
            }
            Case::BringToSix { table, scratch, point } => write!(f, "{point:?}, scratch {}, in {}", scratch.len(), shown(table)),
            Case::RefineDisc { table, scratch, outline, passes, level } | Case::RefineLine { table, scratch, outline, passes, level } => {
                let numbers = outline.map(f64::from_bits);
                write!(f, "{numbers:?}, {passes} passes, level {level}, scratch {}, in {}", scratch.len(), shown(table))
            }
            Case::SubdivideAll { table, points } => write!(f, "{:?} in {}", &points[..points.len().min(60)], shown(table)),
            Case::NeighboursAll { table, points, answers } | Case::FacesAll { table, points, answers } => {
                write!(f, "{:?}, room for {}, in {}", &points[..points.len().min(60)], answers.len(), shown(table))
            }
            Case::WriteFull { table, out }
            | Case::WriteReduced { table, out }
            | Case::WriteOff { table, out }
            | Case::WriteObj { table, out } => {
                write!(f, "{} bytes of output, {}", out.len(), shown(table))
            }
            Case::ReadFull { table, scratch, file } | Case::ReadReduced { table, scratch, file } => {
                write!(f, "table {}, scratch {}, file {}", table.len(), scratch.len(), shown(file))
            }
            Case::Census { input, table, scratch, out } => {
                write!(f, "table {}, scratch {}, output {}, input {}", table.len(), scratch.len(), out.len(), shown(input))
            }
            Case::Counts { table } => write!(f, "{}", shown(table)),
            Case::Findings { table, list, out } => write!(f, "output {}, list {}, {}", out.len(), shown(list), shown(table)),
            Case::Salvage { table, scratch, file, out, changes } => {
                let lent = [table, scratch, out, changes].map(|bytes| bytes.len());
                write!(f, "table, scratch, output and changes {lent:?}, file {}", shown(file))
            }
            Case::Vertex { centres, pairs, point } => write!(f, "{point:?} of {centres:?}, {pairs:?}"),
            Case::Vertices { centres, pairs, points, records } => {
                write!(f, "{points:?} of {centres:?}, {pairs:?}, room for {}", records.len())
            }
        }
    }
}

/// Where two outcomes differ, in words.
pub fn difference(one: &Outcome, other: &Outcome) -> Option<String> {
    if one.number != other.number {
        return Some(format!("number {} against {}", one.number, other.number));
    }
    if one.value != other.value {
        return Some(format!("value {:?} against {:?}", one.value, other.value));
    }
    for (i, (x, y)) in one.lent.iter().zip(&other.lent).enumerate() {
        if let Some(at) = (0..x.len()).find(|at| x[*at] != y[*at]) {
            let (from, to) = (at / 12 * 12, (at / 12 * 12 + 12).min(x.len()));
            return Some(format!("lent buffer {i} at byte {at}: {:?} against {:?}", &x[from..to], &y[from..to]));
        }
    }
    None
}
