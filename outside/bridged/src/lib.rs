//! The library as a caller of the differential tests, behind a pipe: `bridge/bridge.c`, built by `bridge/build`, linked with the archive.
//!
//! The bridge lends the bytes between guards, on a stack of 128 KiB; it says how much of that was used.

use differential::caller::{Caller, Numbers, Points, Row};
use std::io::{Read, Write};
use std::process::{Child, ChildStdin, ChildStdout, Command, Stdio};
use std::sync::Mutex;

/// The calls' numbers in a request.
#[derive(Clone, Copy)]
#[repr(u32)]
enum Call {
    Normalise,
    Star,
    Base,
    Subdivide,
    SubdivideAll,
    Neighbours,
    Faces,
    WriteFull,
    WriteReduced,
    ReadFull,
    ReadReduced,
    Census,
    NeighboursAll,
    FacesAll,
    Counts,
    Findings,
    BringToSix,
    RefineDisc,
    RefineLine,
    WriteOff,
    WriteObj,
    Salvage,
    Vertex,
    Vertices,
    StackUsed,
}

struct Pipe {
    child: Child,
    to: Option<ChildStdin>,
    from: ChildStdout,
}

/// A bridge of its own.
pub struct Library(Mutex<Pipe>);

/// The most buffers of a request.
const BUFFERS: usize = 5;

/// The bytes of an answer before its buffers.
const HEAD: usize = 96;

struct Answer {
    number: u8,
    points: Points,
    value: u64,
    second: u64,
}

impl Library {
    /// Starts the bridge that `bridge/build` made.
    pub fn start() -> Library {
        let start = concat!(env!("CARGO_MANIFEST_DIR"), "/../target/bridge/bridge");
        let mut child = Command::new(start)
            .stdin(Stdio::piped())
            .stdout(Stdio::piped())
            .spawn()
            .unwrap_or_else(|e| panic!("{start}: {e}; make it with bridge/build"));
        let (to, from) = (child.stdin.take(), child.stdout.take().expect("its output"));
        Library(Mutex::new(Pipe { child, to, from }))
    }

    /// The most stack that was in use so far.
    pub fn stack_used(&self) -> u64 {
        self.ask(Call::StackUsed, NO_FIELDS, &mut [], &[]).value
    }

    /// A call into lent numbers.
    fn ask_all(&self, call: Call, constant: &[&[u8]], answers: &mut [i32]) -> u8 {
        let mut bytes = numbers(answers);
        let number = self.ask(call, NO_FIELDS, &mut [&mut bytes], constant).number;
        for (number, four) in answers.iter_mut().zip(bytes.chunks_exact(4)) {
            *number = i32::from_le_bytes(four.try_into().expect("four bytes"));
        }
        number
    }

    /// One call; the lent buffers get back what they then hold, and the constant ones must be as they were.
    fn ask(&self, call: Call, fields: Fields, lent: &mut [&mut [u8]], constant: &[&[u8]]) -> Answer {
        let order = order(call, lent.len(), constant.len());
        let request = request(call, fields, &order, lent, constant);
        let mut pipe = self.0.lock().unwrap_or_else(|broken| broken.into_inner());
        let sent = pipe.to.as_mut().expect("open until dropped").write_all(&request);
        let mut head = [0; HEAD];
        if sent.and_then(|_| pipe.from.read_exact(&mut head)).is_err() {
            panic!("the bridge ended in a call: {:?}", pipe.child.wait());
        }
        for which in &order {
            match which {
                Which::Lent(j) => pipe.from.read_exact(lent[*j]).expect("a lent buffer"),
                Which::Constant(j) => {
                    let mut back = vec![0; constant[*j].len()];
                    pipe.from.read_exact(&mut back).expect("a constant buffer");
                    assert!(back == constant[*j], "a constant buffer has changed");
                }
            }
        }
        Answer::of(&head)
    }
}

/// The bytes of a request: bridge.c's struct, and the buffers in their order.
fn request(call: Call, (p, fields, doubles): Fields, order: &[Which], lent: &[&mut [u8]], constant: &[&[u8]]) -> Vec<u8> {
    let buffers: Vec<&[u8]> = order
        .iter()
        .map(|which| match which {
            Which::Lent(j) => &*lent[*j],
            Which::Constant(j) => constant[*j],
        })
        .collect();
    let mut request = Vec::new();
    request.extend((call as u32).to_le_bytes());
    request.extend(p.iter().flat_map(|v| v.to_le_bytes()));
    request.extend(fields);
    for i in 0..BUFFERS {
        request.extend((buffers.get(i).map_or(0, |b| b.len()) as u64).to_le_bytes());
    }
    request.extend(doubles.iter().flat_map(|v| v.to_le_bytes()));
    request.extend(buffers.concat());
    request
}

impl Drop for Library {
    fn drop(&mut self) {
        if let Ok(pipe) = self.0.get_mut() {
            pipe.to = None;
            let _ = pipe.child.wait();
        }
    }
}

enum Which {
    Lent(usize),
    Constant(usize),
}

/// Which buffer stands where in a request: in the order of the C call's parameters.
fn order(call: Call, lent: usize, constant: usize) -> Vec<Which> {
    if matches!(call, Call::Salvage) {
        return vec![Which::Lent(0), Which::Lent(1), Which::Constant(0), Which::Lent(2), Which::Lent(3)];
    }
    let (lent, mut constant) = ((0..lent).map(Which::Lent), (0..constant).map(Which::Constant));
    let before = match call {
        Call::Vertices => 3,
        Call::NeighboursAll | Call::FacesAll | Call::Findings => 2,
        Call::WriteFull | Call::WriteReduced | Call::WriteOff | Call::WriteObj | Call::Census => 1,
        _ => 0,
    };
    let first: Vec<Which> = constant.by_ref().take(before).collect();
    first.into_iter().chain(lent).chain(constant).collect()
}

fn numbers(list: &[i32]) -> Vec<u8> {
    list.iter().flat_map(|v| v.to_le_bytes()).collect()
}

/// a, b; m, d, k, n, or passes and level; the numbers of an outline.
type Fields = ([i32; 2], [u8; 4], [f64; 3]);
const NO_FIELDS: Fields = ([0, 0], [0; 4], [0.0; 3]);

fn at(a: i32, b: i32, m: u8) -> Fields {
    ([a, b], [m, 0, 0, 0], [0.0; 3])
}

fn round(outline: [f64; 3], passes: u8, level: u8) -> Fields {
    ([0, 0], [passes, level, 0, 0], outline)
}

impl Answer {
    /// bridge.c's struct.
    fn of(head: &[u8; HEAD]) -> Answer {
        let word = |at: usize| i32::from_le_bytes(head[at..at + 4].try_into().expect("four bytes"));
        let number = u8::try_from(word(0)).expect("a byte outside of what was lent has changed");
        let long = |at: usize| u64::from_le_bytes(head[at..at + 8].try_into().expect("eight bytes"));
        Answer { number, points: std::array::from_fn(|i| word(4 + 4 * i)), value: long(80), second: long(88) }
    }

    fn value(self) -> (u8, u64) {
        (self.number, self.value)
    }
    fn points(self) -> (u8, Points) {
        (self.number, self.points)
    }
}

impl Caller for Library {
    fn normalise(&self, a: i32, b: i32, m: u8) -> (u8, [i32; 3]) {
        let answer = self.ask(Call::Normalise, at(a, b, m), &mut [], &[]);
        (answer.number, [answer.points[0], answer.points[1], answer.points[2]])
    }
    fn star(&self, a: i32, b: i32, m: u8, d: u8, k: u8, n: u8) -> (u8, Points) {
        self.ask(Call::Star, ([a, b], [m, d, k, n], [0.0; 3]), &mut [], &[]).points()
    }
    fn base(&self, table: &mut [u8], centres: &[i32]) -> (u8, u64) {
        self.ask(Call::Base, NO_FIELDS, &mut [table], &[&numbers(centres)]).value()
    }
    fn subdivide(&self, table: &mut [u8], a: i32, b: i32, m: u8) -> u8 {
        self.ask(Call::Subdivide, at(a, b, m), &mut [table], &[]).number
    }
    fn subdivide_all(&self, table: &mut [u8], points: &[i32]) -> (u8, u64) {
        self.ask(Call::SubdivideAll, NO_FIELDS, &mut [table], &[&numbers(points)]).value()
    }
    fn bring_to_six(&self, table: &mut [u8], scratch: &mut [u8], a: i32, b: i32, m: u8) -> u8 {
        self.ask(Call::BringToSix, at(a, b, m), &mut [table, scratch], &[]).number
    }
    fn refine_disc(&self, table: &mut [u8], scratch: &mut [u8], disc: [f64; 3], passes: u8, level: u8) -> (u8, u64) {
        self.ask(Call::RefineDisc, round(disc, passes, level), &mut [table, scratch], &[]).value()
    }
    fn refine_line(&self, table: &mut [u8], scratch: &mut [u8], line: [f64; 3], passes: u8, level: u8) -> (u8, u64) {
        self.ask(Call::RefineLine, round(line, passes, level), &mut [table, scratch], &[]).value()
    }
    fn neighbours(&self, table: &[u8], a: i32, b: i32, m: u8) -> (u8, Points) {
        self.ask(Call::Neighbours, at(a, b, m), &mut [], &[table]).points()
    }
    fn faces(&self, table: &[u8], a: i32, b: i32, m: u8) -> (u8, Points) {
        self.ask(Call::Faces, at(a, b, m), &mut [], &[table]).points()
    }
    fn neighbours_all(&self, table: &[u8], points: &[i32], answers: &mut [i32]) -> u8 {
        self.ask_all(Call::NeighboursAll, &[table, &numbers(points)], answers)
    }
    fn faces_all(&self, table: &[u8], points: &[i32], answers: &mut [i32]) -> u8 {
        self.ask_all(Call::FacesAll, &[table, &numbers(points)], answers)
    }
    fn write_full(&self, table: &[u8], out: &mut [u8]) -> (u8, u64) {
        self.ask(Call::WriteFull, NO_FIELDS, &mut [out], &[table]).value()
    }
    fn write_reduced(&self, table: &[u8], out: &mut [u8]) -> (u8, u64) {
        self.ask(Call::WriteReduced, NO_FIELDS, &mut [out], &[table]).value()
    }
    fn write_off(&self, table: &[u8], out: &mut [u8]) -> (u8, u64) {
        self.ask(Call::WriteOff, NO_FIELDS, &mut [out], &[table]).value()
    }
    fn write_obj(&self, table: &[u8], out: &mut [u8]) -> (u8, u64) {
        self.ask(Call::WriteObj, NO_FIELDS, &mut [out], &[table]).value()
    }
    fn read_full(&self, table: &mut [u8], scratch: &mut [u8], file: &[u8]) -> (u8, u64) {
        self.ask(Call::ReadFull, NO_FIELDS, &mut [table, scratch], &[file]).value()
    }
    fn read_reduced(&self, table: &mut [u8], scratch: &mut [u8], file: &[u8]) -> (u8, u64) {
        self.ask(Call::ReadReduced, NO_FIELDS, &mut [table, scratch], &[file]).value()
    }
    fn census(&self, input: &[u8], table: &mut [u8], scratch: &mut [u8], out: &mut [u8]) -> (u8, u64) {
        self.ask(Call::Census, NO_FIELDS, &mut [table, scratch, out], &[input]).value()
    }
    fn counts(&self, table: &[u8]) -> (u8, Numbers) {
        let answer = self.ask(Call::Counts, NO_FIELDS, &mut [], &[table]);
        (answer.number, std::array::from_fn(|i| answer.points[i] as u32))
    }
    fn findings(&self, table: &[u8], list: &[u8], out: &mut [u8]) -> (u8, [u64; 2]) {
        let answer = self.ask(Call::Findings, NO_FIELDS, &mut [out], &[table, list]);
        (answer.number, [answer.value, answer.second])
    }
    fn salvage(&self, table: &mut [u8], scratch: &mut [u8], file: &[u8], out: &mut [u8], changes: &mut [u8]) -> (u8, [u64; 2]) {
        let answer = self.ask(Call::Salvage, NO_FIELDS, &mut [table, scratch, out, changes], &[file]);
        (answer.number, [answer.value, answer.second])
    }
    fn vertex(&self, centres: &[i32], pairs: &[i32], a: i32, b: i32, m: u8) -> (u8, Row) {
        let answer = self.ask(Call::Vertex, at(a, b, m), &mut [], &[&numbers(centres), &numbers(pairs)]);
        (answer.number, std::array::from_fn(|i| answer.points[i]))
    }
    fn vertices(&self, centres: &[i32], pairs: &[i32], points: &[i32], records: &mut [i32]) -> u8 {
        let lists = [numbers(centres), numbers(pairs), numbers(points)];
        self.ask_all(Call::Vertices, &lists.each_ref().map(|list| &list[..]), records)
    }
}
