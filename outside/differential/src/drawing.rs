//! A reader of OFF and OBJ files, strict to the letter of document 02's fifth ticket, and what is to be true of what it reads: written from
//! the ticket's words alone, with none of the mesher's or the plain one's means.

use crate::caller::Caller;
use mesher::record::Record;
use mesher::viewer::Format;
use std::collections::{BTreeSet, HashMap};

/// What a file holds: coordinates in ten-thousandths, faces by numbers from 0 on, and of OFF the three counts.
#[derive(Debug, PartialEq)]
pub struct Drawing {
    pub counts: Option<[usize; 3]>,
    pub vertices: Vec<[i64; 2]>,
    pub faces: Vec<[usize; 4]>,
}

/// "a line each with blanks between"
pub fn read(text: &[u8], format: Format) -> Drawing {
    let text = std::str::from_utf8(text).expect("text");
    assert!(text.is_empty() || text.ends_with('\n'), "the last line has no line feed");
    let mut lines = text.lines().map(|line| line.split(' ').collect::<Vec<&str>>());
    let counts: Option<[usize; 3]> = (format == Format::Off).then(|| {
        assert_eq!(lines.next(), Some(vec!["OFF"]));
        numbers(&lines.next().expect("a line of counts"))
    });
    let (mut vertices, mut faces) = (Vec::new(), Vec::new());
    for words in lines {
        let is_vertex = match counts {
            Some([most, ..]) => vertices.len() < most,
            None => words[0] == "v",
        };
        assert!(!is_vertex || faces.is_empty(), "a vertex after a face");
        match (format, is_vertex) {
            (Format::Off, true) => vertices.push(position(&words)),
            (Format::Obj, true) => vertices.push(position(&words[1..])),
            (Format::Off, false) => faces.push(face(&words, "4", 0)),
            (Format::Obj, false) => faces.push(face(&words, "f", 1)),
        }
    }
    Drawing { counts, vertices, faces }
}

fn whole(word: &str) -> usize {
    let value: usize = word.parse().expect("a number");
    assert_eq!(value.to_string(), word);
    value
}

fn numbers<const N: usize>(words: &[&str]) -> [usize; N] {
    let list: Vec<usize> = words.iter().map(|word| whole(word)).collect();
    list.try_into().expect("so many numbers")
}

fn face(words: &[&str], first: &str, from: usize) -> [usize; 4] {
    assert_eq!(words[0], first);
    numbers::<4>(&words[1..]).map(|number| number - from)
}

/// "each vertex as x, y and 0.0000": "four decimals", "zero has no sign".
fn position(words: &[&str]) -> [i64; 2] {
    let &[x, y, z] = words else { panic!("not three coordinates: {words:?}") };
    assert_eq!(z, "0.0000");
    [x, y].map(|word| {
        let (minus, size) = match word.strip_prefix('-') {
            Some(size) => (true, size),
            None => (false, word),
        };
        let (before, after) = size.split_once('.').expect("a point");
        assert!(after.len() == 4 && after.bytes().all(|byte| byte.is_ascii_digit()), "{word}");
        let units = 10_000 * whole(before) as i64 + after.parse::<i64>().expect("digits");
        assert!(units != 0 || !minus, "a zero with a sign");
        if minus {
            -units
        } else {
            units
        }
    })
}

impl Drawing {
    /// All that the ticket says of the file of these records, which are those of the table that the caller was given.
    pub fn is_of(&self, caller: &dyn Caller, table: &[u8], records: &[Record]) {
        let mut sorted = records.to_vec();
        sorted.sort_by_key(|r| (r.m, r.a, r.b));
        assert_eq!(self.vertices.len(), sorted.len());
        self.vertices.iter().zip(&sorted).for_each(|(at, r)| near(at, r));
        assert!(self.faces.windows(2).all(|two| two[0] < two[1]), "faces do not rise");
        self.faces.iter().for_each(|face| self.is_drawn(face));
        assert_eq!(self.faces.iter().copied().collect::<BTreeSet<_>>(), asked(caller, table, &sorted));
        if let Some(counts) = self.counts {
            let (number, numbers) = caller.counts(table);
            assert_eq!((number, counts), (0, [numbers[0], numbers[2], numbers[1]].map(|count| count as usize)));
            let sides = |f: &[usize; 4]| [[f[0], f[1]], [f[1], f[2]], [f[2], f[3]], [f[3], f[0]]].map(|[p, q]| [p.min(q), p.max(q)]);
            let edges: BTreeSet<[usize; 2]> = self.faces.iter().flat_map(sides).collect();
            assert_eq!(counts, [self.vertices.len(), self.faces.len(), edges.len()]);
        }
    }

    /// "four vertex numbers counter-clockwise, smallest first"
    fn is_drawn(&self, face: &[usize; 4]) {
        assert!(face[1..].iter().all(|number| face[0] < *number));
        let at = face.map(|number| self.vertices[number]);
        let twice_the_area: i64 = (0..4).map(|i| (at[i], at[(i + 1) % 4])).map(|(p, q)| p[0] * q[1] - q[0] * p[1]).sum();
        assert!(twice_the_area > 0, "{face:?} is not counter-clockwise");
    }
}

/// "each lies within half of a ten-thousandth of its exact value, shown by comparing whole-number squares"
fn near([x, y]: &[i64; 2], r: &Record) {
    let (power, across, up) = (3_i128.pow(r.m as u32), 10_000 * (2 * r.a as i128 + r.b as i128), r.b as i128);
    assert!((2 * power * *x as i128 - across).abs() <= power, "x of {r:?} is {x}");
    assert_eq!(y.signum() as i128, up.signum());
    let (n, exact) = (2 * (*y as i128).abs(), 300_000_000 * up * up);
    let square = |times: i128| times * times * power * power;
    assert!((n == 0 || square(n - 1) <= exact) && exact <= square(n + 1), "y of {r:?} is {y}");
}

/// The faces as the queries tell them of each internal vertex, each from its smallest number on.
fn asked(caller: &dyn Caller, table: &[u8], sorted: &[Record]) -> BTreeSet<[usize; 4]> {
    let numbers: HashMap<[i32; 3], usize> = sorted.iter().enumerate().map(|(i, r)| ([r.a, r.b, r.m as i32], i)).collect();
    let inside: Vec<i32> = sorted.iter().filter(|r| r.d != 0).flat_map(|r| [r.a, r.b, r.m as i32]).collect();
    let (mut adjacent, mut opposite) = (vec![0; inside.len() / 3 * 20], vec![0; inside.len() / 3 * 20]);
    assert_eq!((caller.neighbours_all(table, &inside, &mut adjacent), caller.faces_all(table, &inside, &mut opposite)), (0, 0));
    let number = |at: &[i32]| numbers[&[at[0], at[1], at[2]]];
    let mut faces = BTreeSet::new();
    for ((v, adjacent), opposite) in inside.chunks(3).zip(adjacent.chunks(20)).zip(opposite.chunks(20)) {
        assert_eq!((adjacent[0], opposite[0]), (0, 0));
        let count = adjacent[1] as usize;
        for j in 0..count {
            let next = (j + 1) % count;
            let mut face = [v, &adjacent[2 + 3 * j..], &opposite[2 + 3 * j..], &adjacent[2 + 3 * next..]].map(number);
            let least = (0..4).min_by_key(|i| face[*i]).expect("four");
            face.rotate_left(least);
            faces.insert(face);
        }
    }
    faces
}
