//! The stream of random cases. A few grown meshes are kept at hand and cases are made from them; they change as the stream goes on.

use crate::case::Case;
use crate::makers::*;
use crate::rng::Rng;
use mesher::mesh::Mesh;
use mesher::record::Record;
use mesher::slots::{Slots, SLOT};
use mesher::spot::Point;
use mesher::viewer::Format;

/// How many meshes are kept at hand.
const POOL: usize = 24;

/// A file for a reader, with how many records it has about; or just how many slots are to be lent for it.
struct Made {
    bytes: Vec<u8>,
    records: usize,
    to_the_brim: bool,
}

/// A few requests as a, b, m, a, b, m, .., now and then of no such depth, and some numbers past the last.
fn several(rng: &mut Rng, records: &[Record]) -> Vec<i32> {
    let mut points = Vec::new();
    for _ in 0..rng.below(8) {
        let ([a, b], m) = request(rng, records, false);
        let m = if rng.once_in(20) { *rng.pick(&[-1, 256, i32::MIN, i32::MAX]) } else { m as i32 };
        points.extend([a, b, m]);
    }
    for _ in 0..rng.below(3) {
        points.push(rng.next() as i32);
    }
    points
}

/// Room for so many numbers, or a little less, or more.
fn room_for(rng: &mut Rng, wide: usize) -> usize {
    match rng.below(6) {
        0 => wide.saturating_sub(1),
        1 => rng.below(wide + 1),
        2 => wide,
        _ => wide + rng.below(60),
    }
}

pub struct Cases {
    rng: Rng,
    pool: Vec<Vec<Record>>,
    made: u64,
}

impl Cases {
    pub fn new(seed: u64) -> Cases {
        let mut rng = Rng::new(seed);
        let pool = (0..POOL).map(|i| grown(&mut rng, 20 + 8 * i)).collect();
        Cases { rng, pool, made: 0 }
    }

    fn mesh(&mut self) -> Vec<Record> {
        self.rng.pick(&self.pool).clone()
    }

    /// A table, its records as far as they are known, good more often than torn or damaged.
    fn table(&mut self) -> (Vec<u8>, Vec<Record>) {
        let mut records = self.mesh();
        let kind = self.rng.below(10);
        if (5..8).contains(&kind) {
            records = torn(&mut self.rng, &records);
        }
        let slots = slots_for(&mut self.rng, records.len());
        let table = laid(&mut self.rng, &records, slots);
        if kind >= 8 {
            return (damaged(&mut self.rng, &table), records);
        }
        (table, records)
    }

    fn garbage(&mut self, len: usize) -> Vec<u8> {
        let byte = self.rng.next() as u8;
        vec![byte; len]
    }

    /// A table and a scratch, in length, for a file.
    fn lengths(&mut self, file: &Made) -> (usize, usize) {
        let rng = &mut self.rng;
        let slots = match rng.below(8) {
            _ if file.to_the_brim => file.records,
            0 => 16,
            1 => file.records.saturating_sub(1 + rng.below(12)),
            2 => file.records,
            _ => slots_for(rng, file.records),
        };
        let table = SLOT * slots.max(16);
        match rng.below(16) {
            0 => (table, *rng.pick(&[0, table - SLOT, table + SLOT, table + 1])),
            1 => {
                let odd = *rng.pick(&[0, 1, 15 * SLOT, table + 1, table - 1]);
                (odd, odd)
            }
            _ => (table, table),
        }
    }

    /// A file: good, with its records torn, faulty, at the limit of the range, or about as long as its table.
    fn file(&mut self, reduced: bool) -> Made {
        let mut records = self.mesh();
        let kind = self.rng.below(12);
        if (3..6).contains(&kind) {
            records = torn(&mut self.rng, &records);
        }
        let as_reduced = if self.rng.once_in(8) { !reduced } else { reduced };
        let text = file(&records, as_reduced);
        let bytes = match kind {
            0..=5 => text.into_bytes(),
            6..=8 => faulty(&mut self.rng, &text),
            9 => return self.rim_file(),
            10 => return self.brim_file(&file(&records, false)),
            _ => self.rng.pick(&self.pool).iter().take(20).map(mesher::lines::line).collect::<String>().into_bytes(),
        };
        Made { bytes, records: records.len(), to_the_brim: false }
    }

    /// A short file at the limit of the range, where restoring leaves it or runs out of room, or both at the same point.
    fn rim_file(&mut self) -> Made {
        let rng = &mut self.rng;
        let mut list: Vec<Record> = Vec::new();
        for _ in 0..1 + rng.below(4) {
            let m = rng.below(3) as u8;
            let reach = 251 * 3i32.pow(m as u32);
            let near = |rng: &mut Rng| match rng.below(3) {
                0 => reach - rng.from_to(0, 1),
                1 => -reach + rng.from_to(0, 1),
                _ => rng.from_to(-9, 9),
            };
            let p = Point::new(near(rng), near(rng), m).normalised();
            let n = rng.below(4) as u8;
            list.push(Record::at(p, 6, n % 2, n));
        }
        let to_the_brim = rng.once_in(2);
        if to_the_brim {
            let others = 16 - rng.below(8);
            list.extend((0..others as i32).map(|i| Record::at(Point::new(100 + i, 0, 0), 0, 0, 0)));
        }
        list.sort_by_key(mesher::lines::key);
        list.dedup_by_key(|r| r.point());
        let bytes = list.iter().map(mesher::lines::line).collect::<String>().into_bytes();
        Made { bytes, records: list.len(), to_the_brim }
    }

    /// A file with one line more than its table has slots: good, malformed, or not above the one before.
    fn brim_file(&mut self, text: &str) -> Made {
        let rng = &mut self.rng;
        let mut lines: Vec<&str> = text.split_inclusive('\n').collect();
        lines.truncate(17 + rng.below(lines.len()));
        let last = lines.len() - 1;
        match rng.below(4) {
            0 => lines[last] = *rng.pick(&["\n", "x\n", "0\t0\t0\t1\t0\t0\n", "0"]),
            1 => lines[last] = lines[rng.below(last + 1)],
            _ => {}
        }
        Made { bytes: lines.concat().into_bytes(), records: last, to_the_brim: true }
    }

    fn star(&mut self) -> Case {
        let rng = &mut self.rng;
        let m = rng.below(8) as u8;
        let reach = 251 * 3i32.pow(m as u32) + 2;
        let near = *rng.pick(&[5, 40, reach]);
        let p = Point::new(rng.from_to(-near, near), rng.from_to(-near, near), m);
        let p = if rng.once_in(4) { p } else { p.normalised() };
        let r = some_star(rng, p);
        let r = if rng.once_in(3) && r.m < 7 { invalid(rng, r) } else { r };
        Case::Star([r.a, r.b], [r.m, r.d, r.k, r.n])
    }

    fn write(&mut self, reduced: bool) -> Case {
        let (table, _) = self.table();
        let text = Slots::of(&table).map_or(0, |slots| file(&slots.records().copied().collect::<Vec<_>>(), reduced).len());
        let rng = &mut self.rng;
        let len = match rng.below(6) {
            0 => text.saturating_sub(1),
            1 => rng.below(text + 1),
            2 => text,
            _ => text + rng.below(40),
        };
        let out = self.garbage(len);
        if reduced {
            Case::WriteReduced { table, out }
        } else {
            Case::WriteFull { table, out }
        }
    }

    fn view(&mut self, format: Format) -> Case {
        let (mut table, _) = self.table();
        if self.rng.once_in(20) {
            table.fill(255);
        }
        let mesh = Slots::of(&table).map(|slots| Mesh::of(slots.records())).unwrap_or_default();
        let text = mesher::viewer::file(&mesh, format).map_or(0, |text| text.len());
        let rng = &mut self.rng;
        let len = match rng.below(6) {
            0 => text.saturating_sub(1),
            1 => rng.below(text + 1),
            2 => text,
            _ => text + rng.below(40),
        };
        let out = self.garbage(len);
        match format {
            Format::Off => Case::WriteOff { table, out },
            Format::Obj => Case::WriteObj { table, out },
        }
    }

    fn subdivide_all(&mut self) -> Case {
        let (table, records) = self.table();
        let rng = &mut self.rng;
        let mut points = Vec::new();
        for _ in 0..rng.below(8) {
            let ([a, b], m) = request(rng, &records, true);
            let m = if rng.once_in(20) { *rng.pick(&[-1, 256, i32::MIN, i32::MAX]) } else { m as i32 };
            points.extend([a, b, m]);
        }
        let twice = points.len() / 3;
        if twice > 0 && rng.once_in(2) {
            points.extend_from_within(3 * (twice - 1)..);
        }
        for _ in 0..rng.below(3) {
            points.push(rng.next() as i32);
        }
        Case::SubdivideAll { table, points }
    }

    /// Mostly of a vertex of degree 3 to 5, now and then one that is made to meet a neighbour of another level, or one at level 12; now and then with
    /// a scratch table of another length.
    fn bring(&mut self) -> Case {
        let (mut table, mut records) = self.table();
        let rng = &mut self.rng;
        let mut among: Vec<Record> = match rng.below(12) {
            0 => records.clone(),
            1 => records.iter().filter(|r| r.n == 12).copied().collect(),
            2..=4 => records.iter().filter(|r| (3..6).contains(&r.d)).copied().collect(),
            _ => far_from_the_rim(&records),
        };
        if rng.once_in(6) {
            if let Some(v) = misplaced(rng, &mut records) {
                let slots = slots_for(rng, records.len());
                (table, among) = (laid(rng, &records, slots), vec![v]);
            }
        }
        let point = request(rng, &among, false);
        let scratch = match rng.below(20) {
            0 => *rng.pick(&[0, table.len() + SLOT, table.len() + 1, table.len().saturating_sub(SLOT)]),
            _ => table.len(),
        };
        let scratch = self.garbage(scratch);
        Case::BringToSix { table, scratch, point }
    }

    /// Passes round an outline near the mesh; now and then with a number, a count, a level or a scratch table that doesn't fit.
    fn refine(&mut self, is_disc: bool) -> Case {
        let (table, records) = self.table();
        let rng = &mut self.rng;
        let numbers = if is_disc { disc_outline(rng, &records) } else { line_outline(rng, &records) };
        let numbers = if rng.once_in(5) { at_the_limits(rng, numbers) } else { numbers };
        let passes = if rng.once_in(12) { *rng.pick(&[0, 12, 13, 255]) } else { 1 + rng.below(4) as u8 };
        let level = if rng.once_in(8) { *rng.pick(&[0, 12, 13, 255]) } else { 1 + rng.below(12) as u8 };
        let scratch = match rng.below(20) {
            0 => *rng.pick(&[0, table.len() + SLOT, table.len() + 1, table.len().saturating_sub(SLOT)]),
            _ => table.len(),
        };
        let (scratch, outline) = (self.garbage(scratch), numbers.map(f64::to_bits));
        if is_disc {
            Case::RefineDisc { table, scratch, outline, passes, level }
        } else {
            Case::RefineLine { table, scratch, outline, passes, level }
        }
    }

    fn query_all(&mut self, faces: bool) -> Case {
        let (table, records) = self.table();
        let rng = &mut self.rng;
        let points = several(rng, &records);
        let room = room_for(rng, 20 * (points.len() / 3));
        let answers = vec![rng.next() as i32; room];
        if faces {
            Case::FacesAll { table, points, answers }
        } else {
            Case::NeighboursAll { table, points, answers }
        }
    }

    /// A base and a list of what was subdivided, good more often than damaged; now and then the base is bad.
    fn listed(&mut self) -> Listed {
        let rng = &mut self.rng;
        let most = *rng.pick(&[0, 3, 8, 20, 40]);
        let mut list = listed(rng, most, 12);
        if rng.once_in(2) {
            for _ in 0..1 + rng.below(2) {
                damaged_list(rng, &mut list);
            }
        }
        if rng.once_in(8) {
            list.centres = base_list(rng);
        }
        list
    }

    fn vertex(&mut self) -> Case {
        let list = self.listed();
        let point = request(&mut self.rng, &list.records, false);
        Case::Vertex { centres: list.centres, pairs: list.pairs, point }
    }

    fn vertices(&mut self) -> Case {
        let list = self.listed();
        let rng = &mut self.rng;
        let points = several(rng, &list.records);
        let room = room_for(rng, 6 * (points.len() / 3));
        let records = vec![rng.next() as i32; room];
        Case::Vertices { centres: list.centres, pairs: list.pairs, points, records }
    }

    /// Among the tables also empty ones.
    fn counts(&mut self) -> Case {
        let (mut table, _) = self.table();
        if self.rng.once_in(20) {
            table.fill(255);
        }
        Case::Counts { table }
    }

    fn findings(&mut self) -> Case {
        let (mut table, records) = self.table();
        if self.rng.once_in(20) {
            table.fill(255);
        }
        let rng = &mut self.rng;
        let most = *rng.pick(&[1, 4, 12, 40]);
        let list = if rng.once_in(2) { findings_list(rng, &records, most) } else { faulty_findings(rng, &records, most) };
        let text = match (Slots::of(&table), mesher::findings::parse(&list)) {
            (Ok(slots), Ok(findings)) => mesher::findings::joined(slots.records(), &findings).text.len(),
            _ => list.len(),
        };
        let len = match rng.below(8) {
            0 => text.saturating_sub(1),
            1 => rng.below(text + 1),
            2 => text,
            3 => list.len(),
            4 => 0,
            _ => text + rng.below(40),
        };
        let out = self.garbage(len);
        Case::Findings { table, list, out }
    }

    /// An old file, its outputs about as long as what is to be written.
    fn salvage(&mut self) -> Case {
        let made = match self.rng.below(14) {
            0 => self.rim_file(),
            1 => self.file(true),
            2 => Made { bytes: no_line_left(&mut self.rng), records: 0, to_the_brim: false },
            _ => {
                let records = self.mesh();
                let bytes = old_file(&mut self.rng, &records);
                Made { bytes, records: records.len(), to_the_brim: false }
            }
        };
        let (table, scratch) = self.lengths(&made);
        let (table, scratch) = (self.garbage(table), self.garbage(scratch));
        let (mut ample, mut list) = (vec![0; 26 * table.len() / SLOT], vec![0; 60 * made.bytes.len() + 11 * table.len() / SLOT]);
        let [file, changes] = mesher::salvage(&mut table.clone(), &mut scratch.clone(), &made.bytes, &mut ample, &mut list).value.0;
        let rng = &mut self.rng;
        let mut room = |long: u64| match rng.below(10) {
            0 => (long as usize).saturating_sub(1),
            1 => rng.below(long as usize + 1),
            2 | 3 => long as usize,
            _ => long as usize + rng.below(40),
        };
        let (out, changes) = (room(file), room(changes));
        let (out, changes) = (self.garbage(out), self.garbage(changes));
        Case::Salvage { table, scratch, file: made.bytes, out, changes }
    }

    fn census(&mut self) -> Case {
        let made = self.file(false);
        let (mut table, mut scratch) = self.lengths(&made);
        let mut input = made.bytes;
        if self.rng.once_in(30) {
            (table, scratch) = (5461 * SLOT, 5461 * SLOT);
        }
        if self.rng.once_in(40) {
            input.resize(65_536 + self.rng.below(3), b'\n');
        }
        let out = *self.rng.pick(&[128, 128, 128, 60, 30, 13, 12, 11, 0]);
        Case::Census { input, table: self.garbage(table), scratch: self.garbage(scratch), out: self.garbage(out) }
    }
}

impl Iterator for Cases {
    type Item = Case;

    fn next(&mut self) -> Option<Case> {
        self.made += 1;
        if self.made % 40 == 0 {
            let most = *self.rng.pick(&[10, 40, 60, 100, 160, 300]);
            let i = self.rng.below(POOL);
            self.pool[i] = grown(&mut self.rng, most);
        }
        Some(match self.rng.below(186) {
            0..=2 => {
                let (p, m) = request(&mut self.rng, &self.pool[0], false);
                Case::Normalise(p, m)
            }
            3..=12 => self.star(),
            13..=21 => {
                let centres = base_list(&mut self.rng);
                let slots = match self.rng.below(4) {
                    0 => 16 + self.rng.below(20),
                    _ => slots_for(&mut self.rng, 3 * centres.len()),
                };
                let len = if self.rng.once_in(20) { *self.rng.pick(&[0, 12, 180, 193, 12 * 65_537]) } else { SLOT * slots };
                Case::Base { table: self.garbage(len), centres }
            }
            22..=40 => {
                let (table, records) = self.table();
                Case::Subdivide { table, point: request(&mut self.rng, &records, true) }
            }
            41..=48 => self.subdivide_all(),
            49..=54 => {
                let (table, records) = self.table();
                Case::Neighbours { table, point: request(&mut self.rng, &records, false) }
            }
            55..=56 => self.query_all(false),
            57..=58 => self.query_all(true),
            59..=60 => self.counts(),
            61..=68 => {
                let (table, records) = self.table();
                Case::Faces { table, point: request(&mut self.rng, &records, false) }
            }
            69..=73 => self.write(false),
            74..=78 => self.write(true),
            79..=86 => {
                let made = self.file(false);
                let (table, scratch) = self.lengths(&made);
                Case::ReadFull { table: self.garbage(table), scratch: self.garbage(scratch), file: made.bytes }
            }
            87..=95 => {
                let made = self.file(true);
                let (table, scratch) = self.lengths(&made);
                Case::ReadReduced { table: self.garbage(table), scratch: self.garbage(scratch), file: made.bytes }
            }
            96..=105 => self.census(),
            106..=117 => self.bring(),
            118..=125 => self.findings(),
            126..=131 => self.view(Format::Off),
            132..=137 => self.view(Format::Obj),
            138..=147 => self.refine(true),
            148..=157 => self.refine(false),
            158..=165 => self.vertex(),
            166..=173 => self.vertices(),
            _ => self.salvage(),
        })
    }
}
