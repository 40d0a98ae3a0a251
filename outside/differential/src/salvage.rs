//! The tests of salvage, for any caller against the mesher: what becomes of a line, by lines written out; the refusals in their order; files that are
//! not broken; every length of both outputs; two records of one point among more points than slots; and spoiled bytes.

use crate::caller::Caller;
use crate::case::{Case, Outcome};
use crate::makers::*;
use crate::rng::Rng;
use crate::suite::{fuzzed, same, seed};
use mesher::lines::line;
use mesher::mesh::base as base_records;
use mesher::record::Record;
use mesher::slots::SLOT;
use mesher::spot::Point;

/// A case with so many slots, and outputs of these lengths.
fn salvage(slots: usize, file: &[u8], out: usize, changes: usize) -> Case {
    let (table, scratch) = (vec![7; slots * SLOT], vec![9; slots * SLOT]);
    Case::Salvage { table, scratch, file: file.to_vec(), out: vec![3; out], changes: vec![4; changes] }
}

/// What was written to both outputs.
fn written(outcome: &Outcome) -> [String; 2] {
    [3, 4].map(|i| String::from_utf8_lossy(&outcome.lent[i][..outcome.value[i - 3] as usize]).into_owned())
}

/// The case put to both; its number, and both outputs.
fn both(caller: &dyn Caller, case: &Case) -> (u8, [String; 2]) {
    (same(caller, case), written(&case.run(caller)))
}

fn one_hexagon() -> String {
    file(&base_records(&[(0, 0)]), false)
}

/// Document 02's words on a line, each by a line added to one hexagon's file: what is listed of it.
pub fn salvage_lines(caller: &dyn Caller) {
    let whole = one_hexagon();
    let last = whole.lines().count() + 1;
    for (added, listed) in [
        ("1\t0\t0\t0\t0\t0\n", &["repeat"][..]),
        ("3\t0\t1\t0\t0\t0\n", &["normalised", "repeat"]),
        ("531441\t0\t12\t0\t0\t0\n", &["normalised", "repeat"]),
        ("0\t0\t0\t3\t4\t0\n", &["normalised", "repeat"]),
        ("0\t0\t12\t3\t8\t0\n", &["normalised", "repeat"]),
        ("1062882\t0\t12\t0\t0\t0\n", &["dropped"]),
        ("0\t0\t13\t3\t0\t0\n", &["dropped"]),
        ("0\t0\t0\t3\t12\t0\n", &["dropped"]),
        ("1\t0\t0\t0\t4\t0\n", &["dropped"]),
        ("1\t0\t0\t6\t11\t0\n", &["dropped"]),
        ("1\t0\t0\t0\t0\t0\r\n", &["dropped"]),
        ("\n", &["dropped"]),
        ("1\t0\t0\t0\t0\t0", &["dropped"]),
        ("+1\t0\t0\t0\t0\t0\n", &["dropped"]),
        ("01\t0\t0\t0\t0\t0\n", &["dropped"]),
        ("-0\t0\t0\t0\t0\t0\n", &["dropped"]),
        ("1\t0\t0\t0\t0\n", &["dropped"]),
        ("1\t0\t0\t0\t0\t0\t0\n", &["dropped"]),
        ("1\t0\t0\t0\t0\t0\t\n", &["dropped"]),
        ("1\t0\t0\t0\t0\t\n", &["dropped"]),
        ("1 0 0 0 0 0\n", &["dropped"]),
        (" 1\t0\t0\t0\t0\t0\n", &["dropped"]),
        ("\u{feff}1\t0\t0\t0\t0\t0\n", &["dropped"]),
        ("1\t0\t0\t0\t0\t0\0\n", &["dropped"]),
        ("1\t-\t0\t0\t0\t0\n", &["dropped"]),
        ("1000000\t0\t0\t0\t0\t0\n", &["dropped"]),
        ("0\t-1000001\t0\t3\t0\t0\n", &["dropped"]),
        ("18446744073709551617\t0\t0\t0\t0\t0\n", &["dropped"]),
        ("1\t0\t256\t0\t0\t0\n", &["dropped"]),
        ("1\t0\t0\t256\t0\t0\n", &["dropped"]),
        ("1\t0\t0\t0\t0\t256\n", &["dropped"]),
        ("1\t0\t0\t0\t0\t-256\n", &["dropped"]),
        ("1\t0\t0\t7\t0\t0\n", &["dropped"]),
        ("1\t0\t0\t6\t0\t1\n", &["dropped"]),
        ("1\t0\t0\t6\t0\t14\n", &["dropped"]),
    ] {
        let list: String = listed.iter().map(|word| format!("{last}\t{word}\n")).collect();
        let case = salvage(16, (whole.clone() + added).as_bytes(), 400, 100);
        assert_eq!(both(caller, &case), (0, [whole.clone(), list]), "{added:?}");
        let in_front = salvage(16, (added.to_string() + "\n" + &whole).as_bytes(), 400, 200);
        assert_eq!(same(caller, &in_front), 0, "{added:?}");
    }
    for clash in ["1\t0\t0\t6\t0\t0\n", "1\t0\t0\t6\t8\t0\n", "3\t0\t1\t3\t0\t0\n", "0\t0\t0\t3\t2\t0\n", "0\t0\t0\t3\t0\t2\n"] {
        assert_eq!(same(caller, &salvage(16, (whole.clone() + clash).as_bytes(), 400, 100)), 20, "{clash:?}");
    }
}

/// "Refusals: 1; 20 ..; then 8 and 11 as that reader has them; 13 for either output": of two that both come, the first.
pub fn salvage_refusals_in_order(caller: &dyn Caller) {
    let whole = one_hexagon();
    let clash = whole.clone() + "1\t0\t0\t6\t0\t0\n";
    let many: String = (0..40).map(|i| line(&Record::at(Point::new(10 + 2 * i, 0, 0), 0, 0, 0))).collect();
    let torn: String = whole.split_inclusive('\n').skip(1).collect();
    for (slots, file, out, changes, number) in [
        (15, &clash, 400, 400, 1),
        (16, &clash, 0, 0, 20),
        (16, &(many.clone() + &clash), 400, 400, 20),
        (16, &(many.clone() + &whole), 0, 0, 8),
        (64, &many, 0, 0, 11),
        (16, &torn, 0, 0, 11),
        (16, &String::new(), 0, 0, 11),
        (16, &whole, 0, 400, 13),
        (16, &(whole.clone() + "\n"), 400, 0, 13),
        (16, &whole, whole.len(), 0, 0),
    ] {
        assert_eq!(same(caller, &salvage(slots, file.as_bytes(), out, changes)), number, "{file}");
    }
    for (table, scratch) in [(192, 204), (204, 192), (191, 191), (0, 0), (192, 0)] {
        let (table, scratch, file) = (vec![7; table], vec![9; scratch], whole.clone().into_bytes());
        assert_eq!(same(caller, &Case::Salvage { table, scratch, file, out: vec![3; 400], changes: vec![4; 9] }), 1);
    }
}

/// "An undamaged full file gives an empty list and itself"; so does a shuffled one; of a reduced file comes the full one.
pub fn salvage_whole_files(caller: &dyn Caller) {
    let mut rng = Rng::new(seed() ^ 0x5a);
    for size in [7, 16, 22, 40, 100, 300, 700] {
        let records = grown(&mut rng, size);
        let (whole, reduced) = (file(&records, false), file(&records, true));
        let slots = slots_for(&mut rng, records.len());
        let mut shuffled: Vec<&str> = whole.split_inclusive('\n').collect();
        rng.shuffle(&mut shuffled);
        for text in [whole.clone(), shuffled.concat()] {
            assert_eq!(both(caller, &salvage(slots, text.as_bytes(), whole.len(), 0)), (0, [whole.clone(), String::new()]));
        }
        let left_out = records.len() - reduced.lines().count();
        let list = "0\trestored\n".repeat(left_out);
        assert_eq!(both(caller, &salvage(slots, reduced.as_bytes(), whole.len(), list.len())), (0, [whole.clone(), list]));
        let spelled: String = records.iter().map(|r| respelled(&mut rng, r)).collect();
        let (number, [out, _]) = both(caller, &salvage(slots, spelled.as_bytes(), whole.len(), 60 * records.len()));
        assert_eq!((number, out), (0, whole));
    }
}

/// Every length of either output up to past what is written.
pub fn salvage_every_length(caller: &dyn Caller) {
    let mut rng = Rng::new(seed() ^ 0x5b);
    let records = grow(&mut rng, &base_records(&[(0, 0), (1, 1), (2, -1)]), 22, 0);
    let old = file(&records, true) + "x\n" + &respelled(&mut rng, &records[0]) + "0";
    let ample = salvage(32, old.as_bytes(), 1_000, 1_000).run(caller);
    let [file, changes] = [0, 1].map(|i| ample.value[i] as usize);
    assert!(ample.number == 0 && file > 0 && changes > 0);
    for out in 0..file + 3 {
        assert_eq!(same(caller, &salvage(32, old.as_bytes(), out, changes)) == 13, out < file);
    }
    for list in 0..changes + 3 {
        assert_eq!(same(caller, &salvage(32, old.as_bytes(), file, list)) == 13, list < changes);
    }
}

/// 20 goes before 8 over the whole file, however many points it has past the slots and wherever the two records stand.
pub fn salvage_past_the_slots(caller: &dyn Caller) {
    let mut rng = Rng::new(seed() ^ 0x5c);
    for points in [17, 24, 40, 100, 400] {
        let whole: Vec<String> = (0..points).map(|i| line(&Record::at(Point::new(i % 100 - 50, i / 100, 0), 0, 0, 0))).collect();
        let number = |list: &[String]| same(caller, &salvage(16, list.concat().as_bytes(), 0, 0));
        assert_eq!(number(&whole), 8);
        for _ in 0..20 {
            let mut list = whole.clone();
            rng.shuffle(&mut list);
            let i = rng.below(list.len());
            let here = std::mem::take(&mut list[i]);
            let other = here.replacen("\t0\t0\t0\t0\n", "\t0\t3\t0\t0\n", 1);
            list[i] = other.clone();
            list.insert(rng.below(list.len() + 1), other);
            assert_eq!(number(&list), 8);
            list.insert(rng.below(list.len() + 1), here);
            assert_eq!(number(&list), 20);
        }
    }
}

/// Files of more points than so many slots, and what is said of them: without two records of one point, and with, first and last.
pub fn past_the_slots(slots: usize) -> [(Vec<u8>, u8); 2] {
    let ground = (0..).map(|i| Point::new(i % 500 - 250, i / 500 - 250, 0)).take(slots + 1);
    let lines: String = ground.map(|p| line(&Record::at(p, 0, 0, 0))).collect();
    let other = line(&Record::at(Point::new(-250, -250, 0), 3, 0, 0));
    [(lines.clone().into_bytes(), 8), ((lines + &other).into_bytes(), 20)]
}

/// Old files with bytes spoiled, and scribbled ones.
pub fn fuzzed_salvage(caller: &dyn Caller) {
    let (seed, inputs) = (seed(), fuzzed() / 3);
    println!("seed {seed}, {inputs} files");
    let mut rng = Rng::new(seed ^ 0x5d);
    let meshes: Vec<Vec<Record>> = (0..40).map(|i| grown(&mut rng, 7 + i)).collect();
    for _ in 0..inputs {
        let bytes = match rng.below(3) {
            0 => scribble(&mut rng, 24),
            _ => {
                let mesh = rng.pick(&meshes).clone();
                let mut bytes = old_file(&mut rng, &mesh);
                for _ in 0..1 + rng.below(2) {
                    spoil_bytes(&mut rng, &mut bytes);
                }
                bytes
            }
        };
        let slots = 16 + rng.below(40);
        let case = salvage(slots, &bytes, 1_400, 2_000);
        if same(caller, &case) == 0 {
            gives_itself(caller, slots, &written(&case.run(caller))[0]);
        }
    }
}

/// What salvage wrote is a full file, and salvaged again gives itself and no change.
fn gives_itself(caller: &dyn Caller, slots: usize, whole: &str) {
    let case = salvage(slots, whole.as_bytes(), whole.len(), 0).run(caller);
    assert_eq!((case.number, written(&case)), (0, [whole.to_string(), String::new()]));
    let (table, scratch) = (vec![7; slots * SLOT], vec![9; slots * SLOT]);
    let read = Case::ReadFull { table, scratch, file: whole.as_bytes().to_vec() }.run(caller);
    assert_eq!((read.number, &read.lent[0]), (0, &case.lent[0]));
}
