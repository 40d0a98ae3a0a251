//! The comparison catches mistakes: each of the mesher's deliberate slips is found by the random cases, within a fifth of them.

use differential::caller::{Mesher, Slipped};
use differential::case::{difference, Case};
use differential::random::Cases;
use differential::suite::seed;
use mesher::slips::{Slip, ALL};
use std::panic::catch_unwind;

const ENOUGH: usize = 40_000;

/// The first case that shows the slip, and how.
fn caught(slip: Slip) -> Option<(usize, &'static str, String)> {
    for (i, case) in Cases::new(seed()).take(ENOUGH).enumerate() {
        let wanted = case.run(&Mesher);
        let how = match catch_unwind(|| case.run(&Slipped(slip))) {
            Ok(got) => difference(&wanted, &got),
            Err(_) => Some("it fails altogether".to_string()),
        };
        if let Some(how) = how {
            return Some((i + 1, case.call(), how));
        }
    }
    None
}

#[test]
fn every_slip_is_caught() {
    std::panic::set_hook(Box::new(|_| {}));
    let found: Vec<_> = ALL.into_iter().map(|slip| (slip, caught(slip))).collect();
    drop(std::panic::take_hook());
    for (slip, at) in &found {
        match at {
            Some((case, call, how)) => println!("{slip:?}: case {case}, {call}, {}", &how[..how.len().min(90)]),
            None => println!("{slip:?}: not caught"),
        }
    }
    let missed: Vec<Slip> = found.into_iter().filter(|(_, at)| at.is_none()).map(|(slip, _)| slip).collect();
    assert_eq!(missed, []);
}

#[test]
fn no_slip_no_difference() {
    for case in Cases::new(seed() + 1).take(2_000) {
        let (one, other): (_, _) = (case.run(&Mesher), case.run(&Mesher));
        assert!(difference(&one, &other).is_none(), "{case}");
    }
}

/// A comparison that forgot the lent bytes, or the value, would miss these.
#[test]
fn outcomes_hold_every_byte() {
    let case = Case::Base { table: vec![3; 192], centres: vec![0, 0] };
    let outcome = case.run(&Mesher);
    let mut other = outcome.clone();
    other.lent[0][191] ^= 1;
    assert!(difference(&outcome, &other).is_some());
    let mut other = outcome.clone();
    other.value[0] += 1;
    assert!(difference(&outcome, &other).is_some());
}
