//! The list of findings joined with the plan: parsed once, each point found in the flat table, sorted stably by its place in file order, written.

use crate::files::{file_order, number};
use crate::lattice::{reduce, Point};
use crate::table::{find, in_order};

struct Finding<'a> {
    number: i32,
    point: Point,
    note: &'a [u8],
}

/// One line with its line feed.
#[inline]
fn parse<'a>(list: &'a [u8], at: &mut usize) -> Option<Finding<'a>> {
    let no = number(list, at, b'\t')?;
    let a = number(list, at, b'\t')?;
    let b = number(list, at, b'\t')?;
    let m = number(list, at, b'\t')?;
    let long = list[*at..].iter().take(81).position(|byte| matches!(byte, b'\t' | b'\n'))?;
    let note = &list[*at..*at + long];
    *at += long + 1;
    let near = |x: i32| (-1_000_000..=1_000_000).contains(&x);
    let good = list[*at - 1] == b'\n' && (1..=999_999).contains(&no) && near(a) && near(b) && (0..=12).contains(&m);
    good.then_some(Finding { number: no, point: reduce(Point { a, b, m: m as u8 }), note })
}

#[inline]
fn put_number(text: &mut Vec<u8>, value: i32) {
    let (mut digits, mut at, mut rest) = ([0; 11], 11, value.unsigned_abs());
    loop {
        at -= 1;
        digits[at] = b'0' + (rest % 10) as u8;
        rest /= 10;
        if rest == 0 {
            break;
        }
    }
    if value < 0 {
        at -= 1;
        digits[at] = b'-';
    }
    text.extend_from_slice(&digits[at..]);
    text.push(b'\t');
}

fn put_end(text: &mut Vec<u8>, finding: &Finding) {
    put_number(text, finding.number);
    text.extend_from_slice(finding.note);
    text.push(b'\n');
}

/// The line at fault, and the bytes written.
pub fn findings(table: &[u8], list: &[u8], out: &mut [u8]) -> (u8, [u64; 2]) {
    if in_order(table).is_none() {
        return (1, [0, 0]);
    }
    let (mut on_plan, mut lost, mut at) = (Vec::new(), Vec::new(), 0);
    while at < list.len() {
        let Some(finding) = parse(list, &mut at) else { return (15, [(on_plan.len() + lost.len()) as u64 + 1, 0]) };
        match find(table, finding.point) {
            Some(_) => on_plan.push((file_order(finding.point), finding)),
            None => lost.push(finding),
        }
    }
    on_plan.sort_by_key(|(order, _)| *order);
    let mut text = Vec::with_capacity(list.len());
    for (_, finding) in &on_plan {
        [finding.point.a, finding.point.b, finding.point.m as i32].into_iter().for_each(|value| put_number(&mut text, value));
        put_end(&mut text, finding);
    }
    for finding in &lost {
        text.extend_from_slice(b"?\t");
        put_end(&mut text, finding);
    }
    if text.len() > out.len() {
        return (13, [0, 0]);
    }
    out[..text.len()].copy_from_slice(&text);
    (0, [0, text.len() as u64])
}
