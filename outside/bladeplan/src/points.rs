//! Points, records and centres as people write them. A point is `a,b,m`, or `a,b` for m 0, spelled in any way; tabs do for commas, so the
//! first three columns of a plan's file are a list of points.

use crate::trouble::Outcome;
use crate::words::Command;
use flaskbloom::{Point, Record};
use std::ffi::OsStr;

/// Numbers of a line.
pub type Numbers = Vec<i32>;

/// A point in the form that every command takes back.
pub fn spelled(p: Point) -> String {
    format!("{},{},{}", p.a, p.b, p.m)
}

/// Points, one a line.
pub fn lines(points: &[Point]) -> String {
    points.iter().map(|p| spelled(*p) + "\n").collect()
}

/// A point; nothing where the text is none.
pub fn point(text: &str) -> Option<Point> {
    match numbers(text)?[..] {
        [a, b] => Some(Point::new(a, b, 0)),
        [a, b, m] => Some(Point::new(a, b, u8::try_from(m).ok()?)),
        _ => None,
    }
}

/// A point from the command line.
pub fn point_word(command: &Command, word: &OsStr) -> Outcome<Point> {
    let wrong = || command.wrong(&format!("{} is no point a,b,m of 32-bit numbers a, b and m from 0 to 255", word.to_string_lossy()));
    word.to_str().and_then(point).ok_or_else(wrong)
}

/// A record `a,b,m,d,k,n`; whether it is valid is the library's to say.
pub fn record(text: &str) -> Option<Record> {
    let [a, b, m, d, k, n] = numbers(text)?[..] else { return None };
    let small = |x: i32| u8::try_from(x).ok();
    Some(Record { point: Point::new(a, b, small(m)?), degree: small(d)?, orientation: small(k)?, level: small(n)? })
}

/// A centre a TAB b, its numbers as in document 01's files.
pub fn centre(text: &str) -> Option<[i32; 2]> {
    let (a, b) = text.split_once('\t')?;
    Some([strict(a)?, strict(b)?])
}

fn numbers(text: &str) -> Option<Numbers> {
    text.split([',', '\t']).map(|field| field.trim_matches(' ').parse().ok()).collect()
}

/// "No plus sign, no leading zero, minus only before a nonzero number." A number over 32 bits becomes the nearest of them: no centre either.
pub fn strict(text: &str) -> Option<i32> {
    let digits = text.strip_prefix('-').unwrap_or(text);
    let good = !digits.is_empty() && digits.bytes().all(|byte| byte.is_ascii_digit());
    if !good || (digits.starts_with('0') && text != "0") {
        return None;
    }
    let nearest = if text.starts_with('-') { i32::MIN } else { i32::MAX };
    Some(text.parse().unwrap_or(nearest))
}

#[cfg(test)]
mod tests {
    use super::*;

    #[test]
    fn a_point_is_spelled_in_any_way() {
        assert_eq!(point("3,0,1"), Some(Point::new(3, 0, 1)));
        assert_eq!(point("-1,2"), Some(Point::new(-1, 2, 0)));
        assert_eq!(point("1\t-2\t255"), Some(Point::new(1, -2, 255)));
        for none in ["", ",", "1", "1,2,3,4", "1,2,256", "1,2,-1", "2147483648,0", "1.5,0", "a,b", "1;2"] {
            assert_eq!(point(none), None, "{none}");
        }
    }

    #[test]
    fn a_centre_s_numbers_are_the_files() {
        assert_eq!(centre("-2\t0"), Some([-2, 0]));
        assert_eq!(centre("-99999999999\t99999999999"), Some([i32::MIN, i32::MAX]));
        for none in ["", "1", "1 1", "1,1", "+1\t1", "01\t1", "-0\t0", "1\t1\t0", "1\t", "\t1", "1\t1 ", "--1\t1"] {
            assert_eq!(centre(none), None, "{none}");
        }
    }
}
