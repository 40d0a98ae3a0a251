//! Command lines: helps, wrong words, words of any bytes; and files of any bytes. Nothing makes the command panic.

mod common;

use common::{Desk, Ran, COMMANDS};
use std::ffi::OsString;
use std::os::unix::ffi::OsStringExt;

const STATUSES: std::ops::RangeInclusive<i32> = 0..=21;
/// Numbers that are no call's answer.
const UNUSED: [i32; 3] = [6, 18, 19];
const PANIC: i32 = 101;

#[test]
fn each_command_has_a_help_with_an_example() {
    let desk = Desk::new("help");
    let overview = desk.good("--help");
    for name in COMMANDS {
        let help = desk.good(&format!("{name} --help"));
        assert!(help.starts_with(&format!("usage: bladeplan {name} ")), "{help}");
        assert!(help.contains("\nexample") && help.contains(&format!("bladeplan {name} ")), "{help}");
        assert!(overview.contains(&format!("\n  {name} ")), "{name}");
        assert_eq!(desk.good(&format!("help {name}")), help);
        let longest = help.lines().map(str::len).max();
        assert!(longest <= Some(140), "{name}: {longest:?}");
    }
    assert_eq!(desk.good("-h"), overview);
    assert!(desk.good("--version").starts_with("bladeplan "));
}

#[test]
fn wrong_command_lines() {
    let desk = Desk::with_plan("wrong");
    let lines = [
        "",
        "frob",
        "census",
        "census a b",
        "census --frob plan.full",
        "census plan.full -o",
        "census plan.full --quiet=yes",
        "lay",
        "-x",
        "compare plan.full",
        "compare - -",
        "findings plan.full",
        "findings - -",
        "findings plan.full list.txt more",
        "salvage",
        "salvage plan.full base.full",
        "salvage plan.full --changes",
        "salvage plan.full -o out --changes out",
        "salvage plan.full --changes -",
        "subdivide plan.full",
        "refine plan.full",
        "refine plan.full 1",
        "refine plan.full --subdivide",
        "refine plan.full --disc 1,2",
        "refine plan.full --line 1,2,x",
        "refine plan.full --passes 2",
        "refine plan.full --disc 1,0,0.3 1,0",
        "refine plan.full --disc 1,0,0.3 --subdivide",
        "refine plan.full --disc 1,0,0.3 --passes x",
        "refine - --outlines -",
        "draw plan.full --disc 1",
        "refine - --list -",
        "subdivide - --list -",
        "subdivide plan.full 1",
        "normalise",
        "subdivide plan.full 1,0,256",
        "neighbours plan.full x,y",
        "faces plan.full 99999999999,0",
        "star 1,0,0",
        "star 1,0,0,6,0,0,0",
        "normalise 1,0,-1",
        "census -z plan.full",
        "off",
        "off plan.full base.full",
        "obj",
        "obj --html plan.full",
        "replay",
        "replay plan.full base.full",
        "lay three.txt --log -",
        "lay three.txt -o new.full --log new.full",
        "subdivide plan.full 1,0 --log -",
        "check plan.full --log",
        "example a b",
    ];
    for line in lines {
        let ran = desk.run(line);
        assert_eq!((ran.status, ran.out.as_str(), ran.err.lines().count()), (64, "", 1), "{line}: {}", ran.err);
        assert!(ran.err.starts_with("bladeplan: "), "{}", ran.err);
    }
    assert_eq!(desk.files(), ["base.full", "plan.full", "plan.reduced", "three.txt"]);
}

#[test]
fn a_file_whose_name_looks_like_an_option() {
    let desk = Desk::with_plan("dash");
    desk.put("--odd", desk.get("plan.full"));
    assert_eq!(desk.good("census -- --odd"), desk.good("census plan.full"));
}

#[test]
fn names_of_any_bytes() {
    let desk = Desk::with_plan("bytes");
    let odd = OsString::from_vec(b"odd \xff\n".to_vec());
    let missing = desk.run_words([OsString::from("census"), odd.clone()], b"");
    assert_eq!(missing, Ran { status: 74, out: String::new(), err: "bladeplan: odd \u{fffd}?: No such file or directory\n".to_string() });
    let joined = OsString::from_vec(b"--output=odd \xff\n".to_vec());
    assert_eq!(desk.run_words([OsString::from("restore"), OsString::from("plan.full"), joined], b"").status, 0);
    let counted = desk.run_words([OsString::from("census"), odd], b"");
    assert_eq!((counted.status, counted.out), (0, desk.good("census plan.full")));
}

/// Small numbers that look random, the same ones in each run.
struct Numbers(u64);

impl Numbers {
    fn below(&mut self, most: usize) -> usize {
        self.0 = self.0.wrapping_mul(6364136223846793005).wrapping_add(1442695040888963407);
        (self.0 >> 33) as usize % most
    }

    fn bytes(&mut self, most: usize) -> Vec<u8> {
        (0..self.below(most)).map(|_| b"0123456789-,\t\n\n \x00\xff#=ahoq"[self.below(23)]).collect()
    }
}

#[test]
fn any_words_and_any_bytes() {
    let desk = Desk::with_plan("any");
    let plan = desk.get("plan.full").into_bytes();
    let mut numbers = Numbers(16);
    for _ in 0..400 {
        let mut words = vec![OsString::from(COMMANDS[numbers.below(COMMANDS.len() - 1)])];
        for _ in 0..numbers.below(5) {
            words.push(match numbers.below(6) {
                0 => OsString::from("-"),
                1 => OsString::from("plan.full"),
                2 => OsString::from("1,0"),
                3 => OsString::from(
                    ["--list", "--findings", "--over", "--html", "-q", "--", "-o", "--disc", "--outlines", "--passes", "--log"]
                        [numbers.below(11)],
                ),
                _ => OsString::from_vec(numbers.bytes(12).into_iter().filter(|byte| *byte != 0).collect()),
            });
        }
        let mut input = if numbers.below(2) == 0 { plan.clone() } else { numbers.bytes(200) };
        for _ in 0..numbers.below(3) {
            let (at, other) = (numbers.below(input.len() + 1), numbers.bytes(3));
            input.splice(at..at, other);
        }
        let ran = desk.run_words(&words, &input);
        let known = (STATUSES.contains(&ran.status) && !UNUSED.contains(&ran.status)) || [64, 74].contains(&ran.status);
        assert!(known && ran.status != PANIC, "{words:?} on {input:?}: {} {}", ran.status, ran.err);
        // salvage tells each change in a line of its own
        let tells = words.first().is_some_and(|word| word == "salvage");
        assert!(tells || ran.err.lines().count() <= 1, "{words:?}: {}", ran.err);
    }
}

#[test]
fn a_file_without_an_end() {
    let desk = Desk::new("endless");
    let line = "/dev/zero, line 1: neither a full file nor a reduced one, refused with 9: that line of the file is malformed, or its record is not valid";
    desk.refused("census /dev/zero", 9, line);
    desk.refused("lay /dev/zero", 74, "/dev/zero: longer than 16 MiB, so no list");
}
