//! Timing by turns: the library, plain Rust and, where there is one, a third; the least of the rounds, which other work on the machine
//! disturbs least.

use crate::bars::{bar, nanoseconds, Over};
use std::time::{Duration, Instant};

pub struct Task {
    pub name: &'static str,
    pub unit: &'static str,
    pub units: usize,
}

pub struct Bench {
    pub rounds: usize,
    pub over: Over,
    lines: Vec<String>,
}

pub type Timed<'a> = &'a mut dyn FnMut() -> Duration;

pub fn time<T>(f: impl FnOnce() -> T) -> Duration {
    let start = Instant::now();
    std::hint::black_box(f());
    start.elapsed()
}

/// The lesser of each two times.
pub fn lesser<const N: usize>(times: &mut [Duration; N], round: [Duration; N]) {
    times.iter_mut().zip(round).for_each(|(least, time)| *least = time.min(*least));
}

impl Bench {
    pub fn new(rounds: usize) -> Bench {
        Bench { rounds, over: Over::default(), lines: Vec::new() }
    }

    pub fn run(&mut self, task: Task, library: Timed, plain: Timed, third: Option<Timed>) {
        let mut times = [Vec::new(), Vec::new(), Vec::new()];
        let mut third = third;
        for _ in 0..self.rounds {
            times[0].push(library());
            times[1].push(plain());
            if let Some(third) = third.as_mut() {
                times[2].push(third());
            }
        }
        let [library, plain, third] = times;
        let per_unit = |times: Vec<Duration>| times.into_iter().min().expect("a round").as_nanos() as f64 / task.units as f64;
        let has_third = !third.is_empty();
        let (library, plain) = (per_unit(library), per_unit(plain));
        let ratio = library / plain;
        let (most, mark) = match bar(task.name) {
            Some(bar) => (format!("{bar:.2}"), self.over.most(task.name, ratio, bar)),
            None => (String::new(), ""),
        };
        let slow = nanoseconds(task.name).map_or("", |most| self.over.most_nanoseconds(task.name, library, most));
        let mark = if mark.is_empty() { slow } else { mark };
        let mut line = format!("  {:36} {library:>11.1} {plain:>11.1} {ratio:>6.2} {most:>5} {mark:4}", task.name);
        if has_third {
            let third = per_unit(third);
            line += &format!(" {third:>11.1} {:>6.2}", library / third);
        } else {
            line += &" ".repeat(19);
        }
        self.lines.push(line + &format!("   ns a {}", task.unit));
    }

    pub fn print(&self) {
        println!(
            "least of {} rounds\n  {:36} {:>11} {:>11} {:>6} {:>5} {:4} {:>11} {:>6}",
            self.rounds, "", "library", "plain Rust", "ratio", "bar", "", "HashMap", "ratio"
        );
        self.lines.iter().for_each(|line| println!("{line}"));
    }
}
