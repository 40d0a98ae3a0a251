//! OpenMesh's OFF reader and writer in a process of their own, which makes a round whenever it is asked to.

use std::io::{BufRead, BufReader, Write};
use std::process::{Child, ChildStdin, ChildStdout, Command, Stdio};
use std::time::Duration;

pub struct OpenMesh {
    process: Child,
    to: Option<ChildStdin>,
    from: BufReader<ChildStdout>,
}

impl OpenMesh {
    /// The program on the sheet of a file.
    pub fn start(program: &str, file: &str) -> OpenMesh {
        let mut process =
            Command::new(program).arg(file).stdin(Stdio::piped()).stdout(Stdio::piped()).spawn().expect("the program for OpenMesh starts");
        let (to, from) = (process.stdin.take(), process.stdout.take().expect("its output"));
        OpenMesh { process, to, from: BufReader::new(from) }
    }

    /// How long it took to read the sheet, and to write it.
    pub fn round(&mut self) -> [Duration; 2] {
        writeln!(self.to.as_mut().expect("its input")).expect("it is asked");
        let mut line = String::new();
        self.from.read_line(&mut line).expect("it answers");
        let mut times = line.split_whitespace().map(|word| Duration::from_nanos(word.parse::<f64>().expect("nanoseconds") as u64));
        let mut next = || times.next().expect("two times");
        [next(), next()]
    }
}

impl Drop for OpenMesh {
    fn drop(&mut self) {
        drop(self.to.take());
        self.process.wait().expect("it ends");
    }
}
