//! The counting loop by CPython, in a process of its own, which is asked for one
//! time after the other.

use std::io::{BufRead, BufReader, Write};
use std::process::{Child, ChildStdin, ChildStdout, Command, Stdio};

use crate::operations::{COUNTED, COUNTED_SUM, COUNTING_STEPS};

/// Says its name. Then for each number that it is sent it counts so far over a
/// list's items, and says the sum and the nanoseconds that it took.
const SCRIPT: &str = "
import platform, sys, time

def count(items):
    while items[0] < items[1]:
        items[2] = items[2] + items[0]
        items[0] = items[0] + 1

print(platform.python_implementation(), platform.python_version(), flush=True)
for line in sys.stdin:
    items = [0, int(line), 0]
    start = time.perf_counter_ns()
    count(items)
    print(items[2], time.perf_counter_ns() - start, flush=True)
";

pub struct Python {
    process: Process,
    name: String,
    /// The best time of a step so far, in nanoseconds.
    step: f64,
}

impl Python {
    /// None where there is no python3, or it doesn't answer.
    pub fn start() -> Option<Python> {
        let mut process = Process::start()?;
        let name = process.line()?;
        Some(Python {
            process,
            name,
            step: f64::INFINITY,
        })
    }

    /// The same, timed once more.
    pub fn repeated(mut self) -> Option<Python> {
        writeln!(self.process.asked, "{COUNTED}").ok()?;
        let answer = self.process.line()?;
        let (sum, time) = answer.split_once(' ')?;
        assert_eq!(sum.parse(), Ok(COUNTED_SUM), "{}: the sum", self.name);
        let time: f64 = time.parse().ok()?;
        self.step = self.step.min(time / f64::from(COUNTING_STEPS));
        Some(self)
    }

    /// Such as `CPython 3.11.7`.
    pub fn name(&self) -> &str {
        &self.name
    }

    /// The best time of a step, in nanoseconds.
    pub fn step(&self) -> f64 {
        self.step
    }
}

struct Process {
    child: Child,
    asked: ChildStdin,
    answers: BufReader<ChildStdout>,
}

impl Process {
    fn start() -> Option<Process> {
        let mut python = Command::new("python3");
        python.args(["-c", SCRIPT]).stderr(Stdio::null());
        python.stdin(Stdio::piped()).stdout(Stdio::piped());
        let mut child = python.spawn().ok()?;
        let (asked, answers) = (child.stdin.take()?, child.stdout.take()?);
        Some(Process {
            child,
            asked,
            answers: BufReader::new(answers),
        })
    }

    /// The next line that it says, unless it has ended.
    fn line(&mut self) -> Option<String> {
        let mut line = String::new();
        let bytes = self.answers.read_line(&mut line).ok()?;
        (bytes > 0).then(|| line.trim_end().to_string())
    }
}

impl Drop for Process {
    fn drop(&mut self) {
        // It may have ended already.
        let _ = self.child.kill();
        let _ = self.child.wait();
    }
}
