//! Plays random sheets and runs on the proved runner and on the second one.
//!
//!     compare sheets [--seed S] [--count N]
//!     compare runs   [--seed S] [--count N]
//!     compare pairs  [--seed S] [--count N]
//!     compare stretches [--seed S] [--count N]
//!     compare prints [--seed S] [--count N]
//!
//! The same seed and count give the same play. It ends with status 0 when the
//! two runners never differ and every answer that can come up did.
//!
//! The proved runner is the static library, through the crate `muntyzhap`.
//! Without the feature `proved` the second runner stands in for it, to try the
//! generators. `prints` runs the proved printing program, `blockrun`.

#![deny(unsafe_code)]

mod ample;
mod answers;
mod author;
mod blockrun;
mod budgets;
mod calls;
mod checkpoints;
mod code;
mod damage;
mod decode;
mod expressions;
#[cfg(test)]
mod faulty;
mod flaws;
mod floors;
mod high_bytes;
mod inputs;
mod integers;
mod journals;
mod lattices;
mod layout;
mod limits;
mod lines;
mod operations;
mod outputs;
mod play_pairs;
mod play_prints;
mod play_runs;
mod play_sheets;
mod play_stretches;
#[cfg(feature = "proved")]
mod proved;
#[cfg(not(feature = "proved"))]
#[path = "stand_in.rs"]
mod proved;
mod random;
mod rehearsal;
mod rule_numbers;
mod second;
mod sheets;
mod steps;
mod tally;
mod values;

use std::env;
use std::fmt::Display;
use std::io::{self, ErrorKind, Write};
use std::process::ExitCode;

use crate::calls::Difference;
use crate::play_pairs::Stopped;
use crate::play_stretches::Stopped as StretchStopped;
use crate::tally::Tally;

const DEFAULT_SEED: u64 = 1;
const USAGE: &str = "usage: compare sheets|runs|pairs|stretches|prints [--seed S] [--count N]";

#[derive(Debug, Clone, Copy)]
enum Play {
    Sheets,
    Runs,
    Pairs,
    Stretches,
    Prints,
}

impl Play {
    fn from_word(word: &str) -> Option<Play> {
        match word {
            "sheets" => Some(Play::Sheets),
            "runs" => Some(Play::Runs),
            "pairs" => Some(Play::Pairs),
            "stretches" => Some(Play::Stretches),
            "prints" => Some(Play::Prints),
            _ => None,
        }
    }

    /// So many of all five take about three minutes together.
    fn default_count(self) -> u64 {
        match self {
            Play::Sheets => 240_000,
            Play::Runs => 60_000,
            Play::Pairs => 60_000,
            Play::Stretches => 6_000,
            Play::Prints => 6_000,
        }
    }
}

#[derive(Debug, Clone, Copy)]
struct Arguments {
    play: Play,
    seed: u64,
    count: u64,
}

impl Arguments {
    fn from_words(words: &[String]) -> Option<Arguments> {
        let (first, options) = words.split_first()?;
        let play = Play::from_word(first)?;
        let mut arguments = Arguments {
            play,
            seed: DEFAULT_SEED,
            count: play.default_count(),
        };
        for option in options.chunks(2) {
            let [name, number] = option else {
                return None;
            };
            let number = number.parse().ok()?;
            match name.as_str() {
                "--seed" => arguments.seed = number,
                "--count" => arguments.count = number,
                _ => return None,
            }
        }
        Some(arguments)
    }
}

/// What is said of a play, and what is wrong with it, line by line.
#[derive(Debug, Default)]
struct Report {
    lines: Vec<String>,
    complaints: Vec<String>,
}

impl Report {
    fn say(&mut self, line: impl Display) {
        self.lines.push(line.to_string());
    }

    fn say_all(&mut self, lines: Vec<String>) {
        self.lines.extend(lines);
    }

    /// How often each answer came up.
    fn say_answers(&mut self, tallies: &[&Tally]) {
        self.say(Tally::heading());
        tallies.iter().for_each(|tally| self.say(tally));
        self.say("(-: cannot come up)");
    }

    fn differs(&mut self, difference: Difference) {
        self.complaints.push(difference.shrunk().to_string());
    }

    /// Writes it all. A reader that has read enough is no failure.
    fn write_to(&self, out: &mut impl Write) -> io::Result<()> {
        for line in self.lines.iter().chain(&self.complaints) {
            match writeln!(out, "{line}") {
                Err(error) if error.kind() == ErrorKind::BrokenPipe => return Ok(()),
                written => written?,
            }
        }
        Ok(())
    }
}

fn main() -> ExitCode {
    let words: Vec<String> = env::args().skip(1).collect();
    let Some(Arguments { play, seed, count }) = Arguments::from_words(&words) else {
        eprintln!("{USAGE}");
        return ExitCode::from(2);
    };
    let report = match play {
        Play::Sheets => play_sheets(seed, count),
        Play::Runs => play_runs(seed, count),
        Play::Pairs => play_pairs(seed, count),
        Play::Stretches => play_stretches(seed, count),
        Play::Prints => play_prints(seed, count),
    };
    if let Err(error) = report.write_to(&mut io::stdout()) {
        eprintln!("the report cannot be written: {error}");
        return ExitCode::from(2);
    }
    ExitCode::from(u8::from(!report.complaints.is_empty()))
}

fn play_sheets(seed: u64, count: u64) -> Report {
    let mut report = Report::default();
    match play_sheets::play(seed, count) {
        Ok(played) => {
            report.say(format!("{count} sheets of seed {seed}: no difference"));
            report.say_answers(&played.tallies());
            report.say_all(played.high_bytes.lines());
            report.say_all(played.places.lines());
            report.say_all(played.headers.lines());
            report.complaints = played.complaints();
        }
        Err(difference) => report.differs(*difference),
    }
    report
}

fn play_runs(seed: u64, count: u64) -> Report {
    let mut report = Report::default();
    match play_runs::play(seed, count) {
        Ok(played) => {
            let tallies = played.tallies();
            let runs: u64 = tallies.iter().map(|tally| tally.total()).sum();
            report.say(format!(
                "{count} pairs of sheets of seed {seed}, {runs} runs: no difference"
            ));
            report.say_answers(&tallies);
            report.say_all(played.lines());
            report.complaints = played.complaints();
        }
        Err(difference) => report.differs(*difference),
    }
    report
}

fn play_pairs(seed: u64, count: u64) -> Report {
    let mut report = Report::default();
    match play_pairs::play(seed, count) {
        Ok(played) => {
            report.say(format!(
                "{count} pairs of runs of seed {seed}: isolated under rule 3"
            ));
            report.say_all(played.lines());
            report.complaints = played.complaints();
        }
        Err(Stopped::Differs(difference)) => report.differs(*difference),
        Err(Stopped::Leaks(leak)) => report.complaints.push(format!("not isolated:\n{leak}")),
        Err(Stopped::Hides(calls)) => {
            let [one, other] = *calls;
            report.complaints.push(format!(
                "protected slots differ and end alike:\n{one}{other}"
            ));
        }
    }
    report
}

fn play_stretches(seed: u64, count: u64) -> Report {
    let mut report = Report::default();
    match play_stretches::play(seed, count) {
        Ok(played) => {
            let calls: u64 = played.tallies().iter().map(|tally| tally.total()).sum();
            report.say(format!(
                "{count} pairs of sheets of seed {seed}, {calls} stretches: no difference"
            ));
            report.say_answers(&played.tallies());
            report.say_all(played.lines());
            report.complaints = played.complaints();
        }
        Err(StretchStopped::Differs(difference)) => report.differs(*difference),
        Err(StretchStopped::Parts(parting)) => report.complaints.push(parting.to_string()),
    }
    report
}

fn play_prints(seed: u64, count: u64) -> Report {
    let mut report = Report::default();
    match play_prints::play(seed, count) {
        Ok(played) => {
            report.say(format!("{count} inputs of seed {seed}: no difference"));
            report.say_answers(&[&played.answers]);
            report.say_all(played.lines());
            report.complaints = played.complaints();
        }
        Err(stopped) => report.complaints.push(stopped.to_string()),
    }
    report
}

#[cfg(test)]
mod tests {
    use super::*;

    /// A place to write that fails in this way.
    struct Failing(ErrorKind);

    impl Write for Failing {
        fn write(&mut self, _: &[u8]) -> io::Result<usize> {
            Err(self.0.into())
        }

        fn flush(&mut self) -> io::Result<()> {
            Ok(())
        }
    }

    #[test]
    fn only_a_reader_that_stops_is_no_failure() {
        let mut report = Report::default();
        report.say("a line");
        assert!(report.write_to(&mut Failing(ErrorKind::BrokenPipe)).is_ok());
        assert!(report
            .write_to(&mut Failing(ErrorKind::StorageFull))
            .is_err());
        let mut written = Vec::new();
        report.complaints.push("a complaint".to_string());
        report.write_to(&mut written).expect("room in memory");
        assert_eq!(written, b"a line\na complaint\n");
    }

    fn arguments(line: &str) -> Option<Arguments> {
        let words: Vec<String> = line.split(' ').map(str::to_string).collect();
        Arguments::from_words(&words)
    }

    #[test]
    fn any_seed_and_count_can_be_asked_for() {
        let asked = arguments("runs --seed 7 --count 9").expect("good arguments");
        assert_eq!((asked.seed, asked.count), (7, 9));
        let fixed = arguments("pairs").expect("good arguments");
        assert_eq!(fixed.seed, DEFAULT_SEED);
        assert!(arguments("runs --seed").is_none());
        assert!(arguments("runs --count many").is_none());
        assert!(arguments("walks").is_none());
    }
}
